#!/bin/bash
# Tries the must-fail edits that the gate only reads, must-fail/*.edit.md, of all crates or of those that are named: the
# prover must refuse each. It prints a line a crate, and how many edits are tried and left.
#
#     bench/edits.sh [CRATE..]     status 0 where each is refused; on four processors an hour and a half for all
#
# It works on a copy of the crates in a folder of the cache, where these edits are such as the gate tries. What it
# builds stays there, and `rt` keeps what the edits of a crate came to. So a call goes on where an earlier one was cut
# off, at a crate's begin, and tries again only what has changed. The folder takes up to 5 GB, and may be removed.
cd "$(dirname "$0")/.." || exit 2
room=${XDG_CACHE_HOME:-$HOME/.cache}/rpy/edits
mkdir -p "$room/crates" || exit 2
exec 9>"$room/lock"
flock -n 9 || { echo "bench/edits.sh: another call works in $room" >&2; exit 2; }
trap 'echo "cut off: the next call goes on from here" >&2; exit 130' INT TERM

find "$room/crates" -type f -not -path '*/out/*' -delete
tar --exclude=out -cf - crates crates.txt HANDLES | tar -xf - -C "$room" || exit 2
cd "$room" || exit 2
find crates -path '*/must-fail/*.edit' -delete
for edit in crates/*/must-fail/*.edit.md; do
    mv "$edit" "${edit%.md}"
done

edits_of() { find "crates/$1/must-fail" -name '*.edit' 2>/dev/null | wc -l; }

# Lowest first, as crates.txt has them: so the libraries below each are built.
names=()
left=0
for name in $(sed -n 's/^\([a-z_0-9]*\).*:.*/\1/p' crates.txt); do
    count=$(edits_of "$name")
    if [ "$count" -gt 0 ] && { [ $# -eq 0 ] || [[ " $* " == *" $name "* ]]; }; then
        names+=("$name")
        left=$((left + count))
    fi
done
for name in "$@"; do
    [[ " ${names[*]} " == *" $name "* ]] || { echo "bench/edits.sh: $name has no edits outside the gate" >&2; exit 2; }
done
echo "$left edits in ${#names[@]} crates"

tried=0
status=0
for name in "${names[@]}"; do
    count=$(edits_of "$name")
    said=$(rt must-fail "$name" 2>&1 </dev/null) || status=1
    refused=$(grep -c "^rt: must-fail $name/.*: refused, as it must be" <<<"$said")
    tried=$((tried + count))
    left=$((left - count))
    echo "$name: $refused of $count refused ($tried tried, $left left)"
    if [ "$refused" -lt "$count" ]; then
        status=1
        grep -v ': refused, as it must be' <<<"$said" | tail -n 20
    fi
done
exit $status
