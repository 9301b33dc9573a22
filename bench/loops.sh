#!/usr/bin/env bash
# Read by the benches that time loops: goes to the top of the repository, proves and builds the loops where they are
# missing or older than their sources, and sets RPY_BENCH to the path of their program.
#
#     bench/loops.sh              the same, and prints the path
#     bench/loops.sh must-fail    tries the edits of the loops; status 0 where the prover refuses each
#
# The loops are a crate `rp_bench` that the gate does not prove. Its files stand in bench/loops. There each .rt and
# .antt has .txt behind its name, since `rt ci` refuses such a file outside of a crate. The crate's line of crates.txt
# is crates.line. All that is put beside a copy of the crates in a folder of the cache. The folder stays, so the next
# call finds all built. It takes up to 5 GB, and may be removed. With RPY_BENCH set, that program is taken. Without
# words the program does nothing.
cd "$(dirname "${BASH_SOURCE[0]}")/.." || exit 2
export PYTHONPATH=bench PYTHONDONTWRITEBYTECODE=1
# (called by itself, it takes no other program)
[ "${BASH_SOURCE[0]}" != "$0" ] || unset RPY_BENCH
loops_copy=${XDG_CACHE_HOME:-$HOME/.cache}/rpy/loops

# Makes the copy: all crates, and the loops as one of them.
copy_loops() {
    local crate=$loops_copy/crates/rp_bench
    mkdir -p "$crate" || return
    find "$loops_copy/crates" -type f -not -path '*/out/*' -delete
    tar --exclude=out --exclude=must-fail -cf - crates HANDLES | tar -xf - -C "$loops_copy" || return
    cat crates.txt bench/loops/crates.line >"$loops_copy/crates.txt" || return
    cp -Rp bench/loops/. "$crate" || return
    rm "$crate/crates.line"
    find "$crate" -name '*.txt' -not -path '*/out/*' -exec sh -c 'for file; do mv "$file" "${file%.txt}"; done' sh {} +
}

# The crates below the loops, lowest first: crates.txt lists each behind those that it names.
loops_libraries() {
    awk '
        !/^#/ { lines[++count] = $0 }
        END {
            needed["rp_bench"]
            for (; count > 0; count--) {
                parts = split(lines[count], names, /:? +/)
                if (!(names[1] in needed)) continue
                if (names[1] != "rp_bench") order = names[1] " " order
                for (; parts > 1; parts--) needed[names[parts]]
            }
            print order
        }' "$loops_copy/crates.txt"
}

# Proves and builds the loops in the copy: each library, and then the program, which `rt run` also runs.
build_loops() {
    local library said
    copy_loops || return
    for library in $(loops_libraries); do
        said=$(cd "$loops_copy/crates/$library" && rt lib 2>&1 </dev/null) || { echo "$said" >&2; return 1; }
    done
    said=$(cd "$loops_copy/crates/rp_bench" && rt run 2>&1 </dev/null) || { echo "$said" >&2; return 1; }
    touch "$loops_copy/crates/rp_bench/out/rp_bench"
}

are_loops_current() {
    local changed
    [ -x "$1" ] || return
    changed=$(find crates.txt HANDLES crates bench/loops -name out -prune -o -type f -newer "$1" -print | head -n 1)
    [ -z "$changed" ]
}

if [ -z "${RPY_BENCH:-}" ]; then
    export RPY_BENCH=$loops_copy/crates/rp_bench/out/rp_bench
    mkdir -p "$loops_copy" || exit 2
    # One call builds at a time.
    if ! (flock 9 && { are_loops_current "$RPY_BENCH" || build_loops; }) 9>"$loops_copy/lock"; then
        echo "bench/loops.sh: the loops were not built" >&2
        exit 2
    fi
fi

# Called by itself, and not read.
if [ "${BASH_SOURCE[0]}" = "$0" ]; then
    case "$*" in
        "") echo "$RPY_BENCH" ;;
        must-fail) cd "$loops_copy" && exec rt must-fail rp_bench ;;
        *) echo "bench/loops.sh: no word, or must-fail" >&2; exit 2 ;;
    esac
fi
