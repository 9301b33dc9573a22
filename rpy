#!/bin/sh
# Runs rpy with the given words; a symbolic link to this file does the same.
#
#     ./rpy WORDS..
#
# The program is crates/rpy/out/rpy. Where that is missing, or a source was changed behind it, the shipped program is
# taken, release/rpy-x86_64-linux, if its sums in release/MANIFEST fit these sources and it starts on this machine. If
# not, the program is proved and built, which takes an hour or more and wants the kit. What this tells goes to standard
# error. Where there is no program in the end, the status is 70.
#
# The sums take a fifth of a second, so they are taken once: that they fitted is remembered by a copy in out/. Each call
# looks only whether a file or folder in some src/ was changed behind that, which takes some 4 ms. It passes by specs/
# and proofs/, which make no code and would take 20 more: what they say is for the gate.
unset CDPATH
case $0 in */*) self=$0 ;; *) self=./$0 ;; esac
while [ -h "$self" ]; do
    link=$(readlink "$self") || break
    case $link in /*) self=$link ;; *) self=${self%/*}/$link ;; esac
done
top=${self%/*}/
built=crates/rpy/out/rpy shipped=release/rpy-x86_64-linux
# Says that the program in out/ is a copy of the shipped one.
is_copy=$built.shipped

# Whether this program is there and nothing was changed behind it. The time of a change of state (-cnewer) tells it also
# where a file bears an old time, as behind `cp -p` or `tar`.
is_current() {
    [ -x "$top$1" ] || return
    changed=$(cd -- "$top" && exec find crates.txt crates/*/src -cnewer "$1" -print 2>/dev/null) && [ -z "$changed" ]
}

# Whether the program in out/ can be run. A copy of the shipped one stands only as long as release/ does.
is_ready() {
    [ ! -e "$top$is_copy" ] || [ -e "$top$shipped" ] || return
    is_current "$built"
}

# In a clone that this user cannot write nothing can be remembered. There the shipped program runs where it lies, if the
# loader that it asks for is there and no source was changed behind it: git writes release/ behind crates/.
is_lying_there() { [ ! -w "${top}crates/rpy" ] && [ -e /lib64/ld-linux-x86-64.so.2 ] && is_current "$shipped"; }

# Copies the shipped program to where a built one stands, if it fits. The copy is made before the sums are taken, so
# that a source that is changed meanwhile is newer. Where nothing can be written, the shipped program runs as it is.
take() {
    new=$top$built.$$
    { mkdir -p "${top}crates/rpy/out" && cp "$top$shipped" "$new"; } 2>/dev/null || rm -f "$new"
    why=$("${top}tools/release.sh" --fits 2>&1) || { rm -f "$new"; return 1; }
    { touch "$top$is_copy" && mv -f "$new" "$top$built"; } 2>/dev/null || program=$shipped
}

fail() { echo "rpy: $*" >&2; exit 70; }

# Proves and builds the program by `rt ci` in a copy that has its crates alone, without their must-fail edits. So crates
# are proved side by side, over what the gate or an earlier call proved on this machine, and each is kept where this is
# ended. One call builds at a time, and others wait: the system lets go of the lock where a call ends, however it ends.
# The program bears the time at which the sources were copied.
build() {
    why=${why#release: }
    [ -w "${top}crates/rpy" ] || fail "$why, and ${top}crates/rpy cannot be written: make a clone of your own"
    command -v rt >/dev/null || fail "$why, and there is no rt on the path to prove and build the program"
    exec 9<"${top}crates.txt"
    if command -v flock >/dev/null && ! flock -n 9; then
        echo "rpy: another call proves and builds the program; waiting for it" >&2
        flock 9
        if is_ready; then
            exec 9<&-
            return
        fi
    fi
    echo "rpy: $why: proving and building the program; the first time this takes an hour or more" >&2
    child=
    room=$(mktemp -d) || fail "the program was not built"
    trap 'end 129' HUP
    trap 'end 130' INT
    trap 'end 143' TERM
    (
        cd -- "$top" && tools/sources.sh lines >"$room/crates.txt" && cp HANDLES "$room" &&
            folders=$(tools/sources.sh lines | sed 's|:.*||; s|^|crates/|') &&
            tar --exclude=out --exclude=must-fail -cf - $folders | tar -xf - -C "$room"
    ) || end 70
    jobs=$("${top}tools/jobs.sh")
    (cd "$room" && RT_JOBS=$jobs exec rt ci) >&2 </dev/null 9<&- &
    child=$!
    wait "$child" || end 70
    new=$top$built.$$
    mkdir -p "${top}crates/rpy/out" && cp "$room/$built" "$new" && touch -r "$room/crates.txt" "$new" &&
        rm -f "$top$is_copy" && mv -f "$new" "$top$built" || end 70
    trap - HUP INT TERM
    rm -rf "$room"
    exec 9<&-
}

# Ends a build; all that `rt` started ends with it.
end() {
    trap '' HUP INT TERM
    [ -z "$child" ] || { kill "$child" && wait "$child"; } 2>/dev/null
    rm -rf "$room" 2>/dev/null || { sleep 1; rm -rf "$room"; }
    [ "$1" -ne 70 ] || fail "the program was not built"
    exit "$1"
}

program=$built
if ! is_ready; then
    for part in crates.txt tools/release.sh tools/sources.sh tools/jobs.sh; do
        [ -f "$top$part" ] || fail "there is no $top$part: this file runs in its clone, so link to it, or call it there"
    done
    is_lying_there && program=$shipped || take || build
fi
exec "$top$program" "$@"
