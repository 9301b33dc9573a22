#!/bin/sh
# What the program is made of, by crates.txt, which lists each crate behind those that it names.
#
#     tools/sources.sh lines   the lines of crates.txt of the program's crate and of those below it, lowest first
#     tools/sources.sh paths   what proving and building it reads here: crates.txt, HANDLES, and src/, specs/ and
#                              proofs/ of these crates (no page, no crate of tests, no must-fail edit)
#     tools/sources.sh sum     a sum of all that: of crates.txt the lines of these crates alone
unset CDPATH
cd "$(dirname "$0")/.." || exit 2

# Goes up crates.txt from the program, and prints the lines of its crates.
lines() {
    awk '
        !/^#/ { lines[++count] = $0 }
        END {
            needed["rpy"]
            for (; count > 0; count--) {
                parts = split(lines[count], names, /:? +/)
                sub(/:$/, "", names[1])
                if (!(names[1] in needed)) continue
                order = lines[count] "\n" order
                for (; parts > 1; parts--) needed[names[parts]]
            }
            printf "%s", order
        }' crates.txt
}

folders() {
    for crate in $(lines | sed 's/:.*//'); do
        for part in src specs proofs; do
            [ ! -d "crates/$crate/$part" ] || echo "crates/$crate/$part"
        done
    done
}

case $1 in
lines) lines ;;
paths) echo crates.txt; echo HANDLES; folders ;;
sum)
    {
        lines
        cat HANDLES
        find $(folders) -type f \( -name '*.rt' -o -name '*.antt' \) -print0 | LC_ALL=C sort -z | xargs -0 sha256sum
    } | sha256sum | cut -d' ' -f1
    ;;
*) sed -n '2,/^unset/{/^#/p;}' "$0" >&2; exit 2 ;;
esac
