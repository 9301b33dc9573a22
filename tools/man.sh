#!/bin/sh
# Makes the man page, release/rpy.1, of docs/rpy.1.md, by go-md2man (Debian's go-md2man 2.0.2).
#
#     tools/man.sh
#     tools/man.sh --compare   status 0 if the page is what docs/rpy.1.md gives
unset CDPATH
cd "$(dirname "$0")/.." || exit 2
command -v go-md2man >/dev/null || { echo "man: there is no go-md2man (apt-get install go-md2man)" >&2; exit 2; }

# Without the breaks of paragraphs behind headings, which the page's readers pass by with a warning.
page() { go-md2man -in docs/rpy.1.md | sed '/^\.SH /{N;s/\n\.PP$//;}'; }

case $1 in
"") mkdir -p release && page >release/rpy.1 ;;
--compare)
    page | cmp -s - release/rpy.1 ||
        { echo "man: release/rpy.1 is not what docs/rpy.1.md gives: tools/man.sh" >&2; exit 1; }
    ;;
*) sed -n '2,/^unset/{/^#/p;}' "$0" >&2; exit 2 ;;
esac
