#!/bin/sh
# Puts the program, its man page and its completions for bash and zsh under a folder, or takes them away again.
#
#     tools/install.sh [PREFIX]               /usr/local where none is named; DESTDIR is put before it
#     tools/install.sh --uninstall [PREFIX]   takes away these four files, and nothing else
unset CDPATH
stop() { echo "install: $*" >&2; exit 1; }

away=
[ "$1" != --uninstall ] || { away=1; shift; }
prefix=${1:-/usr/local}
case $prefix in
-*) sed -n '2,/^unset/{/^#/p;}' "$0" >&2; exit 2 ;;
/*) ;;
*) prefix=$PWD/$prefix ;;
esac
[ $# -le 1 ] || stop "one PREFIX at most"
cd "$(dirname "$0")/.." || exit 2

under=${DESTDIR%/}${prefix%/}
program=$under/bin/rpy
page=$under/share/man/man1/rpy.1
for_bash=$under/share/bash-completion/completions/rpy
for_zsh=$under/share/zsh/site-functions/_rpy

if [ "$away" ]; then
    for file in "$program" "$page" "$for_bash" "$for_zsh"; do
        if [ -e "$file" ] || [ -h "$file" ]; then
            rm "$file" || exit 1
            echo "removed $file"
        fi
    done
    exit 0
fi

# The program for this machine: the shipped one, or else one that was proved and built here of these sources.
of_here=release/rpy-x86_64-linux built=crates/rpy/out/rpy
if ! why=$(tools/release.sh --fits 2>&1); then
    of_here=$built
    [ -x "$built" ] && [ ! -e "$built.shipped" ] &&
        [ -z "$(find $(tools/sources.sh paths) -type f -cnewer "$built" -print | head -n 1)" ] ||
        stop "${why#release: }, and none was built here; ./rpy proves and builds it"
fi
[ -f release/rpy.1 ] || stop "there is no release/rpy.1: tools/man.sh makes it"
completions=$(mktemp -d) || exit 1
trap 'rm -r "$completions"' EXIT
tools/completions.sh bash >"$completions/bash" && tools/completions.sh zsh >"$completions/zsh" || exit 1

# put FROM TO MODE: moved into place whole, so that a program that runs meanwhile goes on.
put() {
    mkdir -p "${2%/*}" && cp "$1" "$2.new" && chmod "$3" "$2.new" && mv -f "$2.new" "$2" || stop "$2 cannot be written"
    echo "installed $2"
}
put "$of_here" "$program" 755
put release/rpy.1 "$page" 644
put "$completions/bash" "$for_bash" 644
put "$completions/zsh" "$for_zsh" 644
