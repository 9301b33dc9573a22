#!/bin/sh
# The program that the repository ships, release/rpy-x86_64-linux, and release/MANIFEST: its sum, that of its sources
# (tools/sources.sh sum), and the kit that built it.
#
#     tools/release.sh            takes the program that `rt ci` left in crates/rpy/out
#     tools/release.sh --compare  status 0 if that is the shipped one, byte for byte, and these sources are its own
#     tools/release.sh --fits     status 0 if these sources are its own, it is whole, and it starts on this machine
unset CDPATH
cd "$(dirname "$0")/.." || exit 2
built=crates/rpy/out/rpy shipped=release/rpy-x86_64-linux manifest=release/MANIFEST

stop() { echo "release: $*" >&2; exit 1; }
sum_of() { sha256sum "$1" | cut -d' ' -f1; }
said() { sed -n "s/^$1 //p" "$manifest"; }

# Where ./rpy copied the shipped program, it says so beside it.
is_built() { [ -f "$built" ] && [ ! -e "$built.shipped" ]; }

is_of_these() {
    [ -f "$shipped" ] && [ -f "$manifest" ] || stop "there is no $shipped with its $manifest"
    [ "$(said program)" = "$(sum_of "$shipped")" ] || stop "$shipped is not the file of which $manifest speaks"
    [ "$(said sources)" = "$(tools/sources.sh sum)" ] || stop "$shipped was built from other sources than these"
}

case $1 in
--fits)
    [ "$(uname -sm)" = "Linux x86_64" ] || stop "$shipped is for Linux on x86-64"
    is_of_these
    # It cannot where the C library is not glibc 2.34 or later, or the processor lacks a feature.
    case $("$shipped" </dev/null 2>/dev/null) in
    "usage: rpy "*) ;;
    *) stop "$shipped does not start on this machine" ;;
    esac
    ;;
--compare)
    is_built || stop "rt ci left no $built"
    is_of_these
    cmp -s "$built" "$shipped" || stop "$shipped (by $(said kit)) is not what $(rt version) builds from these sources"
    ;;
"")
    is_built || stop "there is no $built that rt ci left: run rt ci"
    changed=$(find $(tools/sources.sh paths) -type f -cnewer "$built" -print | head -n 1)
    [ -z "$changed" ] || stop "$changed was changed behind $built: run rt ci"
    kit=$(rt version) && [ -n "$kit" ] || stop "rt version does not tell the kit"
    mkdir -p release && cp "$built" "$shipped" && chmod 755 "$shipped" || exit 2
    {
        echo "program $(sum_of "$shipped")"
        echo "sources $(tools/sources.sh sum)"
        echo "kit $kit"
    } >"$manifest"
    ;;
*) sed -n '2,/^unset/{/^#/p;}' "$0" >&2; exit 2 ;;
esac
