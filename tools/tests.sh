#!/bin/bash
# Tries ./rpy and the scripts of tools/ in small repositories of their own, with stand-ins for the program and for `rt`:
# nothing is proved. Prints a line for each case that failed; the last line counts. It takes some seconds.
#
#     tools/tests.sh       status 0 where each case passed; as root it also tries calls of another user (by setpriv)
here=$(cd "$(dirname "$0")/.." && pwd) || exit 2
room=$(mktemp -d) || exit 2
trap 'chmod -R u+w "$room"; rm -rf "$room"' EXIT
chmod 755 "$room"
passed=0 failed=0
plain=/usr/bin:/bin
kit=$room/kit:$plain

# is NAME WANTED FOUND: FOUND is WANTED, or fits it where it has a `*`.
is() {
    # shellcheck disable=SC2053
    if [[ $3 == $2 ]]; then
        passed=$((passed + 1))
    else
        failed=$((failed + 1))
        printf 'failed: %s\n  wanted %s\n  found  %s\n' "$1" "$2" "$3"
    fi
}

# What a command writes, and its status.
said() {
    local text
    text=$("$@" 2>&1 </dev/null)
    echo "$text =$?"
}

# call CLONE WORDS..: ./rpy without a toolchain; prove CLONE WORDS..: with the stand-in for `rt`.
call() { said env -i PATH=$plain "$@"; }
prove() { said env -i PATH="$kit" ROOM="$room" "$@"; }

program() { printf '#!/bin/sh\n[ $# -gt 0 ] || { echo "usage: rpy run"; exit 2; }\necho "%s $*"\n' "$1"; }

mkdir "$room/kit" "$room/arm" "$room/origin"
program built >"$room/program"
cat >"$room/kit/rt" <<'RT'
#!/bin/sh
case $1 in
version) echo "stand-in logic 0" ;;
ci)
    echo "$$" >>"$ROOM/begun"
    echo crates/* crates/*/must-fail >"$ROOM/crates"
    while [ -f "$ROOM/hold" ]; do sleep 0.1; done
    ! grep -q refused crates/*/src/*.rt || { echo "0 passed, 1 failed"; exit 1; }
    rm -rf crates/rpy/out && mkdir crates/rpy/out && cp "$ROOM/program" crates/rpy/out/rpy
    echo "rt: proved"
    echo "3 passed, 0 failed"
    ;;
esac
RT
printf '#!/bin/sh\necho Linux aarch64\n' >"$room/arm/uname"
chmod 755 "$room/kit/rt" "$room/arm/uname" "$room/program"

# A repository of three crates, with the scripts of this one and a release of the stand-in.
cd "$room/origin" || exit 2
git init -q . && git config user.name tests && git config user.email tests@localhost
for crate in base rpy rpy_tests; do
    mkdir -p crates/$crate/src crates/$crate/specs crates/$crate/must-fail
    echo "// $crate" >crates/$crate/src/lib.rt
    echo "-- $crate" >crates/$crate/specs/Lib.antt
done
printf '# a crate: those that it names\nbase: toml\nrpy: base\nrpy_tests: rpy base\n' >crates.txt
echo "Handles allowed: none." >HANDLES
cp -r "$here/rpy" "$here/tools" "$here/.gitattributes" "$here/.gitignore" "$here/.ci" .
mkdir docs release
cp "$here/docs/rpy.1.md" docs/
cp "$here/release/rpy.1" release/
env PATH="$kit" ROOM="$room" rt ci >/dev/null && env PATH="$kit" tools/release.sh || exit 2
git add -A && git commit -qm release
clone() { rm -rf "$room/$1" && git clone -q "$room/origin" "$room/$1" && cd "$room/$1" || exit 2; }

is "the program's crates" "base rpy" "$(tools/sources.sh lines | sed 's/:.*//' | paste -sd ' ')"
is "the manifest" "program * sources * kit stand-in logic 0" "$(paste -sd ' ' release/MANIFEST)"

clone plain
is "a new clone" "built a b c =0" "$(call ./rpy a 'b c')"
is "remembered by a copy" " =0" "$(said cmp release/rpy-x86_64-linux crates/rpy/out/rpy)"
is "nothing else changed" "" "$(git status --porcelain)"
printf '#!/bin/sh\nexit 1\n' >tools/release.sh
is "the second call takes no sums" "built x =0" "$(call ./rpy x)"
git checkout -q tools/release.sh
echo "more" >>README.md
is "a page changed" "built x =0" "$(call ./rpy x)"
echo "// more" >>crates/rpy_tests/src/lib.rt
is "a crate of tests changed" "built x =0" "$(call ./rpy x)"
is "no words" "usage: rpy run =2" "$(call ./rpy)"
is "called from elsewhere" "built x =0" "$(cd / && call "$room/plain/rpy" x)"
is "by sh" "built x =0" "$(call sh rpy x)"
is "CDPATH" "built x =0" \
    "$(said env -i PATH=$plain CDPATH=/:/usr sh -c 'cd / && cd "$0/.." && plain/rpy x' "$PWD")"

# Links to it.
mkdir -p "$room/bin/deep" "$room/a b"
ln -s "$room/plain/rpy" "$room/bin/one"
ln -s ../bin/one "$room/bin/two"
ln -s ../../plain/rpy "$room/bin/deep/three"
ln -s deep/three "$room/bin/four"
for link in one two deep/three four; do is "link $link" "built x =0" "$(call "$room/bin/$link" x)"; done
is "link by a short path" "built x =0" "$(cd "$room/bin" && call ./four x)"
is "link on the path" "built x =0" "$(said env -i PATH="$room/bin:$plain" four x)"
clone "a b/c d"
is "a path with blanks" "built x =0" "$(call ./rpy x)"
ln -s "$room/a b/c d/rpy" "$room/a b/l k"
is "link with blanks" "built x =0" "$(call "$room/a b/l k" x)"
cp "$room/plain/rpy" "$room/bin/copy"
is "a copy elsewhere" "rpy: there is no $room/bin/crates.txt: *link to it*=70" "$(call "$room/bin/copy" x)"

# Sources that were changed.
clone changed
is "before" "built x =0" "$(call ./rpy x)"
echo "// comment" >>crates/base/src/lib.rt
wanted="rpy: release/rpy-x86_64-linux was built from other sources than these, and there is no rt on the path*=70"
is "a source changed, no kit" "$wanted" "$(call ./rpy x)"
git checkout -q crates
is "and changed back" "built x =0" "$(call ./rpy x)"
cp -p crates/base/src/lib.rt "$room/old" && echo "// other" >"$room/new" && touch -d 2001-01-01 "$room/new"
cp -p "$room/new" crates/base/src/lib.rt
is "changed under an old time" "$wanted" "$(call ./rpy x)"
cp -p "$room/old" crates/base/src/lib.rt
is "and back under its time" "built x =0" "$(call ./rpy x)"
touch crates/base/src/.lib.rt.swp
is "an editor's file beside it" "built x =0" "$(call ./rpy x)"
mv crates/base/src/lib.rt crates/base/src/lib.rt~
is "a source gone" "$wanted" "$(call ./rpy x)"
mv crates/base/src/lib.rt~ crates/base/src/lib.rt
echo "// comment" >>crates/base/src/lib.rt
: >"$room/begun"
is "a source changed" "rpy: *other sources*proving and building*3 passed, 0 failed*built x =0" "$(prove ./rpy x)"
is "of its crates alone" "crates/base crates/rpy crates/\*/must-fail" "$(cat "$room/crates")"
is "built once" "built x =0 1" "$(prove ./rpy x) $(wc -l <"$room/begun")"
echo "refused" >>crates/base/src/lib.rt
is "not proved" "rpy: *0 passed, 1 failed*rpy: the program was not built =70" "$(prove ./rpy x)"

# The shipped program changed.
clone tampered
program other >release/rpy-x86_64-linux
is "tampered with" "rpy: release/rpy-x86_64-linux is not the file*=70" "$(call ./rpy x)"
sum=$(sha256sum release/rpy-x86_64-linux | cut -d' ' -f1)
sed -i "s/^program .*/program $sum/" release/MANIFEST
is "with its manifest" "other x =0" "$(call ./rpy x)"
program third >release/rpy-x86_64-linux
is "behind the copy" "other x =0" "$(call ./rpy x)"
program other >release/rpy-x86_64-linux
is "the gate refuses it" "*is not what stand-in logic 0 builds*3 passed, 1 failed =1" "$(prove .ci/run)"
clone gate
is "the gate" "rt: proved
release: the shipped program is the one that was built
4 passed, 0 failed =0" "$(prove .ci/run)"
is "built by the gate" "built x =0" "$(prove ./rpy x)"
echo "// comment" >>crates/base/src/lib.rt
is "the gate, other sources" "*other sources*3 passed, 1 failed =1" "$(prove .ci/run)"
is "a new release" " =0" "$(prove tools/release.sh)"
is "changes one line" " 1 file changed, 1 insertion(+), 1 deletion(-)" "$(git diff --shortstat -- release)"
is "the gate again" "*4 passed, 0 failed =0" "$(prove .ci/run)"
echo "// comment" >>crates/base/src/lib.rt
is "no release behind a change" "release: crates/base/src/lib.rt was changed behind *=1" "$(prove tools/release.sh)"
echo "refused" >>crates/base/src/lib.rt
is "the gate where rt ci fails" "0 passed, 1 failed =1" "$(prove .ci/run)"
clone copied
call ./rpy x >/dev/null
is "no release of a copy" "release: there is no * that rt ci left*=1" "$(prove tools/release.sh)"
is "no comparison with a copy" "release: rt ci left no *=1" "$(prove tools/release.sh --compare)"

# No release for this machine.
clone other
is "another processor" "rpy: *is for Linux on x86-64, and there is no rt*=70" \
    "$(said env -i PATH="$room/arm:$plain" ./rpy x)"
is "proves there" "rpy: *is for Linux on x86-64: proving*built x =0" \
    "$(said env -i PATH="$room/arm:$kit" ROOM="$room" ./rpy x)"
clone broken
printf '#!/bin/sh\nexit 127\n' >release/rpy-x86_64-linux
sed -i "s/^program .*/program $(sha256sum release/rpy-x86_64-linux | cut -d' ' -f1)/" release/MANIFEST
is "does not start" "rpy: *does not start on this machine, and*=70" "$(call ./rpy x)"
clone none
call ./rpy x >/dev/null
rm -r release
is "no release" "rpy: there is no release/rpy-x86_64-linux with its release/MANIFEST, and*=70" "$(call ./rpy x)"
is "no release, kit" "rpy: there is no *: proving and building*built x =0" "$(prove ./rpy x)"
is "no release, built" "built x =0" "$(call ./rpy x)"
clone nogit
rm -rf .git
is "no git" "built x =0" "$(call ./rpy x)"

# Two calls at once, and calls that were ended.
until_there() { for _ in {1..600}; do [ ! -s "$1" ] || return; sleep 0.1; done; }
clone twice
rm -r release
touch "$room/hold" && : >"$room/begun"
prove ./rpy one >"$room/first" &
until_there "$room/begun"
env -i PATH="$kit" ROOM="$room" ./rpy two >"$room/second" 2>&1 &
until_there "$room/second"
rm "$room/hold"
wait
is "the first" "rpy: there is no *built one =0" "$(cat "$room/first")"
is "the second waits" "rpy: another call proves and builds the program; waiting for it
built two" "$(cat "$room/second")"
is "built once by two" 1 "$(wc -l <"$room/begun")"
clone ended
rm -r release
for signal in TERM INT KILL; do
    touch "$room/hold" && : >"$room/begun"
    # Python starts it, since a shell would have it ignore INT.
    python3 -c 'import os, signal, subprocess, sys, time
signal.signal(signal.SIGINT, signal.SIG_DFL)
call = subprocess.Popen(sys.argv[3:], stdout=subprocess.DEVNULL, stderr=subprocess.DEVNULL)
while call.poll() is None and not os.path.getsize(sys.argv[1]): time.sleep(0.1)
call.send_signal(getattr(signal, "SIG" + sys.argv[2]))
print(call.wait())' "$room/begun" $signal env -i PATH="$kit" ROOM="$room" TMPDIR="$room/bin" ./rpy x >"$room/status"
    rt=$(cat "$room/begun")
    case $signal in
    TERM) is "ended by TERM" 143 "$(cat "$room/status")" ;;
    INT) is "ended by INT" 130 "$(cat "$room/status")" ;;
    KILL) is "ended by KILL" -9 "$(cat "$room/status")" ;;
    esac
    if [ $signal != KILL ]; then
        is "nothing left behind $signal" "" "$(ls -d "$room"/bin/tmp.* 2>/dev/null)"
        is "nothing running behind $signal" 1 "$(kill -0 "$rt" 2>/dev/null; echo $?)"
    fi
    rm "$room/hold"
    is "built behind $signal" "rpy: there is no *built x =0" "$(prove ./rpy x)"
    rm crates/rpy/out/rpy
done

# A source changed while the program is built.
clone meanwhile
rm -r release
touch "$room/hold" && : >"$room/begun"
prove ./rpy one >/dev/null &
until_there "$room/begun"
echo "// comment" >>crates/base/src/lib.rt
rm "$room/hold"
wait
is "changed while it was built" "rpy: there is no *proving*built x =0" "$(prove ./rpy x)"

# Another user, who cannot write.
if [ "$(id -u)" = 0 ]; then
    as() { said setpriv --reuid=65534 --regid=65534 --clear-groups env -i PATH="$plain" "$@"; }
    clone shared
    printf '#!/bin/sh\nexit 1\n' >tools/release.sh
    is "another user, without sums" "built x =0" "$(as ./rpy x)"
    git checkout -q tools/release.sh
    touch crates/base/src/lib.rt
    is "another user, with sums" "built x =0" "$(as ./rpy x)"
    echo "// comment" >>crates/base/src/lib.rt
    is "another user, a source changed" "rpy: *other sources*cannot be written: make a clone of your own =70" \
        "$(as ./rpy x)"
    git checkout -q crates && call ./rpy x >/dev/null
    is "another user, remembered" "built x =0" "$(as ./rpy x)"
fi
# Installing.
clone installed
files="$room/at/usr/bin/rpy
$room/at/usr/share/bash-completion/completions/rpy
$room/at/usr/share/man/man1/rpy.1
$room/at/usr/share/zsh/site-functions/_rpy"
is "install" "installed $room/at/usr/bin/rpy*_rpy =0" \
    "$(said env -i PATH=$plain DESTDIR="$room/at" tools/install.sh /usr)"
is "its files" "$files" "$(find "$room/at" -type f | LC_ALL=C sort)"
is "what is installed" "built x =0" "$(call "$room/at/usr/bin/rpy" x)"
touch "$room/at/usr/bin/other"
is "uninstall" "removed *_rpy =0" "$(said env -i PATH=$plain DESTDIR="$room/at" tools/install.sh --uninstall /usr)"
is "what is left" "$room/at/usr/bin/other" "$(find "$room/at" -type f)"
is "uninstall again" " =0" "$(said tools/install.sh --uninstall "$room/at/usr")"
is "install under a folder" "installed $PWD/a b/bin/rpy*=0" "$(said tools/install.sh 'a b')"
is "install for another processor" "install: *is for Linux on x86-64, and none was built here*=1" \
    "$(said env -i PATH="$room/arm:$plain" tools/install.sh "$room/at/usr")"
said env -i PATH="$room/arm:$kit" ROOM="$room" ./rpy x >/dev/null
is "install what was built here" "installed *=0" \
    "$(said env -i PATH="$room/arm:$plain" tools/install.sh "$room/at/usr")"

# Completions.
mkdir -p "$room/words/folder" && cd "$room/words" && touch site.toml a.py "b c.py" trail.txt || exit 2
# complete WORDS..: what bash offers for the last one.
complete_of() {
    bash -c '. /dev/stdin; COMP_WORDS=(rpy "$@"); COMP_CWORD=$#; _rpy; IFS="|"; echo "${COMPREPLY[*]}"' bash "$@" \
        < <("$here/tools/completions.sh" bash)
}
is "commands" "run|check|show|may|large" "$(complete_of '')"
is "a command" "check" "$(complete_of c)"
is "declarations" "folder|site.toml" "$(complete_of may '')"
is "scripts" "a.py|b c.py|folder" "$(complete_of check '')"
is "behind a script" "" "$(complete_of check a.py '')"
is "options" "--steps|--cells|--turns|--trail" "$(complete_of run site.toml --)"
is "an option" "--trail" "$(complete_of run site.toml --tr)"
is "no options" "" "$(complete_of may --)"
is "the value of an option" "" "$(complete_of run site.toml --steps '')"
is "the value of an option, =" "" "$(complete_of run site.toml --steps = '')"
is "declarations behind an option" "folder|site.toml" "$(complete_of run --steps 5 '')"
is "declarations behind an option, =" "folder|site.toml" "$(complete_of run --steps = 5 '')"
is "a pair" "a.py|b c.py|folder" "$(complete_of run site.toml kim :)"
is "a pair begun" "a.py" "$(complete_of run site.toml kim : a)"
is "another pair" "a.py" "$(complete_of run site.toml kim : a.py --trail lee : a)"
is "a pair as one word" "kim:a.py" "$(complete_of run site.toml kim:a)"
is "who" "" "$(complete_of run site.toml k)"
is "no such command" "" "$(complete_of other '')"
if command -v zsh >/dev/null; then
    mkdir "$room/functions" && "$here/tools/completions.sh" zsh >"$room/functions/_rpy"
    is "zsh reads it" " =0" "$(said zsh -n "$room/functions/_rpy")"
    # What stands in the line behind the key TAB, in a zsh of its own.
    zsh_of() {
        zsh -fc 'zmodload zsh/zpty; zpty z zsh -fi
            zpty -w z "PS1=; unsetopt zle_bracketed_paste; fpath=($1 \$fpath); autoload -Uz compinit; compinit -u -D"
            zpty -w z "bindkey \"^I\" complete-word; show() { print -r \"<\$BUFFER>\"; BUFFER=; zle accept-line }"
            zpty -w z "zle -N show; bindkey \"^X\" show; echo read\"\"y"
            zpty -r z text "*ready*"; zpty -n -w z "$2"$'"'\t\C-x'"'; zpty -r z text "*<*>*"; print -r -- "$text"' \
            zsh "$room/functions" "$1" | tr -d '\r' | sed -n 's/.*<\(.*\)>.*/\1/p' | tail -n 1
    }
    is "zsh: a command" "rpy check " "$(zsh_of 'rpy ch')"
    is "zsh: declarations" "rpy may site.toml " "$(zsh_of 'rpy may s')"
    is "zsh: a script" "rpy check a.py " "$(zsh_of 'rpy check a')"
    is "zsh: a pair" "rpy run site.toml kim:a.py " "$(zsh_of 'rpy run site.toml kim:a')"
    is "zsh: an option" "rpy run site.toml --trail " "$(zsh_of 'rpy run site.toml --tr')"
fi
cd "$here" || exit 2
echo "$passed passed, $failed failed"
[ $failed -eq 0 ]
