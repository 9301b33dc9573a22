#!/usr/bin/env bash
# What a stack of 1 MB is enough for, in two parts; status 1 where a test or a script fails on it.
# First each test of the crates of tests, by the programs of tests that `rt ci` leaves behind: how many passed of each crate, and
# the names of those that did not. Then scripts and declaration files of 4 MB, of one form each, that `check`, `show`, `run` and
# `may` read and run to their end (bench/hostile/lists.py). What the deepest scripts need is measured by bench/hostile/deep.py.
cd "$(dirname "${BASH_SOURCE[0]}")/.." || exit 2
ulimit -s 1024
status=0 found=0
for program in crates/*/out/*_tests; do
    [ -x "$program" ] || continue
    found=1 passed=0
    tests=$("$program" --list | sed -n 's/: test$//p')
    for test in $tests; do
        if "$program" "$test" >/dev/null 2>&1; then
            passed=$((passed + 1))
        else
            echo "failed: $program $test"
            status=1
        fi
    done
    echo "$(basename "$program" _tests): $passed of $(wc -w <<<"$tests")"
done
[ $found = 1 ] || { echo "no program of tests: run rt ci first"; status=1; }
./rpy >/dev/null 2>&1 </dev/null
python3 bench/hostile/lists.py || status=1
exit $status
