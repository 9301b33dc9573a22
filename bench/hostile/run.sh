#!/usr/bin/env bash
# What a script would do to slow or swell the interpreter, each beside the plain thing and beside CPython: tables whose keys all
# had one hash under the fixed hasher that they once had (names of a script, keys of a dict), emptying a dict of 100,000 keys from
# the front, lengths, characters and slices of texts of 100,000 characters, exceptions whose long texts cost no cells, and scripts of
# 4 MB, of 198 blocks within one another, and over 100,000 elements and keys.
# For each it prints processor seconds, peak megabytes, and CPython's over ours. Builds what it needs. Asks for Linux (wait4).
. "$(dirname "${BASH_SOURCE[0]}")/../loops.sh"
./rpy >/dev/null 2>&1 </dev/null
exec python3 bench/hostile/measure.py
