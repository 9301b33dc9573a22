#!/usr/bin/env bash
# Nanoseconds per byte of reading scripts of 1, 2 and 4 MB into tokens, beside Python's module tokenize, the growth
# from 1 to 4 MB and the ratio of the two. Processor time, the least of some runs: rpy's tokens as a process that repeats a
# block so often, less its time with no block; the module within Python and printing nothing, which is fairer to it than
# `python3 -m tokenize`, which takes more than twice as long.
. "$(dirname "${BASH_SOURCE[0]}")/loops.sh"
exec python3 - <<'PYTHON'
import io
import resource
import subprocess
import sys
import time
import tokenize

from script_block import BENCH, BLOCK


def children():
    used = resource.getrusage(resource.RUSAGE_CHILDREN)
    return used.ru_utime + used.ru_stime


def least(clock, work, times):
    spent = []
    for _ in range(times):
        start = clock()
        work()
        spent.append(clock() - start)
    return min(spent)


def rpy(blocks):
    done = subprocess.run([BENCH, "parse", "tokens", str(blocks), BLOCK])
    if done.returncode != 0:
        sys.exit(f"{blocks} blocks: status {done.returncode}")


def python(text):
    for _ in tokenize.tokenize(io.BytesIO(text).readline):
        pass


before = least(children, lambda: rpy(0), 20)
spent = {}
for wanted in (1_000_000, 2_000_000, 4_000_000):
    blocks = wanted // len(BLOCK)
    size = blocks * len(BLOCK)
    ours = least(children, lambda: rpy(blocks), 9) - before
    theirs = least(time.process_time, lambda: python(BLOCK.encode() * blocks), 2)
    spent[wanted] = ours
    print(
        f"{size} bytes: rpy {ours / size * 1e9:.1f} ns per byte, "
        f"tokenize {theirs / size * 1e9:.1f}, ratio {theirs / ours:.1f}"
    )
print(f"from 1 to 4 MB the time grows {spent[4_000_000] / spent[1_000_000]:.2f} times")
PYTHON
