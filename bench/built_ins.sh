#!/usr/bin/env bash
# Nanoseconds of calls of built-in functions and methods, beside CPython's for the same call in the same run, as CPython's time over
# ours: `len`, `range(1000)`, `sorted`, `sum`, `enumerate` and `zip` of 1,000 numbers as lists, `append` and `pop` of a list, `get` of
# a dict, `join` and `split` of 1,000 words; and the binding of three arguments by position, beside CPython's call of an empty
# function. Ours are calls with the values at hand, without the finding of a name. Processor time, the least of some runs, less that
# of an idle loop of the same number of turns on each side.
. "$(dirname "${BASH_SOURCE[0]}")/loops.sh"
exec python3 - <<'PYTHON'
import os
import sys
import time
import timeit

BENCH = os.environ["RPY_BENCH"]
TIMES = 5


def process(what, turns):
    """Processor seconds of a process."""
    child = os.spawnv(os.P_NOWAIT, BENCH, [BENCH, "built-ins", what, str(turns)])
    _, status, used = os.wait4(child, 0)
    if status != 0:
        sys.exit(f"{what} {turns}: status {status}")
    return used.ru_utime + used.ru_stime


def rpy(what, turns):
    """What a turn takes, without what the process takes with nothing to do."""
    begun = min(process(what, 0) for _ in range(TIMES))
    return (min(process(what, turns) for _ in range(TIMES)) - begun) / turns


def cpython(statement, setup, turns):
    return min(timeit.repeat(statement, setup, time.process_time, TIMES, turns)) / turns


NUMBERS = "xs = [i * 617 % 1000 for i in range(1000)]"
CALLS = [
    ("len", "len", 2_000_000, "len(xs)", NUMBERS),
    ("range(1000)", "range", 2_000, "list(range(1000))", "pass"),
    ("sorted of 1,000", "sorted", 2_000, "sorted(xs)", NUMBERS),
    ("sum of 1,000", "sum", 2_000, "sum(xs)", NUMBERS),
    ("enumerate of 1,000", "enumerate", 500, "list(enumerate(xs))", NUMBERS),
    ("zip of 1,000", "zip", 500, "list(zip(xs, xs))", NUMBERS),
    ("append", "append", 2_000_000, "xs.append(1)", "xs = []"),
    ("append and pop", "append_pop", 2_000_000, "xs.append(1); xs.pop()", "xs = []"),
    ("get of a dict of 1,000", "get", 2_000_000, "d.get(617)", "d = dict.fromkeys(range(1000))"),
    ("binding of three", "bind", 2_000_000, "f(0, 1, 2)", "def f(a, b, c): pass"),
    ("join of 1,000", "join", 2_000, "', '.join(xs)", "xs = ['abc'] * 1000"),
    ("split into 1,000", "split", 2_000, "s.split()", "s = 'abc ' * 1000"),
]
idle_here = rpy("idle", 20_000_000)
idle_there = cpython("pass", "pass", 2_000_000)
print(f"an idle turn: rpy {idle_here * 1e9:.1f} ns, CPython {idle_there * 1e9:.1f} ns")
for title, what, turns, statement, setup in CALLS:
    ours = (rpy(what, turns) - idle_here) * 1e9
    theirs = (cpython(statement, setup, turns) - idle_there) * 1e9
    print(f"{title}: rpy {ours:.1f} ns, CPython {theirs:.1f} ns, CPython's over ours {theirs / max(ours, 0.1):.1f}")
PYTHON
