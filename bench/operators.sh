#!/usr/bin/env bash
# Nanoseconds of the plain operators on values, beside CPython's for the same operation in the same run, as CPython's time over
# ours: adding numbers, joining texts, characters and slices, items and slices of a list, membership, equality and walks of lists of
# ten numbers, appending, fields and methods of an instance, reading, setting and replacing keys of dicts of 10 and of 1,000,000
# entries, one key next to the last and far from it, and showing a list of 1,000 numbers. Before that, the bytes that a store takes
# for each cell, filled with lists, dicts and instances of some sizes. Processor time, the least of some runs, less that of an idle
# loop of the same number of turns on each side.
#
# With the word `instructions`, what callgrind counts in place of that: the instructions of a turn of our loops, and the functions in which
# most of them stand; behind it may stand the loops that are counted (`bench/operators.sh instructions in show`), else all are.
#
# What limits those that miss the aim, in instructions of a turn by callgrind, an idle turn's 23 with them: an item of a list takes 114,
# 75 of them in `item`, which is not inlined; an append 88, 48 in `Store::push` and 10 in dropping what was handed in; a character or a
# new text 540 to 800, of which 250 are its memory; copying a value some 30, so a slice or a walk of ten 340 to 520; a pair of elements
# that is compared 77, so `==` of ten 872; a method of an instance 312, since an object is made for it; a key 360, the keyed hash, which
# also puts the next of 1,000,000 keys elsewhere in memory; `in` a list of ten 707, 450 of them in telling whether two values are equal,
# 45 each; showing 1,000 numbers 330,000, of which 74,000 write digits, 67,000 tell how an item is shown, 53,000 go through the printer and
# 44,000 make the text. bench/README.md has all figures.
. "$(dirname "${BASH_SOURCE[0]}")/loops.sh"
exec python3 - "$@" <<'PYTHON'
import collections
import os
import re
import subprocess
import sys
import tempfile
import time

BENCH = os.environ["RPY_BENCH"]

CELLS = 1_000_000
MILLION = 1_000_000
FAR = 618_033


def process(*words):
    """Processor seconds and peak bytes of a process."""
    child = os.spawnv(os.P_NOWAIT, BENCH, [BENCH, "operators", *map(str, words)])
    _, status, used = os.wait4(child, 0)
    if status != 0:
        sys.exit(f"{words}: status {status}")
    return used.ru_utime + used.ru_stime, used.ru_maxrss * 1024


def rpy(what, turns, times=5):
    """What a turn takes: without what the process takes with nothing to do, and without a turn of an idle loop."""
    begun = min(process(what, 0)[0] for _ in range(times))
    busy = min(process(what, turns)[0] for _ in range(times))
    return (busy - begun) / turns - IDLE


def idle_turn(times=5):
    turns = 20_000_000
    begun = min(process("idle", 0)[0] for _ in range(times))
    return (min(process("idle", turns)[0] for _ in range(times)) - begun) / turns


def spent(loop, turns, times=5):
    best = None
    for _ in range(times):
        start = time.process_time()
        loop(turns)
        used = time.process_time() - start
        best = used if best is None else min(best, used)
    return best / turns


def empty(turns):
    for i in range(turns):
        pass


def add(turns):
    for i in range(turns):
        i + 1


def join(turns):
    s, t = "0123456789", "abcdefghij"
    for i in range(turns):
        s + t


def get_item(turns):
    xs = list(range(1000))
    for i in range(turns):
        xs[i % 1000]


def letter(turns):
    s = "a" * 10
    for i in range(turns):
        s[i % 10]


def tens(turns):
    for i in range(turns):
        i % 10


def slice_text(turns):
    s = "a" * 10
    for i in range(turns):
        s[1:9]


def slice_list(turns):
    xs = list(range(10))
    for i in range(turns):
        xs[1:9]


def seek(turns):
    xs = list(range(10))
    for i in range(turns):
        9 in xs


def equal(turns):
    xs, ys = list(range(10)), list(range(10))
    for i in range(turns):
        xs == ys


def walk(turns):
    xs = list(range(10))
    for i in range(turns):
        tuple(xs)


class Plain:
    def method(self):
        pass


def field(turns):
    x = Plain()
    x.field = 1
    for i in range(turns):
        x.field


def method(turns):
    x = Plain()
    for i in range(turns):
        x.method


def append(turns):
    xs = []
    for i in range(turns):
        xs.append(i)


def get_key(entries, stride):
    d = {i: i for i in range(entries)}

    def loop(turns):
        k = 0
        for i in range(turns):
            d[k]
            k = (k + stride) % entries

    return loop


def set_key(entries, stride):
    d = {i: i for i in range(entries)}

    def loop(turns):
        k = 0
        for i in range(turns):
            d[k] = 1
            k = (k + stride) % entries

    return loop


def replace_key(entries, stride):
    d = {i: i for i in range(entries)}

    def loop(turns):
        k = 0
        for i in range(turns):
            del d[k]
            d[k] = 1
            k = (k + stride) % entries

    return loop


def keys(entries, stride):
    def loop(turns):
        k = 0
        for i in range(turns):
            k = (k + stride) % entries

    return loop


def remainders(turns):
    for i in range(turns):
        i % 1000


def show(turns):
    xs = list(range(1000))
    for _ in range(turns):
        str(xs)


def counted(what, turns):
    """The instructions of a turn, without those of the process, and the functions with most of them, by callgrind."""
    totals = []
    for count in (0, turns):
        with tempfile.NamedTemporaryFile() as file:
            words = ["valgrind", "--tool=callgrind", f"--callgrind-out-file={file.name}", BENCH, "operators", what, str(count)]
            subprocess.run(words, check=True, stdout=subprocess.DEVNULL, stderr=subprocess.DEVNULL)
            told = subprocess.run(["callgrind_annotate", file.name], capture_output=True, text=True, check=True).stdout
        totals.append(collections.Counter())
        for number, name in re.findall(r"^ *([\d,]+) \([ \d.]+%\)  (?:\S*?:)?(\S+)", told, re.M):
            totals[-1][name] += int(number.replace(",", ""))
    each = {name: (number - totals[0][name]) / turns for name, number in totals[1].items()}
    most = sorted(((number, name) for name, number in each.items() if name != "PROGRAM"), reverse=True)[:6]
    return each["PROGRAM"], most


def instructions(wanted):
    for title, what, turns, *_ in [("an idle turn", "idle", 2_000), *LOOPS]:
        if wanted and what not in wanted:
            continue
        number, most = counted(what, max(turns // 1_000, 20))
        print(f"{title} ({what}): {number:.0f}; " + ", ".join(f"{part:.0f} {name}" for part, name in most))


def cells():
    """The bytes that a store takes for each cell: the growth from half of the cells to all, since the system tells of a process no less than of the one that began it."""
    per_cell = []
    for what in ("list", "dict", "instance"):
        for entries in (0, 1, 2, 3, 5, 9):
            half, whole = (process(what, count, entries)[1] for count in (CELLS // 2, CELLS))
            per_cell.append((whole - half) / (CELLS // 2))
            print(f"{what}s of {entries}: {per_cell[-1]:.0f} bytes a cell")
    print(f"on average: {sum(per_cell) / len(per_cell):.0f} bytes a cell, at most {max(per_cell):.0f}")


if sys.argv[1:2] != ["instructions"]:
    # What a process takes is measured before this one is large: a child begins with a copy of it.
    cells()
TURNS = 2_000_000
LOOPS = [
    ("add", "add", TURNS, add, empty),
    ("join of texts", "join", TURNS, join, empty),
    ("list item", "get_item", TURNS, get_item, remainders),
    ("list slice", "slice_list", TURNS, slice_list, empty),
    ("character", "letter_10", TURNS, letter, tens),
    ("text slice", "slice_text", TURNS, slice_text, empty),
    ("in a list of 10", "in", TURNS, seek, empty),
    ("== of lists of 10", "equal", TURNS, equal, empty),
    ("walk of a list of 10", "walk", TURNS, walk, empty),
    ("field", "field", TURNS, field, empty),
    ("method", "method", TURNS, method, empty),
    ("append", "append", TURNS, append, empty),
    ("get at 10", "get_key_10", TURNS, get_key(10, 1), keys(10, 1)),
    ("get at 1,000,000", "get_key_1000000", TURNS, get_key(MILLION, 1), keys(MILLION, 1)),
    ("get far at 1,000,000", "get_far_key_1000000", TURNS, get_key(MILLION, FAR), keys(MILLION, FAR)),
    ("set at 10", "set_key_10", TURNS, set_key(10, 1), keys(10, 1)),
    ("set at 1,000,000", "set_key_1000000", TURNS, set_key(MILLION, 1), keys(MILLION, 1)),
    ("set far at 1,000,000", "set_far_key_1000000", TURNS, set_key(MILLION, FAR), keys(MILLION, FAR)),
    ("delete and set at 10", "replace_key_10", TURNS, replace_key(10, 1), keys(10, 1)),
    ("delete and set far at 1,000,000", "replace_key_1000000", TURNS, replace_key(MILLION, FAR), keys(MILLION, FAR)),
    ("show of 1,000 numbers", "show", 2_000, show, empty),
]
if sys.argv[1:2] == ["instructions"]:
    instructions(sys.argv[2:])
    sys.exit()
IDLE = idle_turn()
print(f"an idle turn: {IDLE * 1e9:.1f} ns")
for title, what, turns, loop, idle in LOOPS:
    ours = rpy(what, turns) * 1e9
    theirs = (spent(loop, turns) - spent(idle, turns)) * 1e9
    print(f"{title}: rpy {ours:.1f} ns, CPython {theirs:.1f} ns, CPython's over ours {theirs / max(ours, 0.1):.1f}")
PYTHON
