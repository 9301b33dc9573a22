#!/usr/bin/env bash
# The time of `rpy may` on a file of 1,000 classes, 10,000 objects and 1,000 principals in 100 groups, and on one of a
# quarter of each, beside Python's module tomllib, which only reads the same file: the ratio, and the growth. Then the time
# of a class of 1,000, of 10,000 and of 100,000 classes with one row each, beside tomllib's: the growth of both. Then the
# nanoseconds of one `decide` of a permission whose answer is kept, and of one `row` of a class with 100 names.
# Processor time, the least of some runs, less the time of a process with nothing to do.
. "$(dirname "${BASH_SOURCE[0]}")/loops.sh"
./rpy >/dev/null
exec python3 - <<'PYTHON'
import os
import resource
import subprocess
import tempfile
import time
import tomllib

RPY = "crates/rpy/out/rpy"
BENCH = os.environ["RPY_BENCH"]


def declarations(classes, objects, principals, groups):
    lines = ["version = 1", "permissions = [" + ", ".join(f'"p.{i}"' for i in range(100)) + "]", 'expose = ["object0"]']
    for i in range(classes):
        lines.append(f"[class.Class{i}]")
        if i % 10:
            lines.append(f'like = "Class{i - 1}"')
        rows = ", ".join(f'name{i % 7}_{j} = "p.{(i + j) % 100}"' for j in range(10))
        lines.append("get = { " + rows + " }")
    for i in range(groups):
        lines.append(f"[group.g{i}]")
        lines.append(f'allow = ["p.{i % 100}", "p.{(i + 50) % 100}"]')
    for i in range(principals):
        lines.append(f"[principal.u{i}]")
        lines.append(f'groups = ["g{i % groups}", "g{(i + 1) % groups}"]')
        lines.append(f'allow = ["p.{i % 100}"]')
    for i in range(objects):
        lines.append(f"[object.object{i}]")
        lines.append(f'class = "Class{i % classes}"')
        lines.append(f'fields = {{ title = "Object {i}", size = {i} }}')
    return "\n".join(lines) + "\n"


def children():
    used = resource.getrusage(resource.RUSAGE_CHILDREN)
    return used.ru_utime + used.ru_stime


def process(words, status, times=5):
    best = None
    for _ in range(times):
        before = children()
        done = subprocess.run(words, stdout=subprocess.DEVNULL)
        assert done.returncode == status, (words, done.returncode)
        used = children() - before
        best = used if best is None else min(best, used)
    return best


def reading(text, times=5):
    best = None
    for _ in range(times):
        before = time.process_time()
        tomllib.loads(text)
        used = time.process_time() - before
        best = used if best is None else min(best, used)
    return best


with tempfile.TemporaryDirectory() as folder:
    walls = []
    for part in (4, 1):
        text = declarations(1000 // part, 10000 // part, 1000 // part, 100 // part)
        path = os.path.join(folder, f"part{part}.toml")
        with open(path, "w") as out:
            out.write(text)
        rpy = process([RPY, "may", path, "u0", "p.0"], 0)
        python = reading(text)
        walls.append(rpy)
        print(f"{len(text)} bytes: rpy may {rpy * 1000:.1f} ms, tomllib {python * 1000:.1f} ms, ratio {python / rpy:.1f}")
    print(f"four times the file: {walls[1] / walls[0]:.2f} times the time")
    for classes in (1_000, 10_000, 100_000):
        text = "version = 1\n" + "".join(f'[class.C{i}]\nget.a = "zope.Public"\n' for i in range(classes)) + "[principal.u]\n"
        path = os.path.join(folder, f"classes{classes}.toml")
        with open(path, "w") as out:
            out.write(text)
        rpy, python = process([RPY, "may", path, "u", "zope.Public"], 0), reading(text)
        print(f"{classes} classes: rpy {rpy / classes * 1e6:.2f} microseconds a class, tomllib {python / classes * 1e6:.2f}")
    for what in ("decide", "row"):
        turns = 20_000_000
        words = [BENCH, "declarations", what]
        used = process([*words, str(turns)], 0) - process([*words, "0"], 0)
        print(f"{what}: {used / turns * 1e9:.1f} ns")
PYTHON
