#!/usr/bin/env python3
"""Tells what each function of a crate cost in its last check, by the times of the files that the check wrote.

    bench/proof_times.py CRATE [N]     the N functions that took longest (20), in seconds by the clock, with the parts that took most

The check has to be one from nothing, by one job (`rm -rf out/incremental; rt check --jobs 1` in the crate's folder): then each file of
`out/incremental` was written as soon as it was made, and what passed since the one before it is what it took. `Lts` is about the code of a
function alone, `Proof` is where its contract stands.
"""
import collections
import re
import sys
from pathlib import Path

TOP = Path(__file__).resolve().parent.parent
PARTS = "Lts Kinds Reads Tie Proof Goals Given Answers Invariants Code Mir Symbol TheLink Facts Ties Steps Contract".split()


def made(crate):
    """The files of the check, each with the time at which it was written, in order."""
    files = (TOP / "crates" / crate / "out/incremental").rglob("*.oantt")
    return sorted((path.stat().st_mtime_ns / 1e9, path.name) for path in files)


def split(crate, file):
    """The function that a file is about, and the part of its proof."""
    name = re.sub(rf"^Rattle-{crate}-(proofs|specs)\.|(\.decls)?\.oantt$", "", file)
    function, _, part = name.rpartition(".")
    return (function, part) if part in PARTS else (name, "other")


def main(crate, count=20):
    files = made(crate)
    if not files:
        sys.exit(f"{crate}: no check is kept")
    parts = collections.defaultdict(collections.Counter)
    for (before, _), (after, file) in zip(files, files[1:]):
        function, part = split(crate, file)
        parts[function][part] += after - before
    print(f"{crate}: {files[-1][0] - files[0][0]:.0f} s, {len(files)} files")
    for function, cost in sorted(parts.items(), key=lambda found: -sum(found[1].values()))[: int(count)]:
        print(f"{sum(cost.values()):.1f} {function}: " + ", ".join(f"{part} {spent:.1f}" for part, spent in cost.most_common(4)))


if len(sys.argv) < 2:
    sys.exit(__doc__)
main(*sys.argv[1:3])
