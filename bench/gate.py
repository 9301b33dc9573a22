#!/usr/bin/env python3
"""Runs the gate, and prints what it cost: the table of the section 'What the gate costs' of docs/NOTES.md.

    bench/gate.py run SAMPLES [CRATE..]    runs .ci/run, or of these crates `rt ci CRATE..`, and prints log and table
    bench/gate.py table SAMPLES..          prints the table again, from the samples of one run or of several

`run` prints what the gate prints, each line behind the time since it began, and then the table. It ends with the
status of the gate. A crate that was kept from an earlier run has no minutes.

`rt ci` leaves no processor times. So `run` looks every two seconds at the processes that the gate began, and notes what
each has used in the file SAMPLES: the crate, the kind, the folder, the seconds, when it was first and last seen, and
its number. What a process does in its last two seconds is lost. Of several files the largest figure counts.

The columns Proof and Tests are processor minutes, and so is what stands behind the number of the edits. The longest
chain goes by crates.txt. Compare figures of one machine alone: `rp_base` tells how fast it is.
"""
import collections
import os
import re
import resource
import subprocess
import sys
import threading
import time

TOP = os.path.dirname(os.path.dirname(os.path.abspath(__file__)))
TURN = 2
TICK = os.sysconf("SC_CLK_TCK")
MEASURE = "rp_base"
RULE = 4    # processor minutes of proof a 1,000 lines
SMALL = 150     # a crate of fewer lines has no figure a 1,000


# Samples

def all_processes():
    """The processes of this machine: for each its parent, when it began, and its processor seconds."""
    found = {}
    for name in os.listdir("/proc"):
        if name.isdigit():
            try:
                with open(f"/proc/{name}/stat", encoding="utf-8", errors="replace") as file:
                    said = file.read().rsplit(")", 1)[1].split()
                found[int(name)] = int(said[1]), said[19], (int(said[11]) + int(said[12])) / TICK
            except (OSError, IndexError):
                pass
    return found


def below(root, processes):
    """The processes that a process began, itself or through others; each behind the one that began it."""
    children = collections.defaultdict(list)
    for number, (parent, _, _) in processes.items():
        children[parent].append(number)
    found, left = [], [root]
    while left:
        number = left.pop()
        found += children[number]
        left += children[number]
    return found


def what(number):
    """The crate, the kind and the folder of a prover; None for any other process."""
    with open(f"/proc/{number}/cmdline", "rb") as file:
        words = file.read().decode(errors="replace").split("\0")
    if not words[0].endswith("/rattle") or "--crate-name" not in words:
        return None
    kind = words[1] + ("-test" if "--test" in words else "")
    return words[words.index("--crate-name") + 1], kind, os.readlink(f"/proc/{number}/cwd")


def write(samples, seen):
    """Writes the samples, so that no reader meets half of them."""
    with open(samples + ".new", "w", encoding="utf-8") as file:
        for (number, _), (crate, kind, folder, seconds, first, last) in seen.items():
            file.write(f"{crate}\t{kind}\t{folder}\t{seconds:.1f}\t{first:.0f}\t{last:.0f}\t{number}\n")
    os.replace(samples + ".new", samples)


def sample(root, samples, ended):
    """Notes what the processes below one take, until it has ended."""
    seen = {}
    while not ended.wait(TURN):
        processes, now = all_processes(), time.time()
        for number in below(root, processes):
            parent, began, seconds = processes[number]
            key = number, began
            if key not in seen:
                try:
                    around = (parent, processes[parent][1]) if parent in processes else None
                    label = what(number) or seen.get(around, ("other", "other", "", 0, 0, 0))[:3]
                except (OSError, IndexError):
                    continue
                seen[key] = [*label, seconds, now, now]
            elif seen[key][0] == "other":
                # (a process that has just begun may become a prover)
                try:
                    seen[key][:3] = what(number) or seen[key][:3]
                except (OSError, IndexError):
                    pass
            seen[key][3], seen[key][5] = seconds, now
        write(samples, seen)


def run(samples, names):
    """The gate, with its log by the clock; gives its status."""
    began, ended = time.time(), threading.Event()
    command = ["rt", "ci", *names] if names else [os.path.join(TOP, ".ci", "run")]
    room = {**os.environ, "PYTHONUNBUFFERED": "1"}
    how = {"cwd": TOP, "env": room, "stdin": subprocess.DEVNULL, "stdout": subprocess.PIPE, "stderr": subprocess.STDOUT}
    proved = []
    with subprocess.Popen(command, text=True, errors="replace", **how) as gate:
        beside = threading.Thread(target=sample, args=(gate.pid, samples, ended))
        beside.start()
        for line in gate.stdout:
            since = time.time() - began
            print(f"{clock(since)} {line}", end="", flush=True)
            found = re.fullmatch(r"rt: (\w+)(: its tests are)? proved\n", line)
            if found:
                proved.append((since, found[1] + (" (tests)" if found[2] else "")))
        status = gate.wait()
    ended.set()
    beside.join()
    print()
    for words, (since, name) in zip(("first", "last"), proved[:1] + proved[-1:]):
        print(f"{words} proof: `{name}`, {clock(since)}")
    print(f"the gate: {clock(time.time() - began)} by the clock")
    used = resource.getrusage(resource.RUSAGE_CHILDREN)
    print(f"all its processes: {(used.ru_utime + used.ru_stime) / 60:.0f} processor minutes")
    print()
    return status


def clock(seconds):
    return f"{int(seconds) // 3600}:{int(seconds) // 60 % 60:02}:{int(seconds) % 60:02}"


# The table

def read(files):
    """The processor minutes of each crate by kind: the largest of these files."""
    programs = {name for name in crates() if os.path.isfile(os.path.join(TOP, "crates", name, "src", "main.rt"))}
    most = collections.Counter()
    for path in files:
        of_file = collections.Counter()
        with open(path, encoding="utf-8") as file:
            for line in file:
                crate, kind, folder, seconds = line.rstrip("\n").split("\t")[:4]
                if "/rt-edit-" in folder:
                    kind = "edits"
                elif kind.endswith("-test"):
                    kind = "tests"
                elif crate in programs and kind == "build":
                    kind = "builds"
                elif kind in ("build", "check"):
                    kind = "proof"
                else:
                    crate, kind = "other", "other"
                of_file[crate, kind] += float(seconds) / 60
        for key, minutes in of_file.items():
            most[key] = max(most[key], minutes)
    return most


def crates():
    """The crates of crates.txt, and what each stands on."""
    found = {}
    with open(os.path.join(TOP, "crates.txt"), encoding="utf-8") as file:
        for line in file:
            name, colon, names = line.split("#")[0].partition(":")
            if colon:
                found[name.split()[0]] = names.split()
    return found


def lines_of(crate):
    """The lines of the crate's src/."""
    folder = os.path.join(TOP, "crates", crate, "src")
    total = 0
    for at, _, names in os.walk(folder):
        for name in names:
            if name.endswith(".rt"):
                with open(os.path.join(at, name), encoding="utf-8") as file:
                    total += file.read().count("\n")
    return total


def edits_of(crate):
    """How many edits of the crate the gate tries."""
    folder = os.path.join(TOP, "crates", crate, "must-fail")
    return sum(name.endswith(".edit") for name in os.listdir(folder)) if os.path.isdir(folder) else 0


def chain(minutes):
    """The crates of the longest chain by minutes of proof, lowest first."""
    deps, longest = crates(), {}

    def of(crate):
        if crate not in longest:
            below = max((of(dep) for dep in deps[crate] if dep in deps), default=(0, []))
            longest[crate] = below[0] + minutes[crate, "proof"], below[1] + [crate]
        return longest[crate]

    return max(of(crate) for crate in deps)


def row(crate, minutes):
    """A crate's cells."""
    lines, proof, tests = lines_of(crate), minutes[crate, "proof"], minutes[crate, "tests"]
    edits, tried = edits_of(crate), minutes[crate, "edits"]
    each = f"{proof / lines * 1000:.1f}" if lines >= SMALL and proof and not tests else ""
    shown = [f"`{crate}`", str(lines) if lines > 2 else "laws", f"{proof:.1f}" if proof else "", each]
    of_edits = f"{edits}: {tried:.1f}" if tried else str(edits or "")
    return shown + [f"{tests:.1f}" if tests else "", of_edits]


def table(files):
    """Prints the table."""
    minutes = read(files)
    order = sorted(crates(), key=lambda it: -minutes[it, "proof"] - minutes[it, "tests"])
    rows = [row(crate, minutes) for crate in order]
    half = (len(rows) + 1) // 2
    head = ["Crate", "Lines", "Proof", "A 1,000 lines", "Tests", "Edits"]
    print("| " + " | ".join(head + head) + " |")
    print("|" + "---|" * 12)
    for at in range(half):
        other = rows[half + at] if half + at < len(rows) else [""] * 6
        print("| " + " | ".join(rows[at] + other) + " |")
    print()
    sums = collections.Counter()
    for (_, kind), spent in minutes.items():
        sums[kind] += spent
    tried = [crate for crate in order if edits_of(crate)]
    print(f"Together {sums['proof']:.0f} processor minutes for proofs, {sums['tests']:.0f} for tests,", end=" ")
    print(f"{sums['edits']:.0f} for {sum(map(edits_of, order))} edits in {len(tried)} crates,", end=" ")
    print(f"{sums['builds']:.0f} to build programs, {sums['other']:.0f} for all else.")
    length, names = chain(minutes)
    print(f"The longest chain of crates takes {length:.1f}:", end=" ")
    print(", ".join(f"`{it}` {minutes[it, 'proof']:.1f}" for it in names) + ".")
    print(f"The machine: `{MEASURE}` took {minutes[MEASURE, 'proof']:.1f} processor minutes.")
    lacking = [f"`{crate}`" for crate in order if not minutes[crate, "proof"]]
    if lacking:
        print(f"Without a figure, since they were kept or not reached: {', '.join(lacking)}.")
    over = [f"`{crate}`" for crate in order if lines_of(crate) >= SMALL and not minutes[crate, "tests"]
            and minutes[crate, "proof"] > RULE * lines_of(crate) / 1000]
    print(f"Above {RULE} minutes of proof a 1,000 lines: {', '.join(over) or 'none'}.")


def main():
    words = sys.argv[1:]
    if len(words) < 2 or words[0] not in ("run", "table"):
        sys.exit(__doc__)
    if words[0] == "table":
        table(words[1:])
        return 0
    status = run(words[1], words[2:])
    table(words[1:2])
    return status


sys.exit(main())
