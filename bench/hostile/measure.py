"""Measures processes for bench/hostile/run.sh, which says what, and prints a line for each."""

import os
import subprocess
import sys
import tempfile

BENCH = os.environ["RPY_BENCH"]
RPY = "crates/rpy/out/rpy"
HOSTILE = "bench/hostile/collisions.py"


def process(words, source=os.devnull):
    """Status, processor seconds and peak megabytes of a process, the least of three runs."""
    runs = []
    for _ in range(3):
        with open(source, "rb") as given, open(os.devnull, "wb") as sink:
            started = subprocess.Popen(words, stdin=given, stdout=sink, stderr=sink)
            _, status, used = os.wait4(started.pid, 0)
            started.returncode = os.waitstatus_to_exitcode(status)
        runs.append((used.ru_utime + used.ru_stime, used.ru_maxrss / 1024, started.returncode))
    seconds, megabytes, status = min(runs)
    return status, seconds, megabytes


def told(title, ours, theirs):
    (status, seconds, megabytes), (_, other_seconds, other_megabytes) = ours, theirs
    ratios = f"{other_seconds / max(seconds, 1e-4):.2f} {other_megabytes / megabytes:.2f}"
    print(
        f"{title}: ours {seconds:.3f} s {megabytes:.0f} MB (status {status}), "
        f"CPython {other_seconds:.3f} s {other_megabytes:.0f} MB, CPython's over ours {ratios}"
    )
    return seconds


def python(text, source=os.devnull):
    return process([sys.executable, "-c", text], source)


def loop(what, turns, text):
    """One of our loops beside what CPython does the same number of times."""
    ours = process([BENCH, "operators", what, str(turns)])
    return told(f"{what} {turns:,}", ours, python(text.replace("TURNS", str(turns))))


def pair(title, hostile, plain):
    print(f"{title}: hostile over plain {hostile / max(plain, 1e-4):.2f}")


def names(folder):
    """Scripts of 16,000 names."""
    seconds = []
    for what in ("script", "plain-script"):
        file = f"{folder}/{what}.py"
        subprocess.run([sys.executable, HOSTILE, what, file], check=True)
        ours = process([RPY, "run", "examples/title.toml", f"bob:{file}"])
        seconds.append(told(f"16,000 assignments, {what}", ours, process([sys.executable, file])))
    pair("names", *seconds)


RUNS = {
    "699,050 lines `x = 1` (4 MB)": "x = 1\n" * 699_050,
    "198 blocks within one another": "".join(" " * i + "if 1:\n" for i in range(198)) + " " * 198 + "pass\n",
    "a comprehension over 100,000": "print(len([i for i in range(100_000)]))\n",
    "100,000 keys put and deleted": "d = {}\nfor i in range(100_000):\n    d[i] = i\nfor i in range(100_000):\n    del d[i]\nprint(len(d))\n",
}


def runs(folder):
    """Scripts that are long, deep or wide. CPython takes no more than 100 blocks within one another."""
    for title, text in RUNS.items():
        file = f"{folder}/long.py"
        with open(file, "w") as sink:
            sink.write(text)
        ours = process(["./rpy", "run", "examples/title.toml", f"bob:{file}", "--steps", "100000000", "--cells", "8000000"])
        if "blocks" in title:
            status, seconds, megabytes = ours
            print(f"{title}: ours {seconds:.3f} s {megabytes:.0f} MB (status {status})")
        else:
            told(title, ours, process([sys.executable, file]))


def keys(folder):
    """Dicts of 40,000 keys."""
    seconds = []
    read = "import sys\nd = {}\nfor line in sys.stdin: d[line[:-1]] = 1"
    for what in ("keys", "plain-keys"):
        file = f"{folder}/{what}.txt"
        subprocess.run([sys.executable, HOSTILE, what, file], check=True)
        ours = process([BENCH, "operators", "keys"], file)
        seconds.append(told(f"dict of 40,000 keys, {what}", ours, python(read, file)))
    pair("keys", *seconds)


def texts():
    """Lengths, characters and slices of texts of 100,000 characters."""
    for kind, letter in (("ascii", "a"), ("other", "é")):
        made = f"s = '{letter}' * 100_000\n"
        loop(f"length_{kind}", 100_000, made + "for _ in range(TURNS): len(s)")
        loop(f"letter_{kind}", 100_000, made + "for i in range(TURNS): s[i]")
        loop(f"slice_{kind}", 10_000, made + "for _ in range(TURNS): s[50_000:50_010]")


EMPTIED = "d = {i: i for i in range(TURNS)}\nfor i in range(TURNS): del d[i]"

ERRORS = """
kept, d, key = [], {}, 'k' * 40_000
for _ in range(TURNS):
    try: d[key]
    except KeyError as e: kept.append(str(e))
    if len(kept) > 10_000: break
"""


def main():
    with tempfile.TemporaryDirectory() as folder:
        names(folder)
        keys(folder)
        runs(folder)
    loop("empty_front", 100_000, EMPTIED)
    texts()
    # Ours ends by want of memory (status 8); CPython's is cut off after 10,000 texts of 40,000 characters.
    loop("key_errors", 100_000, ERRORS)


main()
