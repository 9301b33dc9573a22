#!/usr/bin/env bash
# Nanoseconds per token of `rpy check` and `rpy show` on scripts of 250,000 and 1,000,000 tokens, beside what RestrictedPython's
# compile_restricted does of it on the same text, ast.parse and its transformer, as ratios, and the growth from the one to the other. Then
# scripts that are made to be slow or deep: processor seconds, peak megabytes and status of `check`, and for the deep ones of `show` too, on a
# stack of 1 MB. Processor time, the least of some runs, less that of an empty script for the first part. The peer is Debian's (`apt-get install
# python3-restrictedpython`), run by /usr/bin/python3; its column is left out where it is missing. Version 4.0b3 takes no subscripts under
# Python 3.11, so the text has none.
cd "$(dirname "${BASH_SOURCE[0]}")/.." || exit 2
./rpy >/dev/null 2>&1 </dev/null
export PYTHONPATH=bench PYTHONDONTWRITEBYTECODE=1
exec python3 - <<'PYTHON'
import io
import os
import resource
import subprocess
import sys
import tempfile
import tokenize

from script_block import BLOCK

TEXT = BLOCK.replace("root.title[1:-1]", "root.title").replace("root[name]", "root.get(name)")
PEER = """
import ast, sys, time
from RestrictedPython.transformer import RestrictingNodeTransformer
text = open(sys.argv[1]).read()
start = time.process_time()
errors = []
RestrictingNodeTransformer(errors, [], {}).visit(ast.parse(text))
assert not errors
print(time.process_time() - start)
"""
RPY = "crates/rpy/out/rpy"


def tokens_of(text):
    found = tokenize.generate_tokens(io.StringIO(text).readline)
    return sum(1 for token in found if token.type not in (tokenize.COMMENT, tokenize.NL, tokenize.ENDMARKER))


def small_stack():
    resource.setrlimit(resource.RLIMIT_STACK, (1 << 20, 1 << 20))


def process(words, before=None):
    """Status, processor seconds and peak megabytes of a process."""
    started = subprocess.Popen(words, stdout=subprocess.DEVNULL, stderr=subprocess.DEVNULL, preexec_fn=before)
    _, status, used = os.wait4(started.pid, 0)
    started.returncode = os.waitstatus_to_exitcode(status)
    return started.returncode, used.ru_utime + used.ru_stime, used.ru_maxrss / 1024


def asked(command, file, times=3):
    return min((process([RPY, command, file]) for _ in range(times)), key=lambda run: run[1])


def peer(file):
    """Processor seconds of RestrictedPython, None where it is missing."""
    done = subprocess.run(["/usr/bin/python3", "-c", PEER, file], capture_output=True, text=True)
    return float(done.stdout) if done.returncode == 0 else None


def written(folder, name, text):
    file = f"{folder}/{name}.py"
    with open(file, "w") as sink:
        sink.write(text)
    return file


def tokens(folder):
    """Scripts of so many tokens."""
    per_block = tokens_of(TEXT)
    _, empty, _ = asked("check", written(folder, "empty", ""))
    spent = []
    for wanted in (250_000, 1_000_000):
        blocks = wanted // per_block
        count = blocks * per_block
        file = written(folder, f"tokens{wanted}", TEXT * blocks)
        theirs = peer(file)
        for command in ("check", "show"):
            status, seconds, megabytes = asked(command, file)
            per_token = (seconds - empty) / count
            told = "" if theirs is None else f"; RestrictedPython {theirs / count * 1e9:.0f}, ratio {theirs / count / per_token:.1f}"
            print(f"{count} tokens: {command} {per_token * 1e9:.0f} ns per token, {megabytes:.0f} MB (status {status}){told}")
            if command == "check":
                spent.append(per_token)
    print(f"for four times the tokens, check takes {spent[1] / spent[0] * 4:.1f} times as long")


def filled(piece, size=4_194_304):
    return piece * (size // len(piece))


def listed(before, name, between, end, count):
    return before + between.join(f"{name}{i}" for i in range(count)) + end


SLOW = {
    "4 MB of x.y;": filled("x.y;"),
    "4 MB of _x;": filled("_x;"),
    "4 MB of x = 1": filled("x = 1\n"),
    "4 MB of f-literals": filled("f'{x}'\n"),
    "150,000 parameters and global names": listed("def f(", "a", ",", "):\n global ", 150_000) + listed("", "g", ",", "\n", 150_000),
    "250,000 statements global": listed("def f(", "a", ",", "):\n", 100_000) + " global g\n" * 250_000,
    "150,000 named arguments": listed("f(", "a", "=0,", "=0)\n", 150_000),
}

DEEP = {
    "197 lists": "x = " + "[" * 197 + "]" * 197 + "\n",
    "197 conditionals": "x = " + "1 if a else " * 197 + "2\n",
    "197 minus signs": "x = " + "-" * 197 + "1\n",
    "197 lambdas": "x = " + "lambda: " * 197 + "1\n",
    "190 blocks": "".join(" " * i + "if a:\n" for i in range(190)) + " " * 190 + "x = 1\n",
}


def hostile(folder):
    """Scripts that are made to be slow or deep."""
    for number, (title, text) in enumerate(SLOW.items()):
        status, seconds, megabytes = asked("check", written(folder, f"slow{number}", text))
        print(f"{title}: check {seconds:.2f} s, {megabytes:.0f} MB (status {status})")
    names = written(folder, "names", listed("", "a", " = 1\n", " = 1\n", 100_000))
    few = written(folder, "few", listed("", "a", " = 1\n", " = 1\n", 10_000))
    spent = [asked("show", file)[1] for file in (few, names)]
    print(f"100,000 names: show {spent[1]:.2f} s, {spent[1] / spent[0]:.1f} times as long as 10,000")
    for number, (title, text) in enumerate(DEEP.items()):
        file = written(folder, f"deep{number}", text)
        said = [process([RPY, command, file], small_stack) for command in ("check", "show")]
        print(f"{title}, a stack of 1 MB: status of check {said[0][0]}, of show {said[1][0]}")


with tempfile.TemporaryDirectory() as folder:
    tokens(folder)
    hostile(folder)
PYTHON
