#!/usr/bin/env bash
# Nanoseconds per token of reading scripts of 250,000 and 1,000,000 tokens into trees, beside CPython's ast.parse on the same
# text, as ratios; the growth from the one to the other; and the bytes that a tree takes per token. Processor time, the least of
# some runs: rpy as a process that repeats a block so often, reads its tokens and parses them; CPython within its process.
. "$(dirname "${BASH_SOURCE[0]}")/loops.sh"
exec python3 - <<'PYTHON'
import ast
import io
import os
import sys
import time
import tokenize

from script_block import BENCH, BLOCK


def tokens_of(text):
    """The number of tokens of a text: comments and empty lines give none, the last token ends the text."""
    found = tokenize.generate_tokens(io.StringIO(text).readline)
    return sum(1 for token in found if token.type not in (tokenize.COMMENT, tokenize.NL, tokenize.ENDMARKER))


def process(what, blocks):
    """Processor seconds and peak bytes of a process."""
    child = os.spawnv(os.P_NOWAIT, BENCH, [BENCH, "parse", what, str(blocks), BLOCK])
    _, status, used = os.wait4(child, 0)
    if status != 0:
        sys.exit(f"{what}: status {status}")
    return used.ru_utime + used.ru_stime, used.ru_maxrss * 1024


def rpy(what, blocks, times=5):
    runs = [process(what, blocks) for _ in range(times)]
    return min(run[0] for run in runs), min(run[1] for run in runs)


def python(text, times=3):
    spent = []
    for _ in range(times):
        start = time.process_time()
        ast.parse(text)
        spent.append(time.process_time() - start)
    return min(spent)


per_block = tokens_of(BLOCK)
spent = []
for wanted in (250_000, 1_000_000):
    blocks = wanted // per_block
    count = blocks * per_block
    empty, _ = rpy("tokens", 0)
    reading, before = rpy("tokens", blocks)
    whole, after = rpy("tree", blocks)
    theirs = python(BLOCK * blocks)
    spent.append((whole - reading) / count)
    print(
        f"{count} tokens: rpy {(whole - empty) / count * 1e9:.0f} ns per token, of them parsing {(whole - reading) / count * 1e9:.0f}; "
        f"ast.parse {theirs / count * 1e9:.0f}, ratio {theirs / (whole - empty):.1f}; a tree takes {(after - before) / count:.0f} bytes per token"
    )
print(f"for four times the tokens, parsing takes {spent[1] / spent[0] * 4:.1f} times as long")
PYTHON
