#!/usr/bin/env bash
# Each request for memory refused in turn, in three runs: of a line over a folder, of a script whose list trusted code fills, with the
# trail, and of a report over a shop whose trusted module computes; the texts are those of the tests (crates/rp_tests_run). A small library
# that is loaded before the C library refuses the request of one number. Such a run has to write all that the run writes, with its status,
# or nothing with status 8. It prints for each how many requests it makes and how many of them, refused, ended so; status 1 where one ended
# otherwise. Wants a C compiler (CC, else cc) and Linux. With a word, that program is tried.
cd "$(dirname "${BASH_SOURCE[0]}")/.." || exit 2
[ -n "$1" ] || ./rpy run examples/title.toml bob:examples/title.py >/dev/null || exit 1
RPY=$(realpath "${1:-crates/rpy/out/rpy}") exec python3 - <<'PYTHON'
import os
import re
import subprocess
import sys
import tempfile
from pathlib import Path

RPY = os.environ["RPY"]
TESTS = "crates/rp_tests_run/src"
LIBRARY = r"""
#include <errno.h>
#include <stddef.h>
#include <stdlib.h>
#include <unistd.h>

extern void *__libc_malloc(size_t), *__libc_calloc(size_t, size_t), *__libc_realloc(void *, size_t);
static long made, refused;
static int told;

__attribute__((constructor)) static void begin(void) {
    const char *number = getenv("REFUSED"), *pipe = getenv("TOLD");
    refused = number ? atol(number) : 0;
    told = pipe ? atoi(pipe) : 0;
}

static int refuses(void) {
    if (refused == 0 || ++made != refused) return 0;
    errno = ENOMEM;
    return write(told, "r", 1) == 1;
}

void *malloc(size_t size) { return refuses() ? NULL : __libc_malloc(size); }
void *calloc(size_t count, size_t size) { return refuses() ? NULL : __libc_calloc(count, size); }
void *realloc(void *old, size_t size) { return refuses() ? NULL : __libc_realloc(old, size); }
"""


def text(file, name):
    """The text of a constant of the tests."""
    return re.search(rf'const {name}: &str = r#"(.*?)"#;', Path(file).read_text(), re.S).group(1)


FOLDER = text("crates/rp_tests_cases/src/declaration_files.rt", "FOLDER_FILE")
FILLED = "xs = []\nroot.fill(xs)\nprint(xs[0].size)\nprint(xs[0].secret)\n"
RUNS = [
    ("a line over a folder", "bob", FOLDER, "print(root.title)\n", []),
    ("a list that trusted code fills", "bob", text(f"{TESTS}/module_tests.rt", "FILLING"), FILLED, ["--trail"]),
    ("a report over a shop", "pat", text(f"{TESTS}/report_tests.rt", "SHOP"), text(f"{TESTS}/report_tests.rt", "REPORT"), []),
]


def ended(words, library, number):
    """The status and the text of a run in which the request of a number is refused, and whether there was one; 0 refuses none."""
    inner, outer = os.pipe()
    with_library = {**os.environ, "LD_PRELOAD": library, "REFUSED": str(number), "TOLD": str(outer)}
    done = subprocess.run(words, env=with_library, stdout=subprocess.PIPE, stderr=subprocess.DEVNULL, stdin=subprocess.DEVNULL, pass_fds=[outer])
    os.close(outer)
    with os.fdopen(inner, "rb") as pipe:
        return (done.returncode, done.stdout), pipe.read() == b"r"


def refused(title, words, library):
    """Whether each request of a run, refused, ended as it has to."""
    whole, _ = ended(words, library, 0)
    number, nothing, wrong = 1, 0, []
    while True:
        found, was = ended(words, library, number)
        if not was:
            break
        if found == (8, b""):
            nothing += 1
        elif found != whole:
            wrong.append((number, found))
        number += 1
    if number == 1:
        sys.exit(f"{title}: no request was seen; is the program linked with the C library at all?")
    print(f"{title}: status {whole[0]}, {number - 1} requests; refused, {nothing} ended with status 8 and nothing written, "
          f"{number - 1 - nothing - len(wrong)} with the whole, {len(wrong)} otherwise")
    for at, (status, said) in wrong[:5]:
        print(f"  request {at}: status {status}, {said[:80]!r}")
    return not wrong


def main():
    Path("refused.c").write_text(LIBRARY)
    library = os.path.abspath("refused.so")
    subprocess.run([os.environ.get("CC", "cc"), "-O2", "-fno-builtin", "-shared", "-fPIC", "-o", library, "refused.c"], check=True)
    well = True
    for title, who, declarations, script, options in RUNS:
        Path("run.toml").write_text(declarations)
        Path("run.py").write_text(script)
        well = refused(title, [RPY, "run", "run.toml", f"{who}:run.py", *options], library) and well
    return 0 if well else 1


with tempfile.TemporaryDirectory() as folder:
    os.chdir(folder)
    sys.exit(main())
PYTHON
