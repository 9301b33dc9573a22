#!/usr/bin/env python3
"""Runs the examples of the pages for people, and tells how many answered what the page shows, and how long that took.

    bench/pages.py [PAGE..]     README.md and each page of docs/ and examples/ that has a block ```console where none is named

A fenced block whose first line names a file (```toml policy.toml) makes that file in a folder of the page's own, which also has the
repository's examples/; where it names one of these, its lines have to stand there. In a block ```console each line `$ ./rpy WORDS` is run
there, and what stands behind it, up to the next such line, is what it has to write. Its status is 0, or N where the line ends with
`# status N`.
"""
import os
import re
import shlex
import subprocess
import sys
import tempfile
import time
from pathlib import Path

TOP = Path(__file__).resolve().parent.parent
FENCE = re.compile(r"^```(\w*) ?(.*)$")
COMMAND = re.compile(r"^\$ (\./rpy.*?)(?:\s+# status (\d+))?$")


def blocks(path):
    """The fenced blocks of a page: the line, the language, the file's name, and the lines within."""
    inside = None
    for number, line in enumerate(path.read_text().split("\n"), 1):
        fence = FENCE.match(line)
        if inside is not None and line == "```":
            yield inside
            inside = None
        elif inside is not None:
            inside[3].append(line)
        elif fence:
            inside = (number, fence.group(1), fence.group(2).strip(), [])


def commands(lines):
    """The commands of a block: the place in it, the words, the status, and the text that is to be written."""
    found = []
    for at, line in enumerate(lines):
        match = COMMAND.match(line)
        if match:
            found.append((at, shlex.split(match.group(1)), int(match.group(2) or 0), []))
        elif line.startswith("$ "):
            found.append((at, None, 0, []))
        elif found:
            found[-1][3].append(line)
    return [command for command in found if command[1]]


def run(words, folder):
    """The status and the text of a command in the folder."""
    done = subprocess.run([str(TOP / "rpy")] + words[1:], cwd=folder, stdout=subprocess.PIPE, stdin=subprocess.DEVNULL, timeout=7200)
    return done.returncode, done.stdout.decode()


def stand(name, lines):
    """Whether the lines stand in a file of the repository, one behind the other."""
    return "\n" + "".join(line + "\n" for line in lines) in "\n" + (TOP / name).read_text()


def all_pages():
    """The pages for people: those that show what a command answers."""
    found = [f"{path.relative_to(TOP)}" for path in sorted([*(TOP / "docs").glob("*.md"), *(TOP / "examples").glob("*.md")]) if "\n```console\n" in path.read_text()]
    return ["README.md", *found]


def differing(page):
    """How many commands and blocks of examples/ a page has, and those that answer something else or stand otherwise."""
    count, wrong = 0, []
    with tempfile.TemporaryDirectory() as folder:
        os.symlink(TOP / "examples", Path(folder) / "examples")
        for number, language, name, lines in blocks(TOP / page):
            if language != "console" and name.startswith("examples/"):
                count += 1
                if not stand(name, lines):
                    wrong.append(f"{page}:{number}: not so in {name}")
            elif language != "console" and name:
                (Path(folder) / name).write_text("".join(line + "\n" for line in lines))
            for at, words, status, text in commands(lines) if language == "console" else []:
                count += 1
                wanted = (status, "".join(line + "\n" for line in text))
                found = run(words, folder)
                if found != wanted:
                    wrong.append(f"{page}:{number + at + 1}: {' '.join(words)}\n  wanted {wanted}\n  found  {found}")
    return count, wrong


def main(pages):
    total, failed, begun = 0, 0, time.monotonic()
    for page in pages or all_pages():
        count, wrong = differing(page)
        total, failed = total + count, failed + len(wrong)
        for text in wrong:
            print(text)
        print(f"{page}: {count - len(wrong)} of {count} passed")
    print(f"{total - failed} of {total} passed in {time.monotonic() - begun:.1f} s")
    return 1 if failed or not total else 0


sys.exit(main(sys.argv[1:]))
