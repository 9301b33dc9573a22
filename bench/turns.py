#!/usr/bin/env python3
"""Two sessions that share a list, a dict and functions of one another, in every order of their turns.

    turns.py [PROGRAM]   runs both by `rpy run --turns` in each order, and tells in how many orders each prints what CPython prints where the
                         same statements run in that order; status 1 where it is not so in all
    turns.py --cases     prints the cases of the tests of turns: an order, and what CPython prints

Each script has three statements at its top, each of which is a turn. What the sessions share belongs to the trusted module: a list and a dict,
which its methods change, and a function that either session hands it for the other one to have called. Everybody may do all of that, so the
policy refuses nothing and CPython, which has none, prints the same.
"""
import io
import itertools
import subprocess
import sys
import tempfile
from contextlib import redirect_stdout
from pathlib import Path

MODULE = """class Board:
    def put(self, word):
        self.words.append(word)
        return len(self.words)
    def take(self):
        return self.words.pop()
    def count(self, key):
        self.counts[key] = self.counts.get(key, 0) + 1
        return self.counts[key]
    def keep(self, function):
        self.kept = function
    def ask(self, word):
        return self.kept(word)
    def told(self):
        return ' '.join(self.words) + ' ' + str(self.counts)
board.kept = lambda word: word + '?'
"""
DECLARATIONS = f'''version = 1
expose = ["board"]
module = """
{MODULE}"""
[class.Board.get]
put = "zope.Public"
take = "zope.Public"
count = "zope.Public"
keep = "zope.Public"
ask = "zope.Public"
told = "zope.Public"
[principal.ann]
[principal.bob]
[object.board]
class = "Board"
fields = {{ words = ["old"], counts = {{ }} }}
'''
SCRIPTS = [
    [
        "print(board.put('x'), board.count('n'), board.told())",
        "board.keep(lambda word: word + str(board.count('one')))",
        "print(board.ask('a'), board.take(), board.told())",
    ],
    [
        "for word in ['y', 'z']:\n    print(board.put(word), board.count('n'))",
        "print(board.ask('b'), board.told())",
        "board.keep(lambda word, seen=board.take(): seen + word + str(board.put('w')))",
    ],
]
# each choice of the places of the first session's turns among all
ORDERS = [[1 if place in first else 2 for place in range(6)] for first in itertools.combinations(range(6), 3)]


class Thing:
    """An object of the declarations before their module has run."""


def wanted(order):
    """What CPython prints in each session, where the statements run in this order."""
    thing = Thing()
    space = {"board": thing}
    exec(MODULE, space)
    thing.__class__ = space["Board"]
    thing.words, thing.counts = ["old"], {}
    spaces = [{"board": thing}, {"board": thing}]
    printed, left = ["", ""], [iter(SCRIPTS[0]), iter(SCRIPTS[1])]
    for number in order:
        out = io.StringIO()
        with redirect_stdout(out):
            exec(next(left[number - 1]), spaces[number - 1])
        printed[number - 1] += out.getvalue()
    return f"session 1 ann\n{printed[0]}end ok\nsession 2 bob\n{printed[1]}end ok\n"


def words(order, files):
    return ["run", files[0], f"ann:{files[1]}", f"bob:{files[2]}", "--turns", ",".join(map(str, order))]


def wrapped(row):
    """A row of at most 116 columns a line."""
    lines, width = [], 108
    while len(row) > width:
        lines.append(row[:width] + "\\")
        row, width = row[width:], 112
    return "\n    ".join(lines + [row])


def cases():
    for order in ORDERS:
        print(wrapped(",".join(map(str, order)) + " => " + wanted(order).replace("\n", "~") + "0"))


def main(program):
    program = str(Path(program).resolve()) if program else str(Path(__file__).resolve().parent.parent / "rpy")
    passed = 0
    with tempfile.TemporaryDirectory() as folder:
        files = [f"{folder}/{name}" for name in ("board.toml", "one.py", "two.py")]
        for file, text in zip(files, [DECLARATIONS, *("\n".join(script) + "\n" for script in SCRIPTS)]):
            Path(file).write_text(text)
        for order in ORDERS:
            done = subprocess.run([program, *words(order, files)], stdout=subprocess.PIPE, stdin=subprocess.DEVNULL, text=True)
            found = (done.returncode, done.stdout)
            if found == (0, wanted(order)):
                passed += 1
            else:
                print(f"{order}\n  wanted {(0, wanted(order))}\n  found  {found}")
    told = len({wanted(order) for order in ORDERS})
    print(f"{passed} of {len(ORDERS)} orders print what CPython prints, which is {told} different texts")
    return 0 if passed == len(ORDERS) else 1


if sys.argv[1:] == ["--cases"]:
    cases()
else:
    sys.exit(main(sys.argv[1] if sys.argv[1:] else None))
