#!/usr/bin/env python3
"""How much stack the deepest scripts take: for each the least, in KB, with which `check`, `show` and `run` end as they do on 64 MB.

    bench/hostile/deep.py [PROGRAM]

What is deepest is bounded by the language: 200 open brackets, statements of height 200, 200 containers within one
another where they are shown or compared, and 1,000 calls. The last line names the most that was seen.
"""

import os
import resource
import subprocess
import sys
import tempfile

DECLARATIONS = 'version = 1\npermissions = []\nexpose = []\n[principal.bob]\n'
WORDS = ["--steps", "100000", "--cells", "100000"]


def brackets(opened, middle, closed, count=199):
    return opened * count + middle + closed * count


def blocks(head, inner, count):
    """So many blocks within one another, and a text in the last."""
    return "".join(" " * depth + head + "\n" for depth in range(count)) + " " * count + inner + "\n"


LITERAL = "f'{" + brackets("(", "0", ")", 198) + "}'"
SCRIPTS = {
    "parentheses": brackets("(", "0", ")") + "\n",
    "lists": brackets("[", "", "]") + "\n",
    "dicts": brackets("{0:", "0", "}") + "\n",
    "calls": "def f(*a): return a\n" + brackets("f(", "", ")") + "\n",
    "calls by name": "def f(**a): return a\n" + brackets("f(a=", "0", ")") + "\n",
    "items": "a = [0]\n" + brackets("a[", "0", "]") + "\n",
    "slices": "a = []\n" + brackets("a[a:", "", "]") + "\n",
    "comprehensions": brackets("[x for x in ", "[]", "]") + "\n",
    "conditions": "0 if 0 else " * 197 + "0\n",
    "lambdas": "lambda: " * 197 + "0\n",
    "minus signs": "-" * 197 + "1\n",
    "not": "not " * 197 + "1\n",
    "powers": "1**" * 197 + "1\n",
    "targets": brackets("(", "a", ",)", 196) + " = 0\n",
    "an f-literal in parentheses": brackets("(", LITERAL, ")") + "\n",
    "an f-literal in lists": brackets("[", LITERAL, "]") + "\n",
    "an f-literal in dicts": brackets("{0:", LITERAL, "}") + "\n",
    "if": blocks("if 1:", "0", 196),
    "def": blocks("def f():", "0", 196),
    "class": blocks("class A:", "def f(self): pass", 1),
    "try": blocks("try:", "0", 1) + "except: pass\n",
    "for": blocks("for a in [0]:", "0", 196),
    "while": blocks("while 0:", "0", 196),
    "an f-literal in parentheses in def": blocks("def f():", brackets("(", LITERAL, ")"), 195),
    "an f-literal in parentheses in if": blocks("if 1:", brackets("(", LITERAL, ")"), 195),
    "an f-literal in parentheses in for": blocks("for a in [0]:", brackets("(", LITERAL, ")"), 195),
    "an f-literal in parentheses in while": blocks("while 1:", brackets("(", LITERAL, ")"), 195),
    "an f-literal in calls in def": "def g(*a): return a\n" + blocks("def f():", brackets("g(", LITERAL, ")"), 1),
    "a list that is shown": "a = []\nfor i in range(198):\n    a = [a]\nprint(len(str(a)))\n",
    "a list that is compared": "a, b = [], []\nfor i in range(198):\n    a, b = [a], [b]\nprint(a == b)\n",
    "a dict that is shown": "a = {}\nfor i in range(198):\n    a = {0: a}\nprint(len(str(a)))\n",
    "calls within one another": "def f(n):\n    return f(n - 1) if n else 0\nprint(f(990))\n",
    "a list that holds itself": "a = []\na.append(a)\nprint(a)\n",
}


def ended(words, kilobytes):
    def limit():
        resource.setrlimit(resource.RLIMIT_STACK, (kilobytes << 10, kilobytes << 10))

    return subprocess.run(words, stdin=subprocess.DEVNULL, stdout=subprocess.DEVNULL, stderr=subprocess.DEVNULL, preexec_fn=limit).returncode


def least(words):
    """The least stack in KB, to 8 KB, with which a process ends as it does on 64 MB, and how that is."""
    wanted = ended(words, 65_536)
    low, high = 0, 65_536
    while high - low > 8:
        middle = (low + high) // 2
        low, high = (low, middle) if ended(words, middle) == wanted else (middle, high)
    return high, wanted


def main():
    program = sys.argv[1] if len(sys.argv) > 1 else "crates/rpy/out/rpy"
    most = (0, "")
    with tempfile.TemporaryDirectory() as folder:
        plain, script = f"{folder}/plain.toml", f"{folder}/script.py"
        with open(plain, "w") as sink:
            sink.write(DECLARATIONS)
        for title, text in SCRIPTS.items():
            with open(script, "w") as sink:
                sink.write(text)
            told = []
            for words in (["check", script], ["show", script], ["run", plain, f"bob:{script}", *WORDS]):
                kilobytes, status = least([program, *words])
                told.append(f"{words[0]} {kilobytes} KB (status {status})")
                most = max(most, (kilobytes, f"{words[0]} of {title}"))
            print(f"{title}: {', '.join(told)}", flush=True)
    print(f"the most: {most[0]} KB, {most[1]}")


main()
