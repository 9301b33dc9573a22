#!/usr/bin/env python3
"""Every form that lists things, and every form that holds itself, as long as a file may be, on a stack of 1 MB.

    bench/hostile/lists.py [PROGRAM] [WORD..]   with words: the cases whose titles hold one of them

Scripts go through `check`, `show` and `run`, each `run` with the most steps and cells that the options allow, and
declaration files through `may` and `run`. A process may end with any status of the program but 8, and by no signal. It
prints a line for each case that ends otherwise, then how many ended well, with the longest and the largest of each
command; status 1 where one ended otherwise.
"""

import os
import resource
import subprocess
import sys
import tempfile

SIZE = 4_194_304
STACK = 1 << 20
STEPS = ["--steps", "100000000", "--cells", "8000000"]
DECLARATIONS = 'version = 1\npermissions = []\nexpose = []\n[principal.bob]\n'


def many(front, part, end="", between="", size=SIZE):
    """As many parts as fit; a part may hold `{}` for its number."""
    number, parts, left = 0, [], size - len(front.encode()) - len(end.encode())
    while True:
        text = part.replace("{}", str(number)) if "{}" in part else part
        text = between + text if number else text
        left -= len(text.encode())
        if left < 0:
            return front + "".join(parts) + end
        parts.append(text)
        number += 1


def nested(opened, middle, closed, depth=None):
    """Forms within one another, as many as fit where no depth is told."""
    depth = depth or (SIZE - len(middle)) // len(opened + closed)
    return opened * depth + middle + closed * depth


# title: script. What is read alone comes first, then what a run goes through.
SCRIPTS = {
    "parameters": lambda: many("def f(", "p{}", "): pass\n", ", "),
    "parameters with defaults": lambda: many("def f(", "p{}=0", "): pass\nf()\n", ", "),
    "parameters, defaults at the end": lambda: many("def f(", "p{}", ", q=1, r=2): pass\n", ", "),
    "parameters of a lambda": lambda: many("f = lambda ", "p{}", ": 0\n", ", "),
    "defaults of a lambda": lambda: many("f = lambda ", "p{}=0", ": 0\nf()\n", ", "),
    "arguments": lambda: many("def f(*a): return len(a)\nprint(f(", "0", "))\n", ","),
    "arguments that are names": lambda: many("x = 1\ndef f(*a): return len(a)\nprint(f(", "x", "))\n", ","),
    "arguments by name": lambda: many("def f(**a): return len(a)\nprint(f(", "p{}=0", "))\n", ","),
    "arguments by star": lambda: many("a = [1]\ndef f(*a): return len(a)\nprint(f(", "*a", "))\n", ","),
    "arguments by two stars": lambda: many("a = {}\ndef f(**a): return len(a)\nprint(f(", "**a", "))\n", ","),
    "arguments of print": lambda: many("print(", "0", ")\n", ","),
    "targets of an assignment": lambda: many("", "a", " = []\n", ", "),
    "targets in brackets": lambda: many("x = [1]\n[", "a", "] = x\n", ", "),
    "targets of for": lambda: many("for ", "a", " in [[]]: pass\n", ", "),
    "an assignment to many": lambda: many("", "a = ", "0\n"),
    "an assignment to many attributes": lambda: many("x = 1\n", "x.a = ", "0\n"),
    "names that differ": lambda: many("", "n{} = ", "0\n"),
    "names of global": lambda: many("def f():\n global ", "n{}", "\nf()\n", ", "),
    "names of global, each by itself": lambda: many("def f():\n", " global n{}\n", "\nf()\n"),
    "del": lambda: many("a = 1\ndel ", "a", "\n", ", "),
    "del of items": lambda: many("a = []\ndel ", "a[0]", "\n", ", "),
    "clauses": lambda: many("a = [1]\nb = [x ", "for x in a ", "]\n"),
    "conditions of a clause": lambda: many("b = [x for x in [1] ", "if x ", "]\n"),
    "clauses of a dict": lambda: many("a = [1]\nb = {x: x ", "for x in a ", "}\n"),
    "branches": lambda: many("if 0: pass\n", "elif 0: pass\n", "else: print(1)\n"),
    "comparisons": lambda: many("print(", "1 ", "1)\n", "<= "),
    "comparisons by in": lambda: many("a = [1]\nprint(1 ", "in a ", ")\n"),
    "handlers": lambda: many("try: raise ValueError\n", "except KeyError: pass\n", "except: print(1)\n"),
    "kinds of a handler": lambda: many("try: raise ValueError\nexcept (", "KeyError", "): pass\n", ", "),
    "statements of a line": lambda: many("", "0;", "\n"),
    "statements": lambda: many("", "0\n"),
    "statements of a block": lambda: many("def f():\n", " 0\n", "f()\n"),
    "statements of finally": lambda: many("try: pass\nfinally:\n", " 0\n"),
    "functions": lambda: many("", "def f(): pass\n"),
    "functions of a function": lambda: many("def f():\n", " def g(): pass\n", "f()\n"),
    "lambdas": lambda: many("a = [", "lambda: 0", "]\n", ","),
    "methods": lambda: many("class A:\n", " def f(self): pass\n"),
    "classes": lambda: many("", "class A: pass\n"),
    "elements of a list": lambda: many("a = [", "0", "]\nb = a == a\nprint(len(str(a)))\n", ","),
    "elements of a tuple": lambda: many("a = (", "0", ")\n", ","),
    "entries": lambda: many("a = {", "0:0", "}\n", ","),
    "elements of a set": lambda: many("x = 0\na = x in {", "0", "}\n", ","),
    "a set of names": lambda: many("x = 0\na = x in {", "x", "}\n", ","),
    "lists of a list": lambda: many("a = [", "[]", "]\nprint(len(str(a)))\n", ","),
    "operands of +": lambda: many("print(", "1", ")\n", "+"),
    "operands of *": lambda: many("print(", "1", ")\n", "*"),
    "operands of |": lambda: many("print(", "1", ")\n", "|"),
    "operands of and": lambda: many("print(", "1", ")\n", " and "),
    "operands of or": lambda: many("print(", "0", ")\n", " or "),
    "operands of an assignment": lambda: many("a = 0\na += ", "1", "\n", "+"),
    "calls of calls": lambda: many("def f(): return f\nf", "()", "\n"),
    "items of items": lambda: many("a = [0]\na[0] = a\na", "[0]", "\n"),
    "attributes of attributes": lambda: many("class A: pass\na = A()\na.b = a\na", ".b", "\n"),
    "slices of slices": lambda: many("a = []\na", "[:]", "\n"),
    "texts behind one another": lambda: many("a = ", "''", "\n", " "),
    "f-literals": lambda: many("x = 0\n", "f'{x}';", "\n"),
    "parts of an f-literal": lambda: many("x = 0\na = f'", "{x}", "'\n"),
    "letters of a text": lambda: many("a = '", "a", "'\nprint(len(a))\n"),
    "escapes of a text": lambda: many("a = '", "\\n", "'\n"),
    "digits of a number": lambda: many("a = ", "1", "\n"),
    "letters of a name": lambda: many("", "a", "\n"),
    "comments": lambda: many("", "#\n"),
    "empty lines": lambda: many("", "\n"),
    "blanks": lambda: many("", " ", "\n"),
    "nested brackets": lambda: nested("[", "", "]"),
    "nested parentheses": lambda: nested("(", "0", ")"),
    "nested braces": lambda: nested("{0:", "0", "}"),
    "nested calls": lambda: nested("f(", "", ")"),
    "nested minus signs": lambda: nested("-", "0", ""),
    "nested not": lambda: nested("not ", "0", ""),
    "nested powers": lambda: nested("2**", "1", ""),
    "nested lambdas": lambda: nested("lambda:", "0", ""),
    "nested conditions": lambda: nested("0 if 0 else ", "0", ""),
    "nested targets": lambda: nested("(", "a", ",)") + " = 0\n",
    "open brackets": lambda: "[" * SIZE,
    "closed brackets": lambda: "]" * SIZE,
    "nested blocks": lambda: "".join(" " * depth + "if 1:\n" for depth in range(2_893)),
    "lines that go on": lambda: many("a = 0", "\\\n", "+ 1\n"),
}

# title: declaration file
FILES = {
    "permissions": lambda: many('version = 1\nexpose = []\npermissions = [', '"p{}"', ']\n[principal.bob]\n', ","),
    "exposed objects": lambda: many('version = 1\npermissions = []\nexpose = [', '"o{}"', ']\n[principal.bob]\n', ","),
    "classes": lambda: many(DECLARATIONS, "[class.C{}]\n"),
    "like": lambda: many(DECLARATIONS + "[class.C0]\n", '[class.D{}]\nlike = "C0"\n'),
    "a chain of like": lambda: chain(),
    "a ring of like": lambda: chain(ring=True),
    "rows": lambda: many(DECLARATIONS + "[class.C]\n[class.C.get]\n", 'n{}="zope.Public"\n'),
    "roles": lambda: many('version = 2\npermissions = []\nexpose = []\n[principal.bob]\n', "[role.r{}]\n"),
    "groups": lambda: many(DECLARATIONS.replace("1", "2", 1), "[group.g{}]\n"),
    "groups of a principal": lambda: grouped(),
    "grants": lambda: many('version = 1\npermissions = ["p"]\nexpose = []\n[principal.bob]\nallow = [', '"p"', "]\n", ","),
    "principals": lambda: many(DECLARATIONS, "[principal.p{}]\n"),
    "objects": lambda: many(DECLARATIONS + "[class.C]\n", '[object.o{}]\nclass = "C"\n'),
    "fields": lambda: many(DECLARATIONS + '[class.C]\n[object.o]\nclass = "C"\n[object.o.fields]\n', "f{}=1\n"),
    "a list of a field": lambda: many(DECLARATIONS + '[class.C]\n[object.o]\nclass = "C"\nfields = { f = [', "1", "] }\n", ","),
    "nested arrays": lambda: DECLARATIONS + "x = " + nested("[", "", "]", 2_000_000),
    "open arrays": lambda: DECLARATIONS + "x = " + "[" * 4_000_000,
    "nested tables": lambda: DECLARATIONS + "x = " + nested("{a=", "1", "}", 1_000_000),
    "a dotted key": lambda: many(DECLARATIONS, "a", " = 1\n", "."),
    "dotted keys": lambda: many(DECLARATIONS, "a.b.c{} = 1\n"),
    "a dotted table": lambda: many(DECLARATIONS + "[", "a", "]\n", "."),
    "dotted tables": lambda: many(DECLARATIONS, "[a.b.c{}]\n"),
    "arrays of tables": lambda: many(DECLARATIONS, "[[a]]\n"),
    "a text": lambda: many('version = "', "a", '"\n'),
    "a number": lambda: many("version = ", "1", "\n"),
    "comments": lambda: many("", "#\n"),
    "a module": lambda: many(DECLARATIONS.replace("[principal", "module = '''\n@@'''\n[principal", 1), "0\n").replace("@@", "", 1),
}


def chain(ring=False):
    """Classes of which each is like the next."""
    parts, number, left = [DECLARATIONS], 0, SIZE - 200
    while left > 0:
        part = f'[class.C{number}]\nlike = "C{number + 1}"\n'
        parts.append(part)
        left -= len(part)
        number += 1
    return "".join(parts) + (f'[class.C{number}]\nlike = "C0"\n' if ring else f"[class.C{number}]\n")


def grouped():
    """A principal of as many groups as fit."""
    count = SIZE // 28
    names = ",".join(f'"g{number}"' for number in range(count))
    front = 'version = 2\npermissions = []\nexpose = []\n'
    return front + f"[principal.bob]\ngroups = [{names}]\n" + "".join(f"[group.g{number}]\n" for number in range(count))


def small_stack():
    resource.setrlimit(resource.RLIMIT_STACK, (STACK, STACK))


def ended(words):
    """Status, processor seconds and megabytes of a process; a status below 0 is a signal."""
    sink = subprocess.DEVNULL
    started = subprocess.Popen(words, stdin=sink, stdout=sink, stderr=sink, preexec_fn=small_stack)
    _, status, used = os.wait4(started.pid, 0)
    started.returncode = os.waitstatus_to_exitcode(status)
    return started.returncode, used.ru_utime + used.ru_stime, used.ru_maxrss / 1024


class Tally:
    """What the runs came to."""

    def __init__(self):
        self.well, self.otherwise, self.most = 0, 0, {}

    def ask(self, command, title, words):
        status, seconds, megabytes = ended(words)
        if status < 0 or status == 8:
            print(f"{command} {title}: status {status}, {seconds:.2f} s, {megabytes:.0f} MB", flush=True)
            self.otherwise += 1
            return
        self.well += 1
        slow, large = self.most.get(command, ((0, ""), (0, "")))
        self.most[command] = max(slow, (seconds, title)), max(large, (megabytes, title))


def main():
    given = sys.argv[1:]
    program = given.pop(0) if given and os.access(given[0], os.X_OK) else "crates/rpy/out/rpy"
    wanted = lambda title: not given or any(word in title for word in given)
    tally = Tally()
    with tempfile.TemporaryDirectory() as folder:
        plain, script, file = f"{folder}/plain.toml", f"{folder}/script.py", f"{folder}/file.toml"
        with open(plain, "w") as sink:
            sink.write(DECLARATIONS)
        with open(f"{folder}/empty.py", "w") as sink:
            sink.write("")
        for title, text in SCRIPTS.items():
            if wanted(title):
                with open(script, "w") as sink:
                    sink.write(text())
                tally.ask("check", title, [program, "check", script])
                tally.ask("show", title, [program, "show", script])
                tally.ask("run", title, [program, "run", plain, f"bob:{script}", *STEPS])
        for title, text in FILES.items():
            if wanted(title):
                with open(file, "w") as sink:
                    sink.write(text())
                tally.ask("may", title, [program, "may", file, "bob", "zope.Public"])
                tally.ask("run of", title, [program, "run", file, f"bob:{folder}/empty.py"])
    for command, ((seconds, slow), (megabytes, large)) in tally.most.items():
        print(f"{command}: at most {seconds:.2f} s ({slow}), {megabytes:.0f} MB ({large})")
    print(f"{tally.well} of {tally.well + tally.otherwise} ended well on a stack of 1 MB")
    sys.exit(1 if tally.otherwise else 0)


main()
