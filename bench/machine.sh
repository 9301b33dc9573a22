#!/usr/bin/env bash
# Nanoseconds of a turn of loops that `rpy run` runs, in a function and at the top of a script, beside CPython's for the
# same loops in the same run; and of what reads, changes and calls a trusted object through its proxy, with a decision
# and an entry each, beside zope.security's C proxies with a compiled checker (Debian's `apt-get install
# python3-zope.security`, run by /usr/bin/python3; the column is left out where it is missing). The loops are nested, so
# that no list is longer than 1,000; an empty loop is taken off on each side. Processor time, the least of some runs.
# With the word `instructions`, the instructions of a turn of each loop by callgrind, how often it asks for memory, and
# the functions in which most of the instructions stand.
cd "$(dirname "${BASH_SOURCE[0]}")/.." || exit 2
./rpy run examples/title.toml bob:examples/title.py >/dev/null || exit 1
WHAT=$1 exec python3 - <<'PYTHON'
import os
import re
import subprocess
import sys
import tempfile

RPY = os.path.abspath("crates/rpy/out/rpy")
TIMES, OUTER, INNER = 5, 300, 1000
POLICY = '''version = 1
permissions = ["demo.View"]
expose = ["site"]
module = """
class Page:
    def doubled(self, n):
        return n + n
"""
class.Page.get = { title = "demo.View", tags = "demo.View", size = "zope.Public", doubled = "demo.View" }
class.Page.set = { size = "zope.Public" }
principal.ann.allow = ["demo.View"]
[object.site]
class = "Page"
fields = { title = "Home", size = 3, tags = ["a", "b"] }
'''
PEER = '''
import sys
from zope.security.checker import Checker, ProxyFactory
from zope.security.management import newInteraction, setSecurityPolicy
from zope.security.simplepolicies import ParanoidSecurityPolicy
class Policy(ParanoidSecurityPolicy):
    def checkPermission(self, permission, object):
        return True
setSecurityPolicy(Policy)
newInteraction()
class Page:
    def doubled(self, n):
        return n + n
page = Page(); page.title = 'Home'; page.size = 3; page.tags = ['a', 'b']
names = {name: 'demo.View' for name in ('title', 'tags', 'size', 'doubled')}
exec(sys.argv[1], {'site': ProxyFactory(page, Checker(names, {'size': 'demo.View'}))})
'''
# what is timed: its title, what stands before the loops, and what a turn does
PLAIN = [
    ("t = t + i", "t = 0", "t = t + i"),
    ("t += 1", "t = 0", "t += 1"),
    ("if i < 500", "", "if i < 500: pass"),
    ("while k < 10: k += 1, a tenth", "", "k = 0\n        while k < 10: k += 1"),
    ("item of a list", "xs = [1, 2, 3]", "xs[1]"),
    ("store to a list", "xs = [1, 2, 3]", "xs[1] = i"),
    ("item of a dict", "d = {'a': 1}", "d['a']"),
    ("store to a dict", "d = {'a': 1}", "d['a'] = i"),
    ("len(xs)", "xs = [1, 2, 3]", "len(xs)"),
    ("xs.append(i)", "xs = []", "xs.append(i)"),
    ("a list of two", "", "[i, j]"),
    ("a call with two arguments", "def f(a, b):\n    return a\n", "f(i, j)"),
    ("a call that reads a variable around it",
     "def make():\n    n = 3\n    def g():\n        return n\n    return g\ng = make()", "g()"),
    ("try without an exception", "", "try: pass\n        except: pass"),
    ("raise and except", "", "try: raise ValueError\n        except ValueError: pass"),
]
GUARDED = [
    ("site.title", "", "site.title"),
    ("tags[0], a trusted list", "tags = site.tags", "tags[0]"),
    ("site.size = i", "", "site.size = i"),
    ("site.doubled(i), a trusted method", "", "site.doubled(i)"),
]


def script(setup, body, turns):
    return f"{setup}\nfor j in range({turns}):\n    for i in range({INNER}):\n        {body}\n"


def in_function(text):
    return "def run():\n" + "".join("    " + line + "\n" for line in text.splitlines()) + "run()\n"


def spent(words):
    """Processor seconds of a process that ends well."""
    child = subprocess.Popen(words, stdout=subprocess.DEVNULL, stderr=subprocess.DEVNULL)
    _, status, used = os.wait4(child.pid, 0)
    child.returncode = os.waitstatus_to_exitcode(status)
    if child.returncode:
        sys.exit(f"status {child.returncode}: {words}")
    return used.ru_utime + used.ru_stime


def ours(text):
    with open("loop.py", "w") as file:
        file.write(text)
    return [RPY, "run", "site.toml", "ann:loop.py", "--steps", "100000000", "--cells", "8000000"]


def ours_inside(text):
    return ours(in_function(text))


def function(text):
    return [sys.executable, "-S", "-E", "-c", in_function(text)]


def module(text):
    return [sys.executable, "-S", "-E", "-c", text]


def peer(text):
    return ["/usr/bin/python3", "-c", PEER, text]


def turn(words, setup, body, turns=OUTER):
    """Nanoseconds of a turn, without those of the process and of the setup."""
    least = [min(spent(words(script(setup, body, count))) for _ in range(TIMES)) for count in (0, turns)]
    return (least[1] - least[0]) / (turns * INNER) * 1e9


def without(empty, words, setup, body):
    return max(turn(words, setup, body) - empty[words], 0.1) / (10 if "while" in body else 1)


def requests(file):
    """How many calls take memory from the C library, in a profile of callgrind."""
    names, count, callee = {}, 0, None
    for line in open(file):
        key, _, rest = line.rstrip("\n").partition("=")
        if key in ("fn", "cfn"):
            number, _, name = rest.partition(" ")
            if name:
                names[number] = name
            callee = names.get(number) if key == "cfn" else None
        elif key == "calls" and callee in ("malloc", "calloc", "realloc"):
            count += int(rest.split()[0])
    return count


def counted(setup, body):
    """The instructions of a turn, its requests for memory, and the functions with most of the instructions, by callgrind."""
    totals, asked = [], []
    for turns in (0, 3):
        words = ours_inside(script(setup, body, turns))
        counting = ["valgrind", "--tool=callgrind", "--callgrind-out-file=counts"]
        subprocess.run([*counting, *words], stdout=subprocess.DEVNULL, stderr=subprocess.DEVNULL)
        text = subprocess.run(["callgrind_annotate", "counts"], capture_output=True, text=True).stdout
        found = re.findall(r"^ *([\d,]+) \([ \d.]+%\)  (?:\S+:)?(\S+)", text, re.M)
        totals.append({name: int(count.replace(",", "")) for count, name in found})
        asked.append(requests("counts"))
    each = {name: (count - totals[0].get(name, 0)) / (3 * INNER) for name, count in totals[1].items()}
    most = sorted(((count, name) for name, count in each.items() if name != "PROGRAM"), reverse=True)[:4]
    return each.get("PROGRAM", sum(count for count, _ in most)), (asked[1] - asked[0]) / (3 * INNER), most


def main():
    if os.environ["WHAT"] == "instructions":
        for title, setup, body in [("an empty turn", "", "pass"), *PLAIN, *GUARDED]:
            count, asked, most = counted(setup, body)
            print(f"{title}: {count:.0f}, {asked:.2f} requests for memory; " + ", ".join(f"{part:.0f} {name}" for part, name in most))
        return
    sides = {ours_inside: "rpy in a function", ours: "at the top",
             function: "CPython in a function", module: "at module level"}
    empty = {words: turn(words, "", "pass") for words in sides}
    print("an empty turn of `for`: " + ", ".join(f"{name} {empty[words]:.0f} ns" for words, name in sides.items()))
    for title, setup, body in PLAIN:
        took = {words: without(empty, words, setup, body) for words in sides}
        inside, outside = took[function] / took[ours_inside], took[module] / took[ours]
        print(f"{title}: " + ", ".join(f"{name} {took[words]:.0f}" for words, name in sides.items())
              + f"; CPython's over ours {inside:.1f} in a function, {outside:.1f} at the top")
    is_there = not subprocess.run(peer("pass"), stderr=subprocess.DEVNULL).returncode
    if is_there:
        empty[peer] = turn(peer, "", "pass")
    for title, setup, body in GUARDED:
        mine = without(empty, ours, setup, body)
        line = f"{title}: rpy {mine:.0f} ns, decided and logged"
        if is_there:
            theirs = without(empty, peer, setup, body)
            line += f", zope.security {theirs:.0f}, {theirs / mine:.1f} times as long"
        print(line)


with tempfile.TemporaryDirectory() as folder:
    os.chdir(folder)
    with open("site.toml", "w") as file:
        file.write(POLICY)
    main()
PYTHON
