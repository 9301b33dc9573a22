#!/usr/bin/env bash
# What runs take from start to end, the least of some runs by the clock: a small one, `large` with more and more
# objects, three whole programs beside the same ones under RestrictedPython with zope.security (Debian's
# python3-restrictedpython and python3-zope.security, run by /usr/bin/python3; left out where they are missing), 16
# sessions in 10,000 listed turns; then the memory of a cell, and the pages' examples and 1,000 calls within one another
# on a stack of 1 MB. What an empty program takes is told beside: the peer's is mostly imports. Debian's
# RestrictedPython 4.0b3 is older than Python 3.9, so the peer mends two things in it: an index is an expression, and
# nodes have ends.
cd "$(dirname "${BASH_SOURCE[0]}")/.." || exit 2
./rpy run examples/title.toml bob:examples/title.py >/dev/null || exit 1
exec python3 - <<'PYTHON'
import os
import re
import subprocess
import sys
import tempfile
import time

TOP = os.getcwd()
RPY = f"{TOP}/crates/rpy/out/rpy"
OBJECTS = (1000, 2500, 5000, 10000)
POLICY = '''version = 2
permissions = ["shop.View", "shop.Cost"]
expose = ["articles", "rows"]
module = """
class Article:
    def margin(self):
        return self.price - self.cost
def article(i):
    it = Article()
    it.name = 'article ' + str(i)
    it.price = i * 37 % 1000
    it.cost = i * 31 % 500
    it.group = 'g' + str(i % 10)
    return it
articles = [article(i) for i in range(1000)]
rows = articles[:200]
"""
class.Article.get = { name = "shop.View", price = "shop.View", group = "shop.View", margin = "shop.Cost" }
principal.ann.allow = ["shop.View", "shop.Cost"]
'''
PEER = '''
import ast
import sys
from RestrictedPython import compile_restricted, safe_builtins, transformer
from zope.security.checker import Checker, ProxyFactory, defineChecker
from zope.security.management import newInteraction, setSecurityPolicy
from zope.security.simplepolicies import ParanoidSecurityPolicy
class Policy(ParanoidSecurityPolicy):
    def checkPermission(self, permission, object):
        return True
setSecurityPolicy(Policy)
newInteraction()
def placed(new, old):
    ast.fix_missing_locations(ast.copy_location(new, old))
def indexed(self, part, slices=transformer.RestrictingNodeTransformer.transform_slice):
    return slices(self, part) if isinstance(part, ast.Slice) else part
transformer.copy_locations = placed
transformer.RestrictingNodeTransformer.transform_slice = indexed
class Article:
    def margin(self):
        return self.price - self.cost
names = {name: 'shop.View' for name in ('name', 'price', 'group')}
names.update(cost='shop.Cost', margin='shop.Cost')
defineChecker(Article, Checker(names))
def article(i):
    it = Article()
    it.name = 'article ' + str(i); it.group = 'g' + str(i % 10)
    it.price = i * 37 % 1000; it.cost = i * 31 % 500
    return it
articles = [article(i) for i in range(1000)]
class Print:
    def __init__(self, _getattr_=None): pass
    def _call_print(self, *values): print(*values)
space = {'__builtins__': {**safe_builtins, 'range': range, 'sum': sum, 'sorted': sorted, 'list': list},
         '__name__': 'script', '_print_': Print, '_getattr_': getattr, '_getitem_': lambda o, k: o[k],
         '_getiter_': iter, '_write_': lambda o: o,
         'articles': ProxyFactory(articles), 'rows': ProxyFactory(articles[:200])}
exec(compile_restricted(sys.argv[1], 'script', 'exec'), space)
'''
PROGRAMS = {
    "attributes": """
def add():
    total = 0
    for turn in range(20):
        for article in articles:
            total = total + article.price
    return total
print(add())
""",
    "sorting": """
def before(a, b):
    return a.price < b.price
def sort(all):
    done = []
    for article in all:
        place = 0
        while place < len(done) and before(done[place], article):
            place = place + 1
        done = done[:place] + [article] + done[place:]
    return done
print([article.price for article in sort(rows)])
""",
    "a report": """
sums = {}
for article in articles:
    sums[article.group] = sums.get(article.group, 0) + article.margin()
for group in sorted(list(sums)):
    print(group, sums[group])
for article in articles:
    if article.price > 900:
        print(article.name, article.price)
""",
}


def write(name, text):
    with open(name, "w") as file:
        file.write(text)
    return name


def run(words, status=0):
    """The time by the clock of a process that ends with this status, and the most memory that it took, in bytes."""
    begun = time.perf_counter()
    dropped = [(os.POSIX_SPAWN_OPEN, 1, "/dev/null", os.O_WRONLY, 0)]
    child = os.posix_spawn(words[0], words, os.environ, file_actions=dropped)
    _, ended, used = os.wait4(child, 0)
    if os.waitstatus_to_exitcode(ended) != status:
        sys.exit(f"status {os.waitstatus_to_exitcode(ended)}: {words}")
    return time.perf_counter() - begun, used.ru_maxrss * 1024


def least(words, times=5):
    return min(run(words) for _ in range(times))


def small():
    mine = least([RPY, "run", f"{TOP}/examples/title.toml", f"bob:{TOP}/examples/title.py"], 20)[0]
    python = least([sys.executable, "-c", "pass"], 20)[0]
    print(f"a small run: rpy {mine * 1e3:.1f} ms, `python3 -c pass` {python * 1e3:.1f} ms")


def large():
    each = []
    for count in OBJECTS:
        took, memory = least([RPY, "large", str(count)])
        each.append(took / count)
        print(f"large {count}: {took:.3f} s, {took / count * 1e6:.1f} us an object, {memory >> 20} MB")
    print(f"an object of {OBJECTS[-1]} takes {each[-1] / each[0]:.2f} times what one of {OBJECTS[0]} takes")


def ours(text):
    return [RPY, "run", "shop.toml", "ann:" + write("program.py", text), "--steps", "10000000", "--cells", "8000000"]


def peer(text):
    return ["/usr/bin/python3", "-W", "ignore", "-c", PEER, text]


def printed(words):
    """The lines that a process prints, None where it is not there or fails."""
    try:
        done = subprocess.run(words, stdout=subprocess.PIPE, stderr=subprocess.DEVNULL, text=True)
    except OSError:
        return None
    return done.stdout.splitlines() if done.returncode == 0 else None


def programs():
    write("shop.toml", POLICY)
    is_there = printed(peer("pass")) is not None
    for title, text in {"an empty program": "pass\n", **PROGRAMS}.items():
        mine = least(ours(text))[0]
        line = f"{title}: rpy {mine * 1e3:.1f} ms"
        if is_there:
            if printed(peer(text)) != printed(ours(text))[1:-1]:
                sys.exit(f"{title}: the peer prints something else")
            theirs = least(peer(text))[0]
            line += f", the peer {theirs * 1e3:.1f} ms, {theirs / mine:.1f} times as long"
        print(line)


def sessions():
    who = ["ann:" + write(f"session{k}.py", "n = 0\n" + "n = n + 1\n" * 999) for k in range(16)]
    turns = ",".join(str(k + 1) for _ in range(625) for k in range(16))
    took = least([RPY, "run", "shop.toml", *who, "--turns", turns])[0]
    plain = least([RPY, "run", "shop.toml", *who])[0]
    told = f"{took * 1e3:.0f} ms in 10,000 turns, {plain * 1e3:.0f} ms one after another"
    print(f"16 sessions of 1,000 statements: {told}")


def resting(words):
    """The most memory that a process took that goes on by itself. Of one that has ended the system tells no less than
    of the one that began it."""
    child = subprocess.Popen(words, stdout=subprocess.DEVNULL)
    time.sleep(0.5)
    with open(f"/proc/{child.pid}/status") as file:
        most = re.search(r"VmHWM:\s+(\d+) kB", file.read())
    child.kill()
    child.wait()
    return int(most.group(1)) * 1024


def memory():
    none = resting([RPY, "run", "shop.toml", "ann:" + write("none.py", "while True: pass\n"), "--steps", "100000000"])
    made = write("cells.py", "all = []\nwhile True:\n    all.append([1, 2])\n")
    for cells in (1000000, 8000000):
        limits = ["--steps", "100000000", "--cells", str(cells)]
        took, most = run([RPY, "run", "shop.toml", f"ann:{made}", *limits], 5)
        each = (most - none) / cells
        print(f"lists of two up to {cells} cells: {took:.2f} s, {most >> 20} MB, {each:.0f} bytes a cell")


def stack():
    limited = ["/bin/bash", "-c", 'ulimit -s 1024; exec "$@"', "-"]
    text = "def down(n):\n    if n == 0:\n        return 0\n    return down(n - 1) + 1\nprint(down(999))\n"
    calls = write("calls.py", text)
    took = run([*limited, RPY, "run", "shop.toml", f"ann:{calls}"])[0]
    print(f"1,000 calls within one another on a stack of 1 MB: {took * 1e3:.0f} ms")
    print("the pages' examples on a stack of 1 MB:", end=" ", flush=True)
    told = subprocess.run([*limited, sys.executable, f"{TOP}/bench/pages.py"], capture_output=True, text=True).stdout
    print(told.splitlines()[-1])


with tempfile.TemporaryDirectory() as folder:
    os.chdir(folder)
    small()
    large()
    programs()
    sessions()
    memory()
    stack()
PYTHON
