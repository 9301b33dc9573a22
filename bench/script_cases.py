#!/usr/bin/env python3
"""The scripts that the tests of the machine run, as the crate rp_tests_machine has them.

    script_cases.py [TABLE..]        prints the tables, or those of these names
    script_cases.py --check FILE..   tells which cases of the files are in no table, and which cases of tables that the
                                     files have are in no file; status 1 where there is one

A case is a script, and what comes of it: what it prints, and how it ends. CPython gives both (3.11), but for the texts of
exceptions, which are our own: they stand here. A script that CPython reads otherwise has its answer here, and why. In a
case `~` is the end of a line.
"""
import io
import re
import sys
from contextlib import redirect_stdout

TABLES = {}
# more calls than any script here makes at once but one that never ends
sys.setrecursionlimit(5_000)


def table(name, sentence, scripts, own=(), front=""):
    """A table: what it is about; scripts that CPython answers, each with the text of its exception behind ` !! ` where it
    raises one; scripts with their answers and why these are not CPython's; and code that stands before each script."""
    TABLES[name] = (sentence, scripts, own, front)



def answer(script, text):
    """What CPython prints, and how the script ends, with the text of our own."""
    out = io.StringIO()
    with redirect_stdout(out):
        try:
            exec(compile(script, "script", "exec"), {"__name__": "script"})
            end = "well"
        except Exception as fault:  # the kind is what is asked
            end = f"{type(fault).__name__}: {text}" if text is not None else f"?? {type(fault).__name__}: {fault}"
    return out.getvalue() + end


def case(script, told):
    return script.replace("\n", "~") + " => " + told.replace("\n", "~")


def wrapped(row):
    """A row of at most 116 columns a line."""
    lines = []
    width = 116
    while len(row) > width:
        lines.append(row[:width] + "\\")
        row = row[width:]
        width = 112
    return "\n    ".join(lines + [row])


def cases(name):
    _, scripts, own, front = TABLES[name]
    for script in scripts:
        script, fault, text = script.partition(" !! ")
        yield case(script, answer(front + script, text if fault else None))
    for script, told, _ in own:
        yield case(script, told)


table("NUMBERS", "Whole numbers", [
    "print(1 + 2 * 3 - 4, (1 + 2) * 3)",
    "print(7 // 2, -7 // 2, 7 // -2, -7 // -2)",
    "print(7 % 3, -7 % 3, 7 % -3, -7 % -3)",
    "print(2 ** 10, -2 ** 2, 2 ** 3 ** 2, 0 ** 0)",
    "print(6 & 3, 6 | 3, 6 ^ 3, 1 << 5, 200 >> 3, -1 >> 70)",
    "print(True + True, True & False, True | 1, True ^ True)",
    "print(- -5, +5, -(3 - 4), not 5, not 0, not not [])",
    "print(9223372036854775807, -9223372036854775807 - 1)",
    "print(1 if 2 > 1 else 0, 'no' if 0 else 'yes')",
    "print(abs(-3), int('42'), int(' 7') if 0 else int('-7'), int(True), bool(0), bool('x'))",
    "print(sum([1, 2, 3]), min(3, 1, 2), max([4, 9]), sorted([3, 1, 2]))",
    "x = 5\nx += 2\nx *= 3\nx -= 1\nx //= 4\nx **= 2\nx %= 7\nx <<= 3\nx |= 1\nx &= 12\nx ^= 5\nx >>= 1\nprint(x)",
    "print(1 // 0) !! zero",
    "print('a')\nprint(1 % 0)\nprint('b') !! zero",
    "print(1 << -1) !! shift",
    "print(int('x')) !! int",
    "print(1 + 'a') !! operand",
    "print(-'a') !! operand",
    "print(sum(['a'])) !! argument",
    "print(min([])) !! empty",
], [
    ("print(9223372036854775807 + 1)", "OverflowError: int", "whole numbers have 64 bits"),
    ("print(3037000500 * 3037000500)", "OverflowError: int", "whole numbers have 64 bits"),
    ("print(-(-9223372036854775807 - 1))", "OverflowError: int", "whole numbers have 64 bits"),
    ("print(1 << 63)", "OverflowError: int", "whole numbers have 64 bits"),
    ("print(2 ** 64)", "OverflowError: int", "whole numbers have 64 bits"),
    ("print(2 ** -1)", "ValueError: power", "there are no fractions"),
])

table("COMPARISONS", "Comparisons, `and` and `or`", [
    "print(1 < 2, 2 <= 2, 3 > 4, 4 >= 5, 1 == True, 1 != 2)",
    "print(1 < 2 < 3, 1 < 3 < 2, 3 > 2 > 1 > 0, 1 == 1 == 1)",
    "print('a' < 'b', 'ab' < 'b', '' < 'a', 'b' >= 'a')",
    "print([1, 2] == [1, 2], [1] == (1,), (1, 2) == (1, 2), [1] != [2])",
    "print(2 in [1, 2], 3 not in (1, 2), 'b' in 'abc', 'bd' in 'abc')",
    "x = None\nprint(x is None, x is not None, 0 is None)",
    "print(0 and 1, 2 and 3, 0 or 4, 5 or 6, [] or 'x', '' and 1)",
    "print(1 and 2 and 3, 1 and 0 and 3, 0 or '' or None, 0 or 7 or 8)",
    "print('first' if print('asked') or 1 else 'second')",
    "print(print(1) or print(2) or 3)",
    "print(print(1) and print(2))",
    "print(0 and 1 // 0, 1 or 1 // 0)",
    "print(2 < 1 < 1 // 0)",
    "print(len([1]) < len([1, 2]) < len([1, 2, 3]))",
    "print(1 < 'a') !! operand",
    "print('a' in ['b', 1, 'a'], None in [None], [] in [[]])",
    "print(1 in 5) !! operand",
    "print(1 in 'a') !! operand",
    "d = dict()\nd['a'] = 1\nprint('a' in d, 1 in d, 'b' not in d)",
])

table("NAMES", "Names", [
    "x = 1\nx = x + 1\nprint(x)",
    "x = y = 3\nx += 1\nprint(x, y)",
    "print(x) !! x",
    "x = 1\ndel x\nprint(x) !! x",
    "del x !! x",
    "x += 1 !! x",
    "x = 1\ndel x\nx = 2\nprint(x)",
    "len = 3\nprint(len)",
    "a = 1\nb = a\na = 2\nprint(a, b)",
    "xs = []\nys = xs\nys.append(1)\nprint(xs, ys)",
    "f = len\nprint(f('abc'), f == len)",
    "if 0:\n    x = 1\nprint(x) !! x",
    "x = 1\nx() !! call",
    "'a'() !! call",
    "None.x !! x",
    "a = b = []\na.append(b == a)\nprint(b)",
    "pass\nNone\n1\n'text'",
    "assert 1\nassert 1, 'not told'\nprint('on')",
    "assert 0, 'told' !! told",
    "assert [] !! ",
    "assert 1 // 0, 'later' !! zero",
    "assert 0, 1 // 0 !! zero",
], [
    ("len = 3\ndel len\nprint(len('ab'))", "2~well", "a name that has no value any more is looked up behind the globals"),
])

table("BRANCHES", "`if`, `while`, `break` and `continue`", [
    "x = 3\nif x > 2:\n    print('more')\nelif x > 1:\n    print('one')\nelse:\n    print('less')",
    "x = 2\nif x > 2:\n    print('more')\nelif x > 1:\n    print('one')\nelse:\n    print('less')",
    "x = 1\nif x > 2:\n    print('more')\nelif x > 1:\n    print('one')\nelse:\n    print('less')",
    "i = 0\nwhile i < 3:\n    print(i)\n    i += 1\nprint('end', i)",
    "i = 0\nwhile 1:\n    i += 1\n    if i == 2:\n        continue\n    if i > 4:\n        break\n    print(i)",
    "i = 0\nwhile i < 3:\n    j = 0\n    while 1:\n        j += 1\n        if j > i:\n            break\n        print(i, j)\n    i += 1",
    "while 0:\n    print('never')\nprint('behind')",
    "while []:\n    pass\nprint('behind')",
    "i = 3\nwhile i:\n    i -= 1\n    print(i)",
    "i = 5\nwhile 10 // i:\n    i -= 1 !! zero",
    "if 1 // 0:\n    print('no') !! zero",
    "if 0:\n    1 // 0\nprint('on')",
    "n = 27\nsteps = 0\nwhile n != 1:\n    if n % 2:\n        n = 3 * n + 1\n    else:\n        n //= 2\n    steps += 1\nprint(steps)",
    "a = 0\nb = 1\nwhile a < 100:\n    print(a)\n    c = a + b\n    a = b\n    b = c",
])

table("LOOPS", "`for`", [
    "for x in [1, 2, 3]:\n    print(x)",
    "for x in ():\n    print(x)\nprint('none')",
    "for x in (1, 'a', None):\n    print(x)\nprint(x)",
    "for c in 'añ😀':\n    print(c, len(c))",
    "for c in '':\n    print(c)\nprint('none')",
    "d = dict()\nd['b'] = 1\nd['a'] = 2\nfor k in d:\n    print(k, d[k])",
    "for i in range(3):\n    for j in range(i):\n        print(i, j)",
    "for x in range(10):\n    if x == 2:\n        continue\n    if x == 5:\n        break\n    print(x)",
    "xs = [1]\nfor x in xs:\n    print(x)\n    if x < 4:\n        xs.append(x + 1)\nprint(xs)",
    "xs = [1, 2, 3, 4]\nfor x in xs:\n    print(x)\n    xs.remove(x)\nprint(xs)",
    "t = 0\nfor x in range(101):\n    t += x\nprint(t)",
    "for x in sorted(['b', 'c', 'a']):\n    print(x)",
    "for p in enumerate('ab'):\n    print(p)",
    "for p in zip([1, 2], 'ab'):\n    print(p)",
    "for x in 5:\n    print(x) !! iterate",
    "for x in None:\n    print(x) !! iterate",
    "for x in [1, 0]:\n    print(1 // x) !! zero",
    "d = dict()\nd['a'] = 1\nfor k in d:\n    d[k + 'b'] = 2 !! dict size",
    "for xs in [[1], [2, 3]]:\n    for x in xs:\n        if x == 2:\n            break\n        print(x)\n    print('next')",
    "xs = []\nfor c in 'abc':\n    xs.append(c)\nprint(xs, ''.join(xs))",
])

table("RAISES", "`raise`", [
    "raise ValueError('told') !! told",
    "raise ValueError !! ",
    "raise IndexError(5) !! 5",
    "print('a')\nif 1:\n    raise RuntimeError('here')\nprint('b') !! here",
    "for i in range(5):\n    if i == 2:\n        raise TypeError(i)\n    print(i) !! 2",
    "x = ArithmeticError('kept')\nprint(x)\nraise x !! kept",
    "raise (print(1) or LookupError)(print(2) or 'text') !! text",
    "raise {'k': [ValueError]}['k'][0] !! ",
    "raise 5 !! raise",
    "raise None !! raise",
    "raise len !! raise",
])

table("UNPACKING", "Unpacking, in assignments and in `for`", [
    "a, b = 1, 2\nprint(a, b)\na, b = b, a\nprint(a, b)",
    "(a, (b, c)) = (1, [2, 3])\nprint(a, b, c)",
    "[a, b] = 'xy'\nprint(a, b)",
    "a, = [5]\nprint(a)",
    "a, b = {'x': 1, 'y': 2}\nprint(a, b)",
    "i, xs = 1, [0, 0]\ni, xs[i] = 0, 9\nprint(i, xs)",
    "xs = [0]\nxs[print(2) or 0], y = print(1) or (7, 8)\nprint(xs, y)",
    "xs = [0]\nys = xs\nxs, xs[0] = [1, 2], 3\nprint(xs, ys)",
    "for i, c in enumerate('ab'):\n    print(i, c)",
    "for a, (b, c) in [(1, (2, 3)), (4, 'xy')]:\n    print(a, b, c)",
    "for k, v in {'a': 1, 'b': 2}.items():\n    print(k, v)",
    "t = 0\nfor (x, y) in zip([1, 2], [3, 4]):\n    if x == 2:\n        continue\n    t += x * y\nprint(t, x, y)",
    "xs = [1, 2, 3]\nfor xs[0], xs[1] in [(4, 5), (6, 7)]:\n    print(xs)",
    "a, b = [1] !! unpack",
    "a, b = 1, 2, 3 !! unpack",
    "a, b = 5 !! iterate",
    "for a, b in [(1, 2), (3,)]:\n    print(a, b) !! unpack",
    "a, xs[0] = 1, 2 !! xs",
    "a, b = 1, 1 // 0 !! zero",
])

table("LISTS", "Lists and tuples", [
    "print([], [1], [1, 'a', None], [[1], (2,)], ())",
    "print((1,), (1, 2), ((1,), []))",
    "xs = [1, 2, 3]\nprint(xs[0], xs[-1], len(xs))",
    "xs = [1, 2, 3]\nxs[1] = 'x'\nxs[-1] = xs[0]\nprint(xs)",
    "xs = [1, 2, 3]\ndel xs[0]\ndel xs[-1]\nprint(xs)",
    "xs = [1]\nxs.append(2)\nxs.extend((3, 4))\nxs.insert(0, 0)\nprint(xs, xs.pop(), xs.pop(0), xs)",
    "xs = [3, 1, 3]\nprint(xs.index(3), xs.count(3))\nxs.reverse()\nprint(xs)\nxs.remove(3)\nprint(xs)",
    "print([1] + [2], (1,) + (2, 3), [0] * 3, (1, 2) * 2, [1] * -1)",
    "xs = [1]\nys = xs\nxs += [2]\nxs *= 2\nprint(xs, ys)",
    "t = (1,)\nu = t\nt += (2,)\nprint(t, u)",
    "xs = [[0] * 2] * 2\nxs[0][1] = 5\nprint(xs)",
    "xs = []\nxs.append(xs)\nprint(xs, len(xs))",
    "print(list('abc'), tuple([1, 2]), list(range(2, 8, 3)), list((1,)))",
    "m = [[1, 2], [3, 4]]\nprint(m[1][0], m[0][1] + m[1][1])",
    "print([1, 2][3]) !! index",
    "xs = [1]\nxs[1] = 2 !! index",
    "del [1][5] !! index",
    "t = (1, 2)\nt[0] = 3 !! item",
    "del (1, 2)[0] !! item",
    "print([1]['a']) !! index",
    "print([].pop()) !! index",
    "[1].remove(2) !! value",
    "[1].nothing !! nothing",
    "[1].append() !! arguments",
    "print(5[0]) !! item",
    "xs = [1]\nxs.x = 1 !! x",
    "print([1] + (2,)) !! operand",
    "print(len(5)) !! len",
])

table("DICTS", "Dicts", [
    "d = dict()\nd['a'] = 1\nd[2] = 'b'\nd[None] = []\nprint(d, len(d))",
    "d = dict()\nd[1] = 'a'\nd[True] = 'b'\nprint(d)",
    "d = dict()\nd['a'] = 1\nd['b'] = 2\ndel d['a']\nd['a'] = 3\nprint(d)",
    "d = dict()\nd['a'] = 1\nprint(d.get('a'), d.get('b'), d.get('b', 7), d.setdefault('c', 3), d)",
    "d = dict()\nd['a'] = 1\nprint(d.pop('a'), d.pop('a', 5), d)",
    "d = dict()\nd['a'] = [1]\ne = d.copy()\ne['b'] = 2\ne['a'].append(2)\nprint(d, e)",
    "d = dict()\nd['x'] = 1\ne = dict(d)\ne.update(d)\nprint(e == d, e)",
    "d = dict()\nfor w in 'abcab':\n    d[w] = d.get(w, 0) + 1\nprint(d)",
    "d = dict()\nd['a'] !! 'a'",
    "d = dict()\ndel d[5] !! 5",
    "d = dict()\nd[[]] = 1 !! key",
    "print([] in dict()) !! key",
    "d = dict()\nd['k'] = d\nprint(d)",
    "d = dict()\nd.a = 1 !! a",
], [
    ("d = dict()\nd['a'] = 1\nprint(d.keys(), d.values(), d.items())", "['a'] [1] [('a', 1)]~well", "views are lists"),
])

table("DISPLAYS", "Dict displays", [
    "print({}, {'a': 1}, {1: 'x', 'b': [2], None: {}})",
    "print({1: 'a', True: 'b', 'c': 0, 1: 'd'})",
    "print({'a': 1, 'b': 2, 'a': 3}, len({1: 1, 1: 2, 2: 3}))",
    "d = {'b': 1, 'a': 2,}\nd['c'] = 3\nfor k in d:\n    print(k, d[k])",
    "print({'a': 1} == {'a': 1}, {1: 2, 3: 4} == {3: 4, 1: 2}, 'a' in {'a': 1}, 'b' in {'a': 'b'})",
    "x = {'x': 1}\ny = {'x': x['x'] + 1, 'z': x}\ny['z']['x'] = 5\nprint(x, y)",
    "print({print(1): print(2), print(3): print(4)})",
    "print({[]: 1}) !! key",
    "print({'a': 1, {}: print('value')}) !! key",
    "print({'a': 1 // 0}) !! zero",
    "print({x: 1}) !! x",
], [
    ("print({(1, 2): 3})", "TypeError: key", "a tuple is no key"),
])

table("TEXTS", "Texts", [
    "print('a' + 'b', 'ab' * 2, 'x' * 0, len('añ😀'))",
    "print('abc'[0], 'abc'[-1], 'añ😀'[1], 'añ😀'[2])",
    "print(','.join(['a', 'b']), 'a b  c'.split(), 'a-b-'.split('-'))",
    "print(' x '.strip(), 'abc'.startswith('ab'), 'abc'.endswith('bc'), 'abcabc'.find('ca'))",
    "print('aXbX'.replace('X', 'y'), 'aaa'.count('a'), '12'.isdigit(), ''.isdigit())",
    "print(str(5) + str(None) + str([1, 'a']), str(True))",
    "print(['a\\n', \"it's\", 'q\"', '\\\\'])",
    "s = ''\nfor i in range(5):\n    s += str(i)\nprint(s)",
    "print('abc'[3]) !! index",
    "'a'[0] = 'b' !! item",
    "print('a' + 1) !! operand",
    "''.join([1]) !! argument",
    "'a'.split('') !! empty",
    "'abc'.nothing !! nothing",
    "print('a', 'b')\nprint()\nprint('c')",
    "print(len(str(9223372036854775807)))",
])

table("SLICES", "Slices that are read", [
    "xs = [0, 1, 2, 3, 4, 5]\nprint(xs[1:4], xs[:2], xs[4:], xs[:])",
    "xs = [0, 1, 2, 3, 4, 5]\nprint(xs[-3:-1], xs[-100:2], xs[4:100], xs[4:2])",
    "xs = [0, 1, 2, 3, 4, 5]\nprint(xs[::2], xs[1::3], xs[::-1], xs[4:1:-2], xs[-1:-4:-1])",
    "print('añ😀b'[1:3], 'añ😀b'[::-1], 'abc'[:-1], 'abc'[5:], 'abcdef'[1:-1:2])",
    "print((1, 2, 3)[1:], (1, 2, 3)[::-2], (1, 2, 3)[-2:], ()[:])",
    "print('abc'[None:None:None], 'abc'[None:2], [1, 2, 3][True:], 'abcd'[::-3])",
    "print([1, 2, 3][9223372036854775807:], 'abc'[-9223372036854775807:2], 'ab'[::9223372036854775807])",
    "xs = [[1], [2]]\nys = xs[:]\nys.append(3)\nys[0].append(9)\nprint(xs, ys)",
    "print('abcdef'[1:5][1:3][0], [3, 1, 2][1:].index(2), len('abc'[1:]))",
    "print((print(1) or 'abcd')[print(2) or 1:print(3) or 3:print(4) or 2])",
    "print('abcd'[print(1):][:print(2) or 2])",
    "print([1, 2, 3][::0]) !! slice",
    "print('abc'['a':]) !! index",
    "print((1,)[::[]]) !! index",
    "print(5[1:2]) !! item",
    "print([1][:1 // 0]) !! zero",
])

table("AUGMENTED", "Augmented assignments to items and attributes, which the policy of names lets no script have", [
    "xs = [1, 2, 3]\nxs[0] += 10\nxs[-1] *= 2\nprint(xs)",
    "d = {'a': 1}\nd['a'] += 5\nd['a'] <<= 2\nprint(d)",
    "xs = [[1], 2]\nys = xs[0]\nxs[0] += [3]\nprint(xs, ys)",
    "m = [[1, 2], [3, 4]]\nm[1][0] -= 1\nm[0] *= 2\nprint(m)",
    "d = {'w': ''}\nfor c in 'abc':\n    d['w'] += c\nprint(d)",
    "xs = [5, 6]\n(print(1) or xs)[print(2) or 1] += print(3) or 4\nprint(xs)",
    "d = {}\nd['a'] += 1 !! 'a'",
    "xs = [1]\nxs[1] += 1 !! index",
    "xs = [1]\nxs[0] += xs.pop() !! index",
    "t = (1, 2)\nt[0] += 1 !! item",
    "xs = [1, 2]\nxs[0] += 'a' !! operand",
    "xs = [1]\nxs.x += 1 !! x",
    "5[0] += 1 // 0 !! item",
])

table("ORDER", "The order in which operands are evaluated: each prints its number", [
    "print((print(1) or 1) + (print(2) or 2) * (print(3) or 3))",
    "xs = [0, 0]\nxs[print(2) or 0] = print(1) or 5\nprint(xs)",
    "print([print(1), print(2)], (print(3), print(4)))",
    "print((print(1) or 'abc')[print(2) or 1])",
    "(print(1) or print)(print(2), print(3))",
    "(print(1) or []).append(print(2))",
    "print((print(1) or 1) < (print(2) or 2) < (print(3) or 3))",
    "print((print(2) or 'a') if print(1) is None else (print(3) or 'b'))",
    "xs = [1]\nxs[print(1) or 0]\ndel xs[print(2) or 0]\nprint(xs)",
    "a = b = print(1)\nprint(a, b)",
    "xs = [5]\nxs[print(2) or 0] = xs[print(1) or 0] = 7\nprint(xs)",
    "print(- (print(1) or 1) ** (print(2) or 2))",
    "x = 1\nx += (print(x) or 2) + x\nprint(x)",
    "print(max(print(1) or 1, print(2) or 2))",
    "for x in print(1) or [3]:\n    print(x)",
])

table("CLASSES", "Classes and instances", [
    "class A:\n    pass\na = A()\na.x = 1\nprint(a.x)",
    "class A:\n    def __init__(self, x):\n        self.x = x\n    def get(self):\n        return self.x\nprint(A(3).get())",
    "class A:\n    def f(self, y=2):\n        return y\na = A()\nprint(a.f(), a.f(5))",
    "class A:\n    def f(self):\n        return self.g() + 1\n    def g(self):\n        return 1\nprint(A().f())",
    "class A:\n    'text'\n    def f(self):\n        return 'f'\ng = A().f\nprint(g())",
    "class A:\n    def __init__(self):\n        print('made')\nA()\nA()",
    "class A:\n    def f(self):\n        return 1\n    def f(self):\n        return 2\nprint(A().f())",
    "class A:\n    def __init__(self, n):\n        self.n = n\n    def up(self):\n        self.n = self.n + 1\n        return self\n"
    "print(A(1).up().up().n)",
    "def make():\n    class B:\n        def f(self):\n            return 'b'\n    return B()\nprint(make().f())",
    "n = 3\nclass A:\n    def f(self, x=n):\n        return x\nn = 4\nprint(A().f())",
    "class A:\n    def f(self):\n        return [self.x for x in [1, 2]]\na = A()\na.x = 7\nprint(a.f())",
    "class A:\n    def f(self):\n        return 1\n    pass\n    def g(self):\n        return 2\nprint(A().f(), A().g())",
    "class A:\n    def f(self):\n        return 'a'\nclass B:\n    def f(self):\n        return A().f() + 'b'\nprint(B().f())",
    "class A:\n    def f(self, *xs, **d):\n        return (xs, d)\nprint(A().f(1, 2, k=3))",
    "a = 'out'\nclass A:\n    def f(self):\n        return a\nprint(A().f())",
    "for i in [1, 2]:\n    class A:\n        def f(self):\n            return i\n    print(A().f())",
    "class A:\n    def f(self, x=1 // 0):\n        pass\nprint('no') !! zero",
    "class A:\n    pass\nA(1) !! arguments",
    "class A:\n    def __init__(self):\n        return 1\nA() !! init",
    "class A:\n    def __init__(self, x):\n        pass\nA() !! arguments",
    "class A:\n    pass\nA()() !! call",
    "class A:\n    pass\nA().x !! x",
    "class A:\n    pass\nx = A()\nclass A:\n    def f(self):\n        pass\nx.f() !! f",
])

table("CALLABLES", "Instances that are called, which the policy of names lets no script have", [
    "class A:\n    def __call__(self, x):\n        return x + 1\nprint(A()(1))",
    "class A:\n    def __call__(self, x, y=0):\n        return (x, y)\na = A()\nprint(a(1, y=2), a(*[3]), a(**{'x': 4}))",
    "class A:\n    def __call__(self, *xs, **d):\n        return (xs, d)\nprint(A()(1, *[2], k=3), [f() for f in [A()]])",
    "class A:\n    def __call__(self):\n        return 1\nA()(2) !! arguments",
])

# a class with all special methods of containers
BOX = """class Box:
    def __init__(self, xs):
        self.xs = xs
    def __getitem__(self, i):
        return self.xs[i]
    def __setitem__(self, i, v):
        self.xs[i] = v
    def __delitem__(self, i):
        del self.xs[i]
    def __len__(self):
        return len(self.xs)
    def __contains__(self, v):
        return v in self.xs
"""

table("BOXED", "Instances that hold lists and dicts: a class Box with all special methods of containers stands before each", [
    "b = Box([1, 2, 3])\nprint(b[0], b[-1], len(b), 2 in b, 5 in b, 5 not in b)",
    "b = Box([1, 2, 3])\nb[0] = 7\ndel b[1]\nprint(b.xs)",
    "b = Box([1, 2])\nb[0] += 5\nb[1] *= b[0]\nprint(b.xs)",
    "b = Box([[1, 2], 'ab', lambda x: x + 1])\nprint(b[0][1], b[1][-1], b[2](4), b[1].find('b'), b[0][1:])",
    "b = Box([1, 2])\nfor b[0] in [8, 9]:\n    print(b[0], b.xs)\na, b[1] = 5, 6\nb[0] = c = 4\nprint(a, b.xs, c)",
    "b = Box([1, 2])\nb[0], b[1] = b[1], b[0]\nprint(b.xs)",
    "b = Box([1, 2])\nprint([b[i] for i in range(len(b))], [x for x in [1, 3] if x in b], {x: b[0] for x in b.xs if x not in [1]})",
    "b = Box([0, 1, 2])\ndel b[0], b[0]\nprint(b.xs, len(b))",
    "b = Box([])\ntry:\n    b[3]\nexcept IndexError:\n    print('none')\nfinally:\n    print('last')",
    "b = Box([Box([5])])\nb[0][0] = 6\nb[0][0] += 1\nprint(b[0][0], len(b[0]), 7 in b[0])",
    "b = Box([1])\nprint(len(b) + len(b), -len(b), not len(b), [len(b), len([])])\nf = len\nprint(f(b), (lambda g, x: g(x))(len, b), len(*[b]))",
    "b = Box({'n': 2})\nb['m'] = b['n'] ** 3\nb['n'] -= 1\nprint(b.xs, 'm' in b, 8 in b, len(b))",
    "b = Box([1, 2, 3])\ni = 0\nwhile i < len(b):\n    b[i] += 10\n    i += 1\nprint(b.xs, b[0] < b[1] < b[2], b[0] and b[1], 0 or b[2])",
    "b = Box([[3, 1], {'sep': 2}])\ndef f(*xs, **d):\n    return (xs, d)\nprint(f(*b[0], **b[1]), f(b[0], k=b[1]['sep']))",
    "b = Box([ValueError('held'), ValueError])\ntry:\n    raise b[0]\nexcept b[1] as e:\n    print('taken', e)",
    "b = Box([True, 'told'])\nassert b[0], b[1]\nif b[0]:\n    print('yes' if not b[0] else b[1])\nb[0] = False\nassert b[0], b[1] !! told",
    "b = Box([1, 2])\ndef f(x=b[1]):\n    return x\nb[1] = 3\nprint(f(), (lambda: b[1])())",
    "class A:\n    pass\nb = Box([A()])\nb[0].x = 1\nb[0].x += 4\nprint(b[0].x)\ndel b[0].x\nb[0].x !! x",
    "b = Box([2])\nprint(len(b), b[0], 2 in b)\nb.xs = {}\nprint(len(b), 2 in b)\nb[0] !! 0",
    "b = Box([1])\nb.xs = b\nb[0] !! calls",
    "b = Box([1])\nb[1] = 2 !! index",
    "b = Box((1, 2))\nprint(b[1], len(b), 2 in b)\nb[1] = 2 !! item",
    "b = Box('abc')\nprint(b[1], len(b), 'bc' in b)\ndel b[1] !! item",
    "b = Box([1])\nb[0] += 'x' !! operand",
    "b = Box([1])\nb[0] += undefined !! undefined",
], front=BOX)

table("SPECIAL", "Special methods of instances that operations call, which the policy of names lets no script have", [
    "class A:\n    def __contains__(self, v):\n        return [v] if v else ''\na = A()\nprint(1 in a, 0 in a, 1 not in a, 0 not in a)",
    "class A:\n    def __contains__(self, v):\n        print('asked', v)\n        return v > 1\na = A()\nprint(1 < 2 in a, 3 in a in [a], 0 in a in 5)",
    "class A:\n    def __len__(self):\n        return True\nprint(len(A()))",
    "class A:\n    def __getitem__(self, i):\n        print('get', i)\n        return i\n    def __setitem__(self, i, v):\n        print('set', i, v)\n        return 'dropped'\n"
    "    def __delitem__(self, i):\n        print('del', i)\n        return 5\na = A()\na['k'] = a[1] = a[2]\ndel a['k']\na[3] -= a[4]",
    "class A:\n    def __getitem__(self, i):\n        return i\na = A()\nprint(a[None], a['x'], a[(1, 2)], a[a] == a)",
    "class A:\n    def __getitem__(self, n):\n        return 0 if n == 0 else n + self[n - 1]\nprint(A()[10])",
    "class A:\n    def __call__(self, x):\n        return x\n    def __len__(self):\n        return 3\na = A()\nprint(a(len(a)))",
    "class A:\n    def __len__(self):\n        return 0\n    def __getitem__(self, i):\n        return i\na = A()\nx = len(a) or a[2] or a[3]\n"
    "print(x, a[1] if len(a) == 0 else 'no', len(a) and 1)\nwhile a[0]:\n    pass\nassert a[1]\nprint({a[1]: a[2]}, (a[3],), a[4] ** a[2], -a[1])",
    "class A:\n    def __getitem__(self, i):\n        raise KeyError('own')\na = A()\ntry:\n    a[1]\nexcept KeyError as e:\n    print('taken')",
    "class A:\n    def __setitem__(self, i, v):\n        self.i = i\n        self.v = v\ndef f():\n    a = A()\n    a[1] = 2\n    return (a.i, a.v)\nprint(f())",
    "class A:\n    def __getitem__(self, *xs):\n        return xs\n    def __len__(self, n=4):\n        return n\nprint(A()[1], A()[(1, 2)], len(A()))",
    "class A:\n    def __getitem__(self, i):\n        try:\n            return 1 // i\n        except ZeroDivisionError:\n            return 'none'\n        finally:\n            print('last')\n"
    "a = A()\nprint(a[1], a[0])",
    "class A:\n    def __contains__(self, v):\n        for x in [1, 2]:\n            if x == v:\n                return True\na = A()\nprint(2 in a, 3 in a, 3 not in a)",
    "class A:\n    def __getitem__(self, i):\n        return lambda x, k=0: (i, x, k)\na = A()\nprint(a['f'](1), a['g'](*[2], k=3))",
    "class A:\n    pass\na = A()\na.n = 1\nclass B:\n    def __getitem__(self, i):\n        return a\n    def __delitem__(self, i):\n        a.n = 'deleted'\nb = B()\nb[0].n = 2\nb[0].n += 5\n"
    "print(b[1].n)\ndel b[2]\nprint(a.n)",
    "class A:\n    def __len__(self):\n        return 2\n    def __getitem__(self, i):\n        return len(self) * i\n    def __contains__(self, v):\n        return self[1] == v\nprint(2 in A(), 3 in A(), A()[4])",
    "def f(a):\n    def g():\n        return a[1] + a[2]\n    return g\nclass A:\n    def __getitem__(self, i):\n        return i * 10\nprint(f(A())(), f([0, 1, 2])())",
    "class A:\n    def __getitem__(self, i):\n        print('read')\n        return [i]\n    def __setitem__(self, i, v):\n        print('stored', i, v)\na = A()\n"
    "(print('place') or a)[print('key') or 1] += (print('right') or [2])",
    "class A:\n    def __setitem__(self, i, v):\n        print(i, v)\na = A()\n(print('place') or a)[print('key') or 1] = print('right')",
    "class A:\n    def __getitem__(self, i):\n        return i\nprint([A()['x']] * 2, A()[(1,)][0], str(A()[1]) + 'x')",
])

table("REFUSALS", "The same, that come to exceptions", [
    "class A:\n    pass\nA()[0] !! item",
    "class A:\n    pass\nA()[0] = 1 !! item",
    "class A:\n    pass\ndel A()[0] !! item",
    "class A:\n    pass\n1 in A() !! operand",
    "class A:\n    pass\nlen(A()) !! len",
    "class A:\n    pass\na = A()\na.__len__ = lambda: 3\nlen(a) !! len",
    "class A:\n    def __getitem__(self):\n        pass\nA()[1] !! arguments",
    "class A:\n    def __len__(self, n):\n        return n\nlen(A()) !! arguments",
    "class A:\n    def __setitem__(self, i):\n        pass\nA()[1] = 2 !! arguments",
    "class A:\n    def __getitem__(self, i):\n        return self[i]\nA()[0] !! calls",
    "class A:\n    def __len__(self):\n        return len(self)\nlen(A()) !! calls",
    "class A:\n    def __len__(self):\n        return 'a'\nlen(A()) !! len",
    "class A:\n    def __len__(self):\n        return [1]\nlen(A()) !! len",
    "class A:\n    def __len__(self):\n        pass\nlen(A()) !! len",
    "class A:\n    def __len__(self):\n        return 1\nlen(A(), A()) !! arguments",
    "class A:\n    def __len__(self):\n        return 1\nlen(x=A()) !! arguments",
    "class A:\n    def __contains__(self, v):\n        return 1 // v\nprint(1 in A(), 0 in A()) !! zero",
    "class A:\n    def __setitem__(self, i, v):\n        raise ValueError('no')\nA()[1] = 2 !! no",
    "class A:\n    def __delitem__(self, i):\n        raise ValueError('no')\ndel A()[1] !! no",
    "class A:\n    def __getitem__(self, i):\n        return i\na = A()\na[1] += 2 !! item",
    "class A:\n    def __setitem__(self, i, v):\n        pass\na = A()\na[1] += 2 !! item",
    "class A:\n    def __getitem__(self, i):\n        print(i)\na = A()\na[1] += 2 !! operand",
    "class A:\n    def __delitem__(self, i):\n        print('del', i)\na = A()\ndel a[1], a[2], b[3] !! b",
    "class A:\n    def __getitem__(self, i):\n        return i\n    def __len__(self):\n        return 1\na, b = 1, A()[2][3] !! item",
], [
    ("class A:\n    def __getitem__(self, i):\n        return i\nA()[0:1]", "TypeError: item", "slices call no special method"),
    ("class A:\n    def __getitem__(self, i):\n        return i\nfor x in A():\n    pass", "TypeError: iterate", "instances are not walked"),
    ("class A:\n    def __getitem__(self, i):\n        return i\na, b = A()", "TypeError: iterate", "instances are not walked"),
    ("class A:\n    def __getitem__(self, i):\n        return i\n1 in A()", "TypeError: operand", "membership asks `__contains__` alone"),
    ("class A:\n    def __len__(self):\n        return -1\nlen(A())", "TypeError: len", "a length is a number of at least 0"),
    ("class A:\n    def __len__(self):\n        return 0\nprint('yes' if A() else 'no', not A(), bool(A()))", "yes False True~well", "instances are always true"),
])

table("ATTRIBUTES", "`getattr` and `setattr`", [
    "class A:\n    def f(self):\n        return self.x\na = A()\nsetattr(a, 'x', 5)\nprint(getattr(a, 'x'), getattr(a, 'f')(), getattr(a, 'y', 'none'), getattr(a, 'x', 0))",
    "print(getattr([1, 2], 'index')(2), getattr('ab', 'find')('b'), getattr(5, 'x', None), getattr([], 'none', 'd'))",
    "class A:\n    pass\na = A()\nprint(setattr(a, 'new', 1))\nfor n in ['p', 'q']:\n    setattr(a, n, n + n)\nprint(a.new, a.p, a.q, [getattr(a, n) for n in ['q', 'p']])",
    "class A:\n    pass\na = A()\ntry:\n    getattr(a, 'missing')\nexcept AttributeError:\n    print('missing')\ng = getattr\ns = setattr\ns(a, 'x', [])\ng(a, 'x').append(1)\nprint(a.x, getattr(a, 'for', 3))",
    "class A:\n    pass\na = A()\nsetattr(a, 'def', 2)\nprint(getattr(a, 'def'))",
    "class A:\n    pass\na = A()\nsetattr(*[a, 'x', 1])\nprint(getattr(*[a, 'x']), getattr(a, *['y', 2]), (lambda g: g(a, 'x'))(getattr))",
    "class A:\n    def __init__(self):\n        setattr(self, 'n', 1)\n    def up(self, k):\n        setattr(self, k, getattr(self, k, 0) + 1)\n        return self\na = A()\nprint(a.up('n').up('m').up('m').n, a.m)",
    "class A:\n    pass\na = A()\nwords = ['one', 'two']\nfor i in range(2):\n    setattr(a, words[i], i)\nprint([getattr(a, w) for w in words + ['one']], getattr(a, 'three', None) is None)",
    "d = {}\nprint(getattr(d, 'get')('x', 1), getattr(d, 'x', getattr(d, 'y', 'z')), len(getattr('a b', 'split')()))",
    "class A:\n    pass\nprint(getattr(A(), 'x', ValueError).x) !! x",
    "class A:\n    pass\na = A()\ngetattr(a, 'x', 1 // 0) !! zero",
    "class A:\n    pass\na = A()\nsetattr(a, 'f', lambda: 3)\nprint(a.f(), getattr(a, 'f')())",
])

table("WORDS", "The same of words that are no names, and of other arguments", [
    "getattr(5) !! arguments",
    "getattr() !! arguments",
    "getattr(1, 'a', 2, 3) !! arguments",
    "setattr(1, 'a') !! arguments",
    "setattr(1, 'a', 2, 3) !! arguments",
    "getattr(1, name='a') !! arguments",
    "getattr(1, 2) !! argument",
    "getattr(1, 2, 3) !! argument",
    "setattr(1, None, 3) !! argument",
    "getattr([], ['a'], 3) !! argument",
    "getattr(1, 'a b') !! name",
    "setattr(1, '', 2) !! name",
    "setattr(1, '1a', 2) !! name",
    "print(getattr(1, 'a b', 7), getattr(1, '', 8), getattr(1, '1x', 9))",
    "setattr([], 'x', 1) !! x",
    "setattr(len, 'x', 1) !! x",
    "getattr([], '_') !! _",
    "try:\n    getattr(1, 'b')\nexcept AttributeError:\n    print('taken')",
], [
    ("getattr(1, '_a')", "ForbiddenAttribute: _a", "the policy of names"),
    ("getattr(1, '_a', 7)", "ForbiddenAttribute: _a", "the policy of names, which no default stands for"),
    ("getattr([], 'tb_frame', 7)", "ForbiddenAttribute: tb_frame", "the policy of names"),
    ("getattr([], 'x__roles__')", "ForbiddenAttribute: x__roles__", "the policy of names"),
    ("setattr(1, '__init__', 1)", "ForbiddenAttribute: __init__", "the policy of names"),
    ("getattr('a', '__class__')", "ForbiddenAttribute: __class__", "the policy of names"),
    ("try:\n    getattr(1, '_a')\nexcept AttributeError as e:\n    print('taken', e)", "taken _a~well", "the policy of names; a ForbiddenAttribute is an AttributeError"),
    ("try:\n    getattr(1, 'b')\nexcept AttributeError as e:\n    print('taken', e)", "taken b~well", "the text is the name"),
    ("x = 'a' * 256\nprint(getattr(1, x, 'long'))\ngetattr(1, x)", "long~AttributeError: name", "names have at most 255 bytes"),
    ("print(getattr(1, 'ﬁ', 'form'))\ngetattr(1, 'ﬁ')", "form~AttributeError: name", "names are spelled in their form NFKC"),
])

table("COMPREHENSIONS", "Comprehensions of lists, dicts and sets", [
    "print([x * 2 for x in [1, 2, 3]])",
    "print([x for x in [1, 2, 3, 4] if x % 2 == 0])",
    "print([(x, y) for x in [1, 2] for y in 'ab'])",
    "print([x for x in [1, 2, 3, 4, 5, 6] if x > 2 if x < 6])",
    "print({x: x * x for x in [1, 2, 3]})",
    "print({k: v for k, v in [('a', 1), ('b', 2)]})",
    "x = 'out'\nprint([x for x in [1, 2]], x)",
    "print([[y for y in x] for x in [[1, 2], [3]]])",
    "print([])\nprint([x for x in []])",
    "n = 10\nprint([x + n for x in [1, 2]])",
    "def f(xs):\n    return [g(x) for x in xs]\ndef g(x):\n    return x + 1\nprint(f([1, 2]))",
    "print([a + b for a, b in [(1, 2), (3, 4)]])",
    "print([x for x in 'abc' if x != 'b'])",
    "print({x: [y for y in [x, x]] for x in 'ab'})",
    "fs = [lambda: x for x in [1, 2]]\nprint([f() for f in fs])",
    "print([x for x in {'a': 1, 'b': 2}], {v: k for k, v in [('a', 1)]})",
    "print([x + y for x in [1, 2] if x > 1 for y in [x, 5] if y != x])",
    "xs = [1, 2, 3]\nprint([xs for x in xs][0] == xs, [x for x in [x * 2 for x in xs]])",
    "x = [1, 2]\nprint([x for x in x], x)",
    "def f(x):\n    return [x + y for y in [x]]\nprint(f(1))",
    "def f(n):\n    return [n] + [y for x in [n - 1] if x > 0 for y in f(x)]\nprint(f(4))",
    "print([1 if x else 0 for x in [0, 'a', [], [0]]], [[] for x in [1, 2]])",
    "ys = [[] for x in 'ab']\nys[0].append(1)\nprint(ys)",
    "print({1: 'a' for x in [1, 2]}, {x: x for x in [1, True]})",
    "print([print(x) for x in [1, 2]])",
    "print([print(x) or y for x in [1, 2] for y in [print('in') or x] if print(y) or 1])",
    "try:\n    [1 // x for x in [1, 0]]\nexcept ZeroDivisionError:\n    print('taken')\nx = 5\nprint(x)",
    "def f():\n    for i in [1, 2]:\n        if [x for x in [i] if x > 1]:\n            return i\nprint(f())",
    "xs = [1]\nprint([xs.append(x) or x for x in xs if x < 2 if len(xs) < 4])",
    "d = {}\nprint([d.update({x: 1}) for x in [1, 2]], d)",
    "print(sum([x for x in [1, 2, 3]]), max([len(w) for w in ['a', 'bcd']]))",
    "print([k for k in {x for x in [1, 2, 1]}], (2 in {x for x in [1, 2]}), (3 in {1, 2}))",
    "[x for x in 5] !! iterate",
    "[1 // x for x in [1, 0]] !! zero",
    "[x for x in [1]]\nprint(x) !! x",
    "[y for x in [1] for y in x] !! iterate",
    "{[]: x for x in [1]} !! key",
    "print([x for x in y]) !! y",
    "[a for a, b in [(1, 2, 3)]] !! unpack",
])

table("ARGUMENTS", "Arguments with stars and names", [
    "def f(a, b, c):\n    return (a, b, c)\nprint(f(*[1, 2, 3]), f(1, *(2, 3)), f(*'ab', *[1]))",
    "def f(*xs):\n    return xs\nprint(f(*[]), f(*[1], 2, *[3, 4]))",
    "def f(a, b=2, c=3):\n    return (a, b, c)\nprint(f(1, c=5), f(a=1, b=4), f(c=1, a=2))",
    "def f(a, **d):\n    return (a, d)\nprint(f(1, x=2, y=3), f(1))",
    "def f(*xs, **d):\n    return (xs, d)\nprint(f(1, 2, k=3), f())",
    "print(*[1, 2, 3])",
    "f = lambda x, y: (x, y)\nprint(f(y=1, x=2))",
    "def f(x):\n    print(x)\n    return x\ndef g(a, b):\n    return a\ng(f(1), b=f(2))",
    "class A:\n    def __init__(self, x, y=1):\n        self.p = (x, y)\nprint(A(1, y=2).p, A(*[3]).p)",
    "def f(a, b=2, *xs, **d):\n    return (a, b, xs, d)\nprint(f(**{'a': 1}), f(1, **{'b': 5, 'z': 6}), f(*[1, 2, 3], **{}))",
    "def f(**d):\n    return d\nprint(f(a=1, **{'b': 2}, c=3, **{'e': 4}))",
    "def f(**d):\n    d['a'] = 2\n    return d\ne = {'a': 1}\nprint(f(**e), e)",
    "print(1, **{})",
    "print(len(*['abc']), max(*[3, 5]), *{'a': 1})",
    "def f(x):\n    print(x)\n    return x\ndef g(*xs, **d):\n    return (xs, d)\n"
    "print(g(f(1), *f([2]), f(3), k=f(4), **f({'z': 5})))",
    "class A:\n    def f(self, x, y):\n        return x - y\na = A()\nprint(a.f(y=1, x=5), a.f(**{'x': 1, 'y': 2}), a.f(*[3], y=1))",
    "def f(a, b):\n    return (a, b)\nprint([f(*p) for p in [(1, 2), (3, 4)]], {k: f(a=k, b=v) for k, v in [(1, 2)]})",
    "def f(n, acc=0):\n    return acc if n == 0 else f(n - 1, acc=acc + n)\nprint(f(10))",
    "def f(*xs):\n    return xs\nxs = [1, 2]\nys = f(*xs)\nxs.append(3)\nprint(ys, xs)",
    "def f(x, y):\n    return x + y\nprint(f(*[1], **{'y': 2}) + f(1, y=2) * f(*'a', y='b').count('a'))",
    "def f(a):\n    return a\nf(b=1) !! arguments",
    "def f(a):\n    return a\nf(1, a=1) !! arguments",
    "print(1, x=2) !! arguments",
    "f = 1\nf(x=2) !! call",
    "def f(a):\n    return a\nf(*5) !! iterate",
    "def f(a):\n    return a\nf(a=1, **{'a': 2}) !! arguments",
    "def f(**d):\n    return d\nf(**{'a': 1}, **{'a': 2}) !! arguments",
    "def f(**d):\n    return d\nf(**[1]) !! argument",
    "def f(**d):\n    return d\nf(**{1: 2}) !! argument",
    "def f(**d):\n    return d\nf(**5) !! argument",
    "len(x=[1]) !! arguments",
    "[].append(x=1) !! arguments",
    "None(x=1) !! call",
    "class A:\n    pass\nA(x=1) !! arguments",
    "def f(x):\n    print(x)\nf(1 // 0, *f(2)) !! zero",
    "def f(a):\n    return a\nf(**{'a': 1, 'b': 2}) !! arguments",
])

table("CALLS", "Functions that are called", [
    "def f():\n    print('in')\n    return 1\nprint(f())",
    "def f(a, b=2):\n    return a + b\nprint(f(1), f(1, 5))",
    "def f():\n    pass\nprint(f())",
    "f = lambda x: x * 2\nprint(f(4), (lambda: 'a')())",
    "def f(n):\n    if n == 0:\n        return 0\n    return n + f(n - 1)\nprint(f(10))",
    "x = 1\ndef f():\n    x = 2\n    return x\nprint(f(), x)",
    "x = 1\ndef f():\n    global x\n    x = 2\nf()\nprint(x)",
    "def f(a):\n    def g(b):\n        return a + b\n    return g\nprint(f(1)(2), f(5)(6))",
    "def f(*xs):\n    return xs\nprint(f(), f(1, 2))",
    "def f(a, *xs):\n    return (a, xs)\nprint(f(1), f(1, 2, 3))",
    "def f(xs):\n    for x in xs:\n        if x > 1:\n            return x\n    return None\nprint(f([1, 2, 3]), f([]))",
    "def f():\n    while True:\n        return 'out'\nprint(f())",
    "def f():\n    try:\n        return 'body'\n    finally:\n        print('last')\nprint(f())",
    "def f():\n    try:\n        1 // 0\n    except ZeroDivisionError:\n        return 'taken'\n    finally:\n        print('last')\nprint(f())",
    "def f():\n    try:\n        return 1\n    finally:\n        return 2\nprint(f())",
    "def f():\n    try:\n        1 // 0\n    finally:\n        return 'no exception'\nprint(f())",
    "def f():\n    for x in [1, 2]:\n        try:\n            return x\n        finally:\n            print('left', x)\nprint(f())",
    "def f():\n    try:\n        1 // 0\n    except ZeroDivisionError as e:\n        try:\n            return 'inner'\n        finally:\n            print('finally')\nprint(f())",
    "def f():\n    1 // 0\ntry:\n    f()\nexcept ZeroDivisionError:\n    print('out of f')",
    "def f():\n    raise ValueError('v')\ntry:\n    f()\nexcept ValueError as e:\n    print(e)",
    "def g():\n    return [1, 2]\na, b = g()\nprint(a, b)",
    "def f(x):\n    return x\nprint([f(1), f(2)], f(3) + f(4), {'a': f(5)}['a'])",
    "def f(x=[]):\n    x.append(1)\n    return x\nf()\nprint(f())",
    "def f(x):\n    x[0] = 5\n    return x[0]\nprint(f([1, 2]))",
    "def f(n):\n    return n if n < 2 else f(n - 1) + f(n - 2)\nprint(f(12))",
    "def f():\n    return g()\ndef g():\n    return 'g'\nprint(f())",
    "def f(a, b):\n    return a < b < 3\nprint(f(1, 2), f(2, 1))",
    "def outer():\n    n = 0\n    def inner():\n        return n\n    n = 3\n    return inner()\nprint(outer())",
    "def f(a):\n    del a\n    return 'gone'\nprint(f(1))",
    "compose = lambda f, g: lambda x: f(g(x))\nprint(compose(lambda x: x + 1, lambda x: x * 2)(5))",
])

table("WRONG_CALLS", "Calls that come to no value", [
    "def f(a):\n    return a\nf() !! arguments",
    "def f(a):\n    return a\nf(1, 2) !! arguments",
    "def f():\n    return f()\nf() !! calls",
    "x = 5\nx() !! call",
    "def f():\n    print(y)\nf() !! y",
    "def f():\n    print(y)\n    y = 1\nf() !! y",
    "f = lambda: 1 // 0\nf() !! zero",
    "def f(a=1 // 0):\n    return a\nprint('no') !! zero",
    "def f():\n    try:\n        1 // 0\n    finally:\n        print('last')\nf() !! zero",
    "x = 5\nx(print('argument')) !! call",
    "def f():\n    pass\nf(print('argument')) !! arguments",
    "def f(x):\n    print('no')\nf(1 // 0) !! zero",
    "def f():\n    pass\nf[0] !! item",
    "def f():\n    pass\nf + 1 !! operand",
    "def f():\n    pass\nf < f !! operand",
    "def f():\n    pass\nfor x in f:\n    pass !! iterate",
    "def f():\n    return 1\nf()() !! call",
    "def f():\n    pass\nf.x !! x",
], [
    ("def f():\n    pass\nf.x = 1", "AttributeError: x", "only instances take attributes"),
    ("def f():\n    pass\nd = {}\nd[f] = 1", "TypeError: key", "keys are None, numbers, truth values and texts"),
])

table("CLOSURES", "Functions within functions, and the names that they find", [
    "def counter():\n    n = [0]\n    def more():\n        n[0] = n[0] + 1\n        return n[0]\n    return more\na = counter()\nb = counter()\nprint(a(), a(), b(), a())",
    "fs = []\nfor i in range(3):\n    fs.append(lambda: i)\nprint(fs[0](), fs[2]())",
    "fs = []\nfor i in range(3):\n    fs.append(lambda i=i: i)\nprint(fs[0](), fs[1](), fs[2](5))",
    "def pair():\n    xs = []\n    def put(x):\n        xs.append(x)\n    def get():\n        return xs\n    return put, get\nput, get = pair()\nput(1)\nput('a')\nprint(get())",
    "def a(x):\n    def b(y):\n        def c(z):\n            return [x, y, z]\n        return c\n    return b\nprint(a(1)(2)(3), a('x')('y')('z'))",
    "x = 'global'\ndef f():\n    x = 'f'\n    def g():\n        return x\n    def h(x):\n        return x\n    return g(), h('h'), x\nprint(f(), x)",
    "x = 1\ndef f():\n    x = 2\n    def g():\n        global x\n        x = 3\n    g()\n    return x\nprint(f(), x)",
    "x = 1\ndef f():\n    x = 2\n    def g():\n        global x\n        return x\n    return g()\nprint(f())",
    "def f():\n    def g():\n        return x\n    print(g())\n    x = 1\nf() !! x",
    "def f():\n    x = 1\n    def g():\n        return x\n    del x\n    return g()\nf() !! x",
    "x = 1\ndef f():\n    print(x)\n    x = 2\nf() !! x",
    "def f(n):\n    def g(k):\n        return 1 if k == 0 else k * g(k - 1)\n    return g(n)\nprint(f(5), f(10))",
    "add = lambda a: lambda b: lambda c: a + b + c\nprint(add(1)(2)(3))",
    "def f():\n    if 0:\n        def g():\n            return 1\n    return g()\nf() !! g",
    "def f(x):\n    def g():\n        return x\n    x = x + 1\n    return g\nprint(f(1)(), f(5)())",
    "def f():\n    out = []\n    for i in range(3):\n        def g():\n            return i\n        out.append(g)\n    return [out[0](), out[1](), out[2]()]\nprint(f())",
    "def f():\n    return y\ny = 5\nprint(f())\ny = 6\nprint(f())",
    "def f():\n    return len('abc')\nprint(f())\ndef len(x):\n    return 'own'\nprint(f())",
    "def f():\n    return 1\ng = f\ndef f():\n    return 2\nprint(g(), f())",
    "for i in range(2):\n    def f():\n        return i\nprint(f())\ni = 5\nprint(f())",
])

table("DEFAULTS", "Defaults, and parameters that take what is left over", [
    "x = 1\ndef f(a=x):\n    return a\nx = 2\nprint(f(), f(3))",
    "def f(a=print(1), b=print(2)):\n    return a\nprint('def')\nf()",
    "def f(a, b=2, c=3):\n    return [a, b, c]\nprint(f(1), f(1, 5), f(1, 5, 6))",
    "f = lambda a, b=10: a + b\nprint(f(1), f(1, 2))",
    "a = 5\ndef f(a=a + 1):\n    return a\nprint(f())",
    "def f(a, *xs, **kw):\n    return [a, xs, kw]\nprint(f(1), f(1, 2, 3))",
    "def f(**kw):\n    kw['a'] = 1\n    return kw\nprint(f(), f() == f())",
    "def f(x, g=lambda v: v + 1):\n    return g(x)\nprint(f(1), f(1, lambda v: v * 10))",
    "def f(*xs):\n    return xs\nt = f(1, [2])\nt[1].append(3)\nprint(t)",
    "f = lambda *xs: xs\nprint(f(), f(1))",
    "def f(a, b=1):\n    return a\nf() !! arguments",
    "def f(a=1):\n    return a\nf(1, 2) !! arguments",
    "def f(**kw):\n    return kw\nf(1) !! arguments",
])

table("RETURNS", "`return`", [
    "def f():\n    return\nprint(f())",
    "def f():\n    return 1, 2\nprint(f())",
    "def f(x):\n    if x > 0:\n        return 'more'\n    elif x < 0:\n        return 'less'\nprint(f(1), f(-1), f(0))",
    "def f(rows):\n    for row in rows:\n        for x in row:\n            if x > 3:\n                return x\nprint(f([[1, 2], [3, 4], [5]]), f([[1]]))",
    "def f():\n    return print('in') or 5\nprint(f())",
    "def f():\n    return 1 // 0\nf() !! zero",
    "def f():\n    try:\n        pass\n    except ValueError:\n        return 'no'\n    else:\n        return 'else'\n    finally:\n        print('last')\nprint(f())",
    "def f():\n    x = 1\n    try:\n        return x\n    finally:\n        x = 2\nprint(f())",
    "def f():\n    xs = [1]\n    try:\n        return xs\n    finally:\n        xs.append(2)\nprint(f())",
    "def f():\n    try:\n        return 1 // 0\n    except ZeroDivisionError:\n        return 'taken'\nprint(f())",
    "def f():\n    try:\n        try:\n            return 1\n        finally:\n            print('inner')\n    finally:\n        print('outer')\nprint(f())",
])

table("CALLBACKS", "Functions as values", [
    "def apply(f, x):\n    return f(x)\nprint(apply(len, 'abc'), apply(lambda v: v * 2, 4), apply(str, 5) + '!')",
    "def each(f, xs):\n    out = []\n    for x in xs:\n        out.append(f(x))\n    return out\nprint(each(abs, [-1, 2]), each(lambda x: [x], 'ab'))",
    "def twice(f):\n    return lambda x: f(f(x))\nprint(twice(twice(lambda n: n + 3))(0))",
    "ops = {'add': lambda a, b: a + b, 'mul': lambda a, b: a * b}\nprint(ops['add'](2, 3), ops['mul'](2, 3))",
    "for f in [len, lambda s: s + '!', str]:\n    print(f('ab'))",
    "def fill(put):\n    put(1)\n    put(2)\nxs = []\nfill(xs.append)\nprint(xs)",
    "def apply(f):\n    try:\n        return f()\n    except ZeroDivisionError:\n        return 'taken'\nprint(apply(lambda: 1 // 0), apply(lambda: 5))",
    "def fold(f, xs, start):\n    for x in xs:\n        start = f(start, x)\n    return start\nprint(fold(lambda a, b: a * b, [1, 2, 3, 4], 1), fold(max, [3, 9, 2], 0))",
    "def f():\n    print('callee')\n    return lambda x: x\nprint(f()(print('argument') or 1))",
    "def f(a, b):\n    return a\nf(print(1), print(2))",
    "def f():\n    pass\ng = f\nprint(f == g, f == print, f != g, [f].index(g))",
    "def f():\n    return 0\nprint(bool(f), not f)",
    "def f(n):\n    return (lambda: n) if n else f\nprint(f(3)(), f(0)(4)())",
], [
    ("def f():\n    pass\nprint(f, [f], lambda: 1)", "<function f> [<function f>] <function <lambda>>~well", "a function is shown by its name alone"),
])

table("RECURSION", "Functions that call themselves, and how many calls may be active", [
    "def f(n):\n    return 1 if n < 2 else n * f(n - 1)\nprint(f(20))",
    "def even(n):\n    return True if n == 0 else odd(n - 1)\ndef odd(n):\n    return False if n == 0 else even(n - 1)\nprint(even(10), even(7), odd(7))",
    "def depth(t):\n    if not t:\n        return 0\n    return 1 + max(depth(t[0]), depth(t[1]))\nprint(depth(((), ((), ((), ())))), depth(()))",
    "def hanoi(n, a, b, c):\n    if n == 0:\n        return 0\n    return hanoi(n - 1, a, c, b) + 1 + hanoi(n - 1, c, b, a)\nprint(hanoi(6, 'a', 'b', 'c'))",
    "def a(m, n):\n    if m == 0:\n        return n + 1\n    if n == 0:\n        return a(m - 1, 1)\n    return a(m - 1, a(m, n - 1))\nprint(a(2, 3))",
    "def perms(xs):\n    if not xs:\n        return [[]]\n    out = []\n    for i in range(len(xs)):\n        for p in perms(xs[:i] + xs[i + 1:]):\n            out.append([xs[i]] + p)\n    return out\nprint(perms([1, 2, 3]))",
    "def gcd(a, b):\n    return a if b == 0 else gcd(b, a % b)\nprint(gcd(1071, 462))",
    "def f(n):\n    return 0 if n == 0 else 1 + f(n - 1)\nprint(f(999))",
    "f = lambda n: 0 if n == 0 else 1 + g(n - 1)\ng = lambda n: 0 if n == 0 else 1 + f(n - 1)\nprint(f(999))",
    "def f(n):\n    return len('ab') if n == 0 else f(n - 1)\nprint(f(999))",
    "def f():\n    return 1\nt = 0\nfor i in range(2000):\n    t += f()\nprint(t)",
], [
    ("def f(n):\n    return 1 if n < 2 else n * f(n - 1)\nprint(f(21))", "OverflowError: int", "whole numbers have 64 bits"),
    ("def f(n):\n    return 0 if n == 0 else 1 + f(n - 1)\nprint(f(1000))", "RecursionError: calls", "1,000 calls may be active"),
    ("f = lambda n: 0 if n == 0 else 1 + g(n - 1)\ng = lambda n: 0 if n == 0 else 1 + f(n - 1)\nprint(f(1000))", "RecursionError: calls", "1,000 calls may be active"),
    ("def f(n):\n    return 0 if n == 0 else 1 + f(n - 1)\ntry:\n    print(f(1000))\nexcept RecursionError as e:\n    print(e)\nprint(f(999))", "calls~999~well", "1,000 calls may be active"),
    ("def f():\n    try:\n        return 1 + f()\n    except RecursionError:\n        return 1\nprint(f())", "1000~well", "1,000 calls may be active"),
])

table("HANDLERS", "`except`", [
    "try:\n    1 // 0\n    print('no')\nexcept ZeroDivisionError:\n    print('taken')\nprint('on')",
    "try:\n    1 // 0\nexcept KeyError:\n    print('no') !! zero",
    "try:\n    1 // 0\nexcept KeyError:\n    print('no')\nexcept ArithmeticError:\n    print('above')\nexcept ZeroDivisionError:\n    print('late')",
    "try:\n    1 // 0\nexcept (KeyError, ZeroDivisionError):\n    print('one of two')",
    "try:\n    1 // 0\nexcept (KeyError, IndexError):\n    print('no')\nexcept:\n    print('any')",
    "try:\n    dict()['a']\nexcept LookupError:\n    print('lookup')",
    "try:\n    [][0]\nexcept Exception:\n    print('exception')",
    "try:\n    print(1)\nexcept ValueError:\n    print(2)\nelse:\n    print(3)",
    "try:\n    1 // 0\nexcept ZeroDivisionError:\n    print(2)\nelse:\n    print(3)",
    "try:\n    print(1)\nexcept ZeroDivisionError:\n    print(2)\nelse:\n    1 // 0 !! zero",
    "try:\n    1 // 0\nexcept ZeroDivisionError as e:\n    print('in')\nprint(e) !! e",
    "e = 1\ntry:\n    1 // 0\nexcept ZeroDivisionError as e:\n    e = 2\n    print(e)\nprint(e) !! e",
    "try:\n    1 // 0\nexcept ZeroDivisionError as e:\n    del e\nprint('out')",
    "try:\n    1 // 0\nexcept ZeroDivisionError as e:\n    [][0]\nprint('no') !! index",
    "try:\n    try:\n        1 // 0\n    except ZeroDivisionError:\n        raise\nexcept ArithmeticError:\n    print('again')",
    "try:\n    1 // 0\nexcept ZeroDivisionError:\n    try:\n        [][0]\n    except IndexError:\n        print('inner')\n    raise !! zero",
    "try:\n    1 // 0\nexcept ZeroDivisionError:\n    try:\n        [][0]\n    except IndexError:\n        raise !! index",
    "try:\n    1 // 0\nexcept 5:\n    print('no') !! except",
    "try:\n    1 // 0\nexcept (ZeroDivisionError, 5):\n    print('no') !! except",
    "try:\n    1 // 0\nexcept [][0]:\n    print('no') !! index",
    "try:\n    1 // 0\nexcept (print('asked') or KeyError):\n    print('no')\nexcept (print('too') or ZeroDivisionError):\n    print('yes')",
    "try:\n    print(1)\nexcept (print('never') or KeyError):\n    print('no')",
    "for x in [1, 0, 2]:\n    try:\n        print(6 // x)\n    except ZeroDivisionError:\n        print('none')\n        continue\n    print('next')",
    "for x in [1, 0, 2]:\n    try:\n        print(6 // x)\n    except ZeroDivisionError:\n        break\nprint('out')",
    "for x in [[1, 0], [2]]:\n    try:\n        for y in x:\n            print(2 // y)\n    except ZeroDivisionError:\n        print(x)",
])

table("RAISED_WITHIN", "Exceptions that pass functions and handlers", [
    "def f():\n    raise ValueError\ntry:\n    f()\nexcept ValueError as e:\n    print('[' + str(e) + ']')",
    "def f(e):\n    raise e\ntry:\n    f(LookupError('k'))\nexcept LookupError as e:\n    print(e)",
    "saved = None\ntry:\n    raise ValueError('kept')\nexcept ValueError as e:\n    saved = e\nprint(saved)\nraise saved !! kept",
    "def inner():\n    try:\n        [][0]\n    except IndexError:\n        print('inner')\ntry:\n    1 // 0\nexcept ZeroDivisionError:\n    inner()\n    raise !! zero",
    "try:\n    1 // 0\nexcept ZeroDivisionError:\n    for i in range(3):\n        print(i)\n        if i == 1:\n            raise !! zero",
    "def f():\n    try:\n        g()\n    finally:\n        print('f')\ndef g():\n    try:\n        raise RuntimeError('deep')\n    finally:\n        print('g')\ntry:\n    f()\nexcept RuntimeError as e:\n    print(e)",
    "try:\n    raise IndexError('i')\nexcept LookupError as e:\n    print(e)",
    "try:\n    raise ValueError('v')\nexcept ValueError as e:\n    print([e], (e,))",
    "try:\n    try:\n        raise ValueError('v')\n    except KeyError:\n        print('no')\n    finally:\n        print('last')\nexcept ValueError as e:\n    print(e)",
    "def f():\n    try:\n        1 // 0\n    except ZeroDivisionError as e:\n        pass\n    return e\nf() !! e",
    "def f():\n    try:\n        1 // 0\n    except ZeroDivisionError as e:\n        return lambda: e\nf()() !! e",
    "for x in [1]:\n    try:\n        1 // 0\n    except ZeroDivisionError as e:\n        break\nprint(e) !! e",
    "try:\n    try:\n        1 // 0\n    except ZeroDivisionError as e:\n        [][0]\nexcept IndexError:\n    pass\nprint(e) !! e",
    "def f(kind):\n    try:\n        raise kind\n    except (KeyError, IndexError):\n        return 'lookup'\n    except ArithmeticError:\n        return 'arithmetic'\n    except:\n        return 'other'\nprint(f(KeyError), f(OverflowError), f(ZeroDivisionError), f(NameError))",
    "def f(xs):\n    for x in xs:\n        try:\n            print(10 // x)\n        except ZeroDivisionError:\n            print('none')\n            return 'out'\n        finally:\n            print('last', x)\nprint(f([5, 0, 2]))",
], [
    ("raise ValueError('a', 'b')", "TypeError: arguments", "a kind takes one argument at most"),
    ("try:\n    {}['k']\nexcept KeyError as e:\n    print(e)", "'k'~well", "the text is the key as it is shown in a container"),
])

table("LASTS", "`finally`", [
    "try:\n    print(1)\nfinally:\n    print(2)",
    "try:\n    1 // 0\nfinally:\n    print('last') !! zero",
    "try:\n    1 // 0\nexcept ZeroDivisionError:\n    print(1)\nfinally:\n    print(2)",
    "try:\n    print(1)\nexcept ValueError:\n    print(2)\nelse:\n    print(3)\nfinally:\n    print(4)",
    "try:\n    print(1)\nexcept ZeroDivisionError:\n    print(2)\nelse:\n    1 // 0\nfinally:\n    print(4) !! zero",
    "try:\n    1 // 0\nexcept ZeroDivisionError:\n    [][0]\nfinally:\n    print('last') !! index",
    "try:\n    1 // 0\nfinally:\n    [][0] !! index",
    "for x in [1, 2, 3]:\n    try:\n        if x == 2:\n            continue\n        if x == 3:\n            break\n        print(x)\n    finally:\n        print('last', x)\nprint('out')",
    "for x in [1, 2]:\n    try:\n        1 // 0\n    finally:\n        print(x)\n        break\nprint('out')",
    "i = 0\nwhile i < 2:\n    i += 1\n    try:\n        break\n    finally:\n        continue\nprint(i)",
    "try:\n    try:\n        1 // 0\n    finally:\n        print('inner')\nexcept ZeroDivisionError:\n    print('outer')\nfinally:\n    print('last')",
    "try:\n    try:\n        1 // 0\n    finally:\n        try:\n            [][0]\n        except IndexError:\n            print('within')\nexcept ZeroDivisionError:\n    print('outer')",
])

LEFT = ["pass", "return 'tried'", "break", "continue", "1 // 0"]
LAST = ["pass", "return 'last'", "break", "continue", "[][0]"]
TEXTS = {"ZeroDivisionError": "zero", "IndexError": "index"}


def left(script, parts, lasts):
    """The script for each way in which its block is left, and each in which its last block is."""
    for part in parts:
        for last in lasts:
            whole = script.replace("PART", part).replace("LAST", last)
            fault = re.fullmatch(r".*\?\? (\w+): .*", answer(whole, None), re.S)
            yield f"{whole} !! {TEXTS[fault.group(1)]}" if fault else whole


table("LEAVES", "A block that is left in each way, before a block of `finally` that is: in a loop of a function", list(left(
    "def f():\n for x in [1, 2]:\n  try:\n   print('try', x)\n   PART\n  finally:\n   print('last', x)\n   LAST\n  print('on', x)\n return 'end'\n"
    "print(f())", LEFT, LAST)))

table("HANDLER_LEAVES", "The same of the block of a handler, where `raise` stands alone", list(left(
    "def f():\n for x in [1, 2]:\n  try:\n   1 // 0\n  except ZeroDivisionError:\n   print('taken', x)\n   PART\n  finally:\n   print('last', x)\n"
    "   LAST\n  print('on', x)\n return 'end'\nprint(f())", LEFT[:4] + ["raise"], LAST)))

table("FUNCTION_LEAVES", "The same in a function, with no loop", list(left(
    "def f():\n try:\n  print('try')\n  PART\n finally:\n  print('last')\n  LAST\n print('on')\n return 'end'\nprint(f())",
    [LEFT[0], LEFT[1], LEFT[4]], [LAST[0], LAST[1], LAST[4]])))

table("LOOP_LEAVES", "The same in a loop of the program", list(left(
    "for x in [1, 2]:\n try:\n  print('try', x)\n  PART\n finally:\n  print('last', x)\n  LAST\n print('on', x)\nprint('end')",
    [LEFT[0]] + LEFT[2:], [LAST[0]] + LAST[2:])))

table("ELSE_LEAVES", "The same of the block of `else`", list(left(
    "def f():\n for x in [1, 2]:\n  try:\n   print('try', x)\n  except ZeroDivisionError:\n   print('no')\n  else:\n   PART\n  finally:\n"
    "   print('last', x)\n  print('on', x)\n return 'end'\nprint(f())", LEFT, LAST[:1])))

if __name__ == "__main__":
    words = sys.argv[1:]
    if words[:1] == ["--check"]:
        known = {c: name for name in TABLES for c in cases(name)}
        found, wrong = set(), 0
        for path in words[1:]:
            text = open(path).read().replace("\\\n    ", "")
            for name, rows in re.findall(r'const (\w+): &str =\s*r#"(.*?)"#;', text, re.S):
                if name not in TABLES:
                    continue
                found.add(name)
                rows = rows.split("\n")
                for row in rows:
                    if known.get(row) != name:
                        print(f"{path}: in no table: {row}")
                        wrong = 1
                for row in cases(name):
                    if row not in rows:
                        print(f"{path}: not in {name}: {row}")
                        wrong = 1
        for name in sorted(set(TABLES) - found):
            print(f"in no file: {name}")
            wrong = 1
        sys.exit(wrong)
    for name in words or TABLES:
        print(f"-- {name}: {TABLES[name][0]}")
        for row in cases(name):
            print(wrapped(row))
