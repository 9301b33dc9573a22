"""Which texts CPython's own parser accepts: the answers of the grammar's tests where the two grammars agree.

Run with CPython 3.11. Each expression prints `accept` or `refuse` and its text, as crates/rp_tests_scripts/src/expression_tests.rt has them; those of
forms that are left out of the language on purpose stand in OUTSIDE, which CPython accepts and the grammar of rpy refuses. Then the
tables of crates/rp_tests_scripts/src/case_tests.rt are compared: CPython has to accept what the first says, to refuse what the second
says, and to accept what the third says that the language leaves out.
"""
import os
import re
import sys
import warnings

warnings.simplefilter("ignore")

CASES = """
x
12
'a' 'b' "c"
None
True
()
(x)
(x,)
(x, y)
((x, y), z)
[]
[x]
[x, y,]
[x for x in y]
[x for x in y if z]
[x for x, in y if z if w for a.b in c]
[x for (x, y), [z] in y]
{}
{a: b}
{a: b, c: d,}
{a: b for a in c}
f()
f(x)
f(x,)
f(*a, b, *c)
f(a, k=b, **c)
f(k=a, m=b,)
f(**a, k=b)
a.b[c](d).e
a[:]
a[b:]
a[:b]
a[b:c]
a[::]
a[b:c:d]
a[::d]
-x
-+~x
-x ** -y
x ** y ** z
a * b // c % d
a + b - c
(a + b) + c
a + b * c << d & e ^ f | g
a - (b - c)
a < b
a < b <= c > d >= e == f != g
a in b not in c
a is None
a is not None == b
not a
not not a in b
a and b
a and b and c or d or e
(a and b) and c
a if b else c
a if b else c if d else e
(a if b else c) if d else e
lambda: x
lambda a: a
lambda a, b=c, *d, **e: f
lambda *a,: a
lambda **a: a if b else c
lambda a=lambda: b: a
lambda: a if b else c
x if lambda: y else z
x if y else lambda: z
[lambda: x for x in y]
not
x +
+ * x
x **
** x
(x
x)
(,)
[,]
[x y]
{a: }
{a: b c: d}
f(,)
f(k=a, b)
f(**a, b)
f(k=a, k=b)
f(k=)
f(1=a)
f(*)
f(a b)
a.
a.1
a[]
a[b
a[b:c:d:e]
a not b
a not
a is
a is not
not in a
a in
a and
and a
a or or b
a if b
a if b else
a if else c
lambda
lambda a
lambda a b: c
lambda a=b, c: d
lambda *a, *b: c
lambda **a, b: c
lambda **a, *b: c
lambda a, a: b
lambda a, *a: b
lambda (a): b
lambda *: a
[x for]
[x for x]
[x for x in]
[x for f() in y]
[x for x + y in z]
[x for 1 in y]
[x for x in y if]
[x for x in y if z else w]
[x if y for x in z]
[x, y for x in z]
(x for x in)
{a: b, c: d for a in b}
lambda: (
"""

# accepted by CPython, no form of the language
OUTSIDE = """
a is b
a is True
a[b, c]
a[b:c, d]
[x for () in y]
[x for [] in y]
f(k=a, *b)
f(x for x in y)
(x for x in y)
{a}
{a: b, **c}
[*a]
(*a,)
(x := y)
lambda a, *, b: c
lambda a, /, b: c
a / b
a @ b
1.5
b'x'
f'{x}'
...
await x
"""


TABLES = "crates/rp_tests_scripts/src/case_tests.rt"
SIGNS = str.maketrans("␊␍␉", "\n\r\t")


def answer(text, mode="eval"):
    try:
        compile(text, "case", mode)
    except SyntaxError:
        return "refuse"
    return "accept"


def scripts(function):
    """The scripts in the table of a test: a case a line, the script before `=>`."""
    with open(os.path.join(os.path.dirname(__file__), "..", TABLES)) as source:
        table = source.read().split(f'const {function.upper()}: &str = "\\\n')[1].split('\n";')[0]
    table = re.sub(r"\\\n *", "", table)
    return [line.split(" =>")[0].translate(SIGNS) for line in table.split("\n")]


for name, cases in (("cases", CASES), ("outside", OUTSIDE)):
    print("--", name)
    for text in cases.strip().split("\n"):
        print(answer(text), text)

wrong = 0
for function, expected in (
    ("statements_of_python_are_read", "accept"),
    ("what_python_refuses_is_refused", "refuse"),
    ("what_is_no_form_of_the_language_is_refused", "accept"),
):
    table = scripts(function)
    others = [text for text in table if answer(text + "\n", "exec") != expected]
    wrong += len(others)
    print(f"-- {function}: {len(table)} scripts, {len(others)} of which CPython does not {expected}")
    for text in others:
        print(repr(text))
sys.exit(wrong != 0)
