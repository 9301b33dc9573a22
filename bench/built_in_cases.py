#!/usr/bin/env python3
"""The cases of the tests of built-in functions and methods, as the crate rp_tests_built_ins has them.

    built_in_cases.py [TABLE..]        prints the tables, or those of these names
    built_in_cases.py --check FILE..   tells which cases of the files are in no table, and which cases of tables that the
                                       files have are in no file; status 1 where there is one

A table has cases whose answers CPython gives, then cases that stand here with their answers. A case of the first kind
is its source, and the text of its exception where it raises one, since those texts are our own. A case of the second
kind has its source, what has to come of it and why it stands here: `costs` where CPython gives the answer but no costs
(it is compared with CPython too), or the rule by which it differs. CPython is 3.11.
"""
import ast
import re
import sys

KINDS = """Exception ArithmeticError ZeroDivisionError OverflowError LookupError IndexError KeyError NameError
UnboundLocalError RuntimeError RecursionError ValueError TypeError AttributeError AssertionError""".split()
# What stands between the cases of a line, and the most columns of a line.
BETWEEN = " ‖ "
WIDTH = 116
TABLES = {}


def table(name, sentence, cases, own=()):
    """A table: what it is about, the cases that CPython answers, and those that stand here with their answers."""
    TABLES[name] = (sentence, cases, own)


class Thing:
    """An instance."""


class Calls(ast.NodeTransformer):
    """A call of a method becomes one of `method`, whose views and iterators are lists."""

    def visit_Call(self, node):
        self.generic_visit(node)
        if isinstance(node.func, ast.Attribute):
            args = [node.func.value, ast.Constant(node.func.attr), *node.args]
            return ast.Call(ast.Name("method", ast.Load()), args, [])
        return node


def listed(value):
    """A view or an iterator as a list."""
    known = (type(None), bool, int, str, list, tuple, dict, Thing, type, BaseException, type(len))
    return value if isinstance(value, known) else list(value)


def method(receiver, word, *args):
    return listed(getattr(receiver, word)(*args))


def printed(*args):
    return " ".join(str(arg) for arg in args) + "\n"


def names():
    """The names that cases may use."""
    known = {word: (lambda f: lambda *args: listed(f(*args)))(f) for word, f in [("range", range),
    ("enumerate", enumerate), ("zip", zip)]}
    known.update(method=method, lent=lambda x: x, theirs=lambda x: x, thing=Thing, lowest=-(2**63), print=printed)
    return known


def shown(value):
    """A value as our profile shows it inside a container."""
    if isinstance(value, BaseException):
        return type(value).__name__ + "(" + (repr(str(value)) if value.args else "") + ")"
    text = repr(value)
    if re.search(r"\\u|\\U|\\x[89a-f]", text):
        raise SystemExit(f"{text}: our profile shows these characters as they are")
    return text


def answer(source, text=None):
    """What CPython answers: a value, or a kind of exceptions with a text of ours."""
    tree = ast.fix_missing_locations(Calls().visit(ast.parse(source)))
    known = names()
    try:
        exec(compile(ast.Module(tree.body[:-1], []), "case", "exec"), known)
        value = eval(compile(ast.Expression(tree.body[-1].value), "case", "eval"), known)
    except Exception as fault:
        kind = next(k.__name__ for k in type(fault).__mro__ if k.__name__ in KINDS)
        if text is None and isinstance(fault, KeyError):
            text = repr(fault.args[0])
        if text is None:
            raise SystemExit(f"{source}: {kind} needs its text ({fault})")
        return f"{kind}: {text}"
    if text is not None:
        raise SystemExit(f"{source}: no exception, but {value!r}")
    return shown(value)


def lines(name):
    """The lines of a table."""
    _, cases, own = TABLES[name]
    found = []
    for case in cases:
        source, text = (case, None) if isinstance(case, str) else case
        found.append(f"{source} => {answer(source, text)}")
    for source, wanted, why in own:
        if why == "costs":
            plain, head = re.sub(r"^((steps|cells) \d+; )+", "", source), wanted.split(" | ")[0]
            text = head.split(": ", 1)[1] if re.match(r"[A-Z]\w+: ", head) else None
            if not head.startswith("stop ") and answer(plain, text) != head:
                raise SystemExit(f"{source}: CPython answers {answer(plain, text)}, and not {head}")
        found.append(f"{source} => {wanted}")
    return found


def sorted_by_text(text, cases):
    """Cases that raise an exception with this text."""
    return [(source, text) for source in cases]


def check(files):
    """Compares the cases of files with the tables."""
    held = set()
    for file in files:
        for text in re.findall(r'r#"(.*?)"#', open(file, encoding="utf-8").read(), re.S):
            held.update(case for line in text.splitlines() for case in line.strip().split(BETWEEN) if " => " in case)
    good = True
    known = {}
    for name in TABLES:
        known.update((line, name) for line in lines(name))
    for line in sorted(held - set(known)):
        print("in no table:", line)
        good = False
    there = {known[line] for line in held if line in known}
    for line, name in known.items():
        if name in there and line not in held:
            print(f"in no file, of {name}:", line)
            good = False
    print(len(held), "cases of", len(there), "tables,", "as they have to be" if good else "not all as they have to be")
    return good


def filled(cases):
    """Lines of as many cases as they have room for."""
    line = ""
    for case in cases:
        if line and len(line + BETWEEN + case) > WIDTH:
            yield line
            line = ""
        line = line + BETWEEN + case if line else case
    if line:
        yield line


def show_table(name):
    """Prints a table as it stands in the crate."""
    sentence, own = TABLES[name][0], len(TABLES[name][2])
    cases = lines(name)
    print(f'const {name}: &str = r#"\n    {sentence}')
    for line in filled(cases[: len(cases) - own]):
        print("    " + line)
    if own:
        print("    By our own rules, or with what they cost.")
    for line in filled(cases[len(cases) - own :]):
        print("    " + line)
    print('"#;\n')


table(
    "LENGTHS",
    "Lengths, truth values and texts.",
    [
        "len([])", "len([1, 2])", "len(())", "len((1,))", "len({})", "len({'a': 1, 'b': 2})", "len('')", "len('abc')",
        "len('äöü')", "len('😀')",
        "len(lent([1]))", "len(lent({1: 2}))", "len([[1, 2]])", "a = [1]; b = a.append(a); len(a)", "len(lent('ab'))",
        *sorted_by_text("len", ["len(1)", "len(None)", "len(True)", "len(KeyError('a'))", "len(KeyError)", "len(len)",
        "len(thing())"]),
        *sorted_by_text("arguments", ["len()", "len([], [])", "len([], [], [])"]),
        "bool(None)", "bool(True)", "bool(False)", "bool(0)", "bool(1)", "bool(-1)", "bool('')", "bool('a')",
        "bool(' ')", "bool([])", "bool([0])",
        "bool(())", "bool((0,))", "bool({})", "bool({0: 0})", "bool(len)", "bool(KeyError)", "bool(KeyError(''))",
        "bool(lent([]))", "bool(lent([0]))",
        "bool(thing())", ("bool(1, 2)", "arguments"),
        "str('a')", "str('')", "str(1)", "str(-5)", "str(lowest)", "str(None)", "str(True)", "str([])", "str([1, 'a'])",
        "str((1,))", "str(())",
        "str({'a': [1], 2: ()})", r"str('it\'s')", r"str(['it\'s'])", r"""str(['a"b\'c'])""", r"str(['\n\t\r\\'])",
        r"str(['\x00\x1f\x7f'])",
        "str(lent([1]))", "a = [1]; b = a.append(a); str(a)", "a = [1]; b = (a, 2); c = a.append(b); str(b)",
        "str(ValueError('a'))", "str(ValueError())",
        "str(KeyError)", "str([ValueError('a'), KeyError()])", ("str(1, 2)", "arguments"),
    ],
    [
        ("bool()", "TypeError: arguments", "bool takes one argument"),
        ("str()", "TypeError: arguments", "str takes one argument"),
        ("str(KeyError('a'))", "'a'", "an exception value is shown as its text"),
        ("str(len)", "'<function len>'", "a built-in function is shown by its name"),
        ("str(removeSecurityProxy)", "'<function removeSecurityProxy>'", "it is shown like a built-in function"),
        ("str(thing())", "'<thing object>'", "an instance is shown by its class"),
        (r"len(str(['\x80\u200b']))", "6", "only characters below 32 and 127 are escaped"),
        ("len([1, 2])", "2 | rock | 0 steps | 0 cells", "costs"),
        ("bool([1, 2])", "True | 0 steps | 0 cells", "costs"),
        ("str('abc')", "'abc' | 0 steps | 0 cells", "costs"),
        ("str(12)", "'12' | 0 steps | 2 cells", "costs"),
        ("str(None)", "'None' | 0 steps | 4 cells", "costs"),
        ("str(ValueError('äb'))", "'äb' | 0 steps | 3 cells", "costs"),
        ("str([])", "'[]' | 0 steps | 2 cells", "costs"),
        ("str([1, 'a'])", "\"[1, 'a']\" | 2 steps | 8 cells", "costs"),
        ("str([[1], ()])", "'[[1], ()]' | 3 steps | 9 cells", "costs"),
        ("str({'a': 1})", "\"{'a': 1}\" | 1 steps | 8 cells", "costs"),
        ("steps 1; cells 0; str([1])", "stop cells", "the bracket before the element's step"),
        ("steps 0; cells 1; str([1])", "stop steps", "the element's step before its text"),
        ("steps 1; cells 3; str([1, 2])", "stop cells", "the separator before the element's step"),
        ("steps 1; cells 4; str([1, 2])", "stop steps", "the element's step behind the separator"),
    ],
)
table(
    "NUMBERS",
    "Numbers of texts, and absolute values.",
    [
        "int(5)", "int(-5)", "int(True)", "int(False)", "int('5')", "int('-5')", "int('+5')", "int('007')", "int('0')",
        "int('-0')", "int('+00')",
        "int('9223372036854775807')", "int('-9223372036854775808')", "int('00000000000000000000000000005')",
        "int('-0000000000000000000000000005')",
        *sorted_by_text("int", ["int('')", "int('-')", "int('+')", "int('+-5')", "int('--5')", "int('a')", "int('1a')",
        "int('a1')", "int('0x10')",
            "int('1.5')", "int('1 2')", "int('5-')", "int('1e3')", "int('²')", "int('99999999999999999999x')",
            r"int('\x00')"]),
        *sorted_by_text("argument", ["int(None)", "int([])", "int((1,))", "int({})", "int(lent([5]))", "int(KeyError)",
        "int(KeyError('5'))", "int(len)",
            "int(thing())"]),
        "abs(5)", "abs(-5)", "abs(0)", "abs(True)", "abs(False)", "abs(9223372036854775807)",
        "abs(-9223372036854775807)",
        *sorted_by_text("argument", ["abs('5')", "abs('-5')", "abs(None)", "abs([])", "abs((1,))", "abs({})",
        "abs(lent([1]))", "abs(KeyError)",
            "abs(thing())"]),
        *sorted_by_text("arguments", ["abs()", "abs(1, 2)", "int('5', 10, 1)"]),
    ],
    [
        ("int()", "TypeError: arguments", "int takes one argument"),
        ("int('5', 10)", "TypeError: arguments", "int takes one argument"),
        ("int(' 5')", "ValueError: int", "a text of a sign and digits alone"),
        ("int('5 ')", "ValueError: int", "a text of a sign and digits alone"),
        (r"int('5\n')", "ValueError: int", "a text of a sign and digits alone"),
        ("int('1_000')", "ValueError: int", "a text of a sign and digits alone"),
        ("int('٣')", "ValueError: int", "ASCII digits"),
        ("int('５')", "ValueError: int", "ASCII digits"),
        ("int('9223372036854775808')", "OverflowError: int", "whole numbers have 64 bits"),
        ("int('-9223372036854775809')", "OverflowError: int", "whole numbers have 64 bits"),
        ("int('18446744073709551616')", "OverflowError: int", "whole numbers have 64 bits"),
        ("int('-18446744073709551617')", "OverflowError: int", "whole numbers have 64 bits"),
        ("int('99999999999999999999999999999999999999')", "OverflowError: int", "whole numbers have 64 bits"),
        ("int('-99999999999999999999999999999999999999')", "OverflowError: int", "whole numbers have 64 bits"),
        ("abs(lowest)", "OverflowError: int", "whole numbers have 64 bits"),
        ("int('-12')", "-12 | rock | 0 steps | 0 cells", "costs"),
        ("abs(-12)", "12 | rock | 0 steps | 0 cells", "costs"),
    ],
)
table(
    "SUMS",
    "Sums are of walked numbers.",
    [
        "sum([])", "sum(())", "sum({})", "sum('')", "sum([1, 2, 3])", "sum((1, 2))", "sum({1: 'a', 2: 'b'})",
        "sum([True, True, False])", "sum({True: 5})",
        "sum(lent([1, 2]))", "sum(lent({3: 4}))", "sum([-1, 1])", "sum([lowest, 9223372036854775807])",
        "sum([9223372036854775807, -1, 1])",
        "sum([lowest, 1, -1])",
        *sorted_by_text("argument", ["sum(['a'])", "sum([1, 'a'])", "sum('ab')", "sum([None])", "sum([[1]])",
        "sum([(1,)])", "sum({'a': 1})",
            "sum([KeyError])", "sum(lent([[1]]))", "sum([9223372036854775807, 'a'])"]),
        *sorted_by_text("iterate", ["sum(5)", "sum(None)", "sum(True)", "sum(len)", "sum(KeyError)",
        "sum(KeyError('a'))", "sum(thing())"]),
        *sorted_by_text("arguments", ["sum()", "sum([1], 2, 3)"]),
    ],
    [
        ("sum([1], 2)", "TypeError: arguments", "sum takes one argument"),
        ("sum([9223372036854775807, 1])", "OverflowError: int", "whole numbers have 64 bits"),
        ("sum([lowest, -1])", "OverflowError: int", "whole numbers have 64 bits"),
        ("sum([9223372036854775807, 1, -1])", "OverflowError: int", "the first partial sum outside 64 bits"),
        ("sum([9223372036854775807, True, lowest])", "OverflowError: int", "the first partial sum outside 64 bits"),
        ("sum([9223372036854775807, 1, 'a'])", "TypeError: argument", "kinds are tested before numbers are added"),
        ("sum([1, 2, 3])", "6 | rock | 3 steps | 0 cells", "costs"),
        ("sum([1, 'a', 3])", "TypeError: argument | 3 steps | 0 cells", "costs"),
        ("sum('äb')", "TypeError: argument | 2 steps | 3 cells", "costs"),
        ("sum(5)", "TypeError: iterate | 0 steps | 0 cells", "costs"),
        ("steps 1; cells 0; sum('ab')", "stop cells", "the character's cell behind its step"),
        ("steps 0; cells 0; sum('ab')", "stop steps", "the character's step before its cell"),
        ("steps 2; sum([1, 'a', 3])", "stop steps", "walked whole before kinds are tested"),
    ],
)
table(
    "EXTREMES",
    "The least and the greatest, of one walked argument or of several.",
    [
        "min([3, 1, 2])", "max([3, 1, 2])", "min((3, 1))", "max((3, 1))", "min({2: 0, 1: 0})", "max({'a': 0, 'b': 0})",
        "min('hello')", "max('hello')",
        "min(3, 1, 2)", "max(3, 1, 2)", "min('b', 'a')", "max('b', 'a', 'ab')", "min('a', 'B')", "max('', 'a')",
        "min(-1, 0)", "min([5])", "max('a')",
        "min(1, True)", "min(True, 1)", "max(1, True)", "max(True, 1)", "min([False, 0])", "max([0, False, -1])",
        "min(0, False, True)",
        "min(lent([2, 1]))", "max(lent((2, 1)))", "min(lowest, 9223372036854775807)",
        "max(lowest, 9223372036854775807)",
        "min('é', 'z')", r"max('😀', '\uff5e')", r"min('😀', '\uff5e')", "max('a', 'aa')", "max(['1', '10', '9'])",
        *sorted_by_text("empty", ["min([])", "max([])", "min('')", "max(())", "min({})", "max(lent([]))"]),
        *sorted_by_text("iterate", ["min(5)", "max(None)", "min(True)", "max(len)", "min(KeyError('a'))",
        "max(thing())"]),
        *sorted_by_text("argument", ["min([1, 'a'])", "max(1, 'a')", "min('a', 1)", "max([None, None])",
        "min([1], 'a')", "max(1, None)",
            "min(KeyError, KeyError)", "max({'a': 1, 1: 1})"]),
        *sorted_by_text("arguments", ["min()", "max()"]),
    ],
    [
        ("min([None])", "TypeError: argument", "all numbers or all texts"),
        ("max([[1]])", "TypeError: argument", "all numbers or all texts"),
        ("min([1], [2])", "TypeError: argument", "all numbers or all texts"),
        ("max((1,), (2,))", "TypeError: argument", "all numbers or all texts"),
        ("min(lent([1]), lent([2]))", "TypeError: argument", "all numbers or all texts"),
        ("min([3, 1, 2])", "1 | rock | 3 steps | 0 cells", "costs"),
        ("max('helloé')", "'é' | rock | 6 steps | 7 cells", "costs"),
        ("min(3, 1)", "1 | 0 steps | 0 cells", "costs"),
        ("min('abc', 'ab')", "'ab' | 0 steps | 0 cells", "costs"),
        ("min([])", "ValueError: empty | 0 steps | 0 cells", "costs"),
        ("max([1, 'a', 2])", "TypeError: argument | 3 steps | 0 cells", "costs"),
    ],
)
table(
    "COPIES",
    "Copies as lists, tuples and dicts.",
    [
        "list()", "list([])", "list([1, 2])", "list((1, 2))", "list('ab')", "list('äb')", "list('')",
        "list({'a': 1, 2: 3})", "list(lent([[1]]))",
        "list(lent('ab'))", "a = [1]; b = a.append(a); list(a)", "a = [[1]]; b = list(a); c = b.append(2); a",
        "list([None, True, KeyError])",
        "tuple()", "tuple([])", "tuple([1, 2])", "tuple((1,))", "tuple('ab')", "tuple({'a': 1})",
        "tuple(lent(([1], 2)))",
        "a = [1]; b = a.append(a); tuple(a)",
        *sorted_by_text("iterate", ["list(5)", "list(None)", "list(True)", "list(len)", "list(KeyError('a'))",
        "list(thing())", "tuple(5)", "tuple(None)",
            "tuple(KeyError)", "tuple(thing())"]),
        *sorted_by_text("arguments", ["list([], [])", "tuple((), ())", "list(1, 2, 3)", "dict({}, {})",
        "dict(1, 2, 3)"]),
        "dict()", "dict({})", "dict({'b': 1, 'a': 2})", "dict({True: 1, None: 2, '': 3})", "dict(lent({1: [2], 2: 3}))",
        *sorted_by_text("argument", ["dict(5)", "dict(None)", "dict(True)", "dict([1])", "dict(len)", "dict(thing())"]),
    ],
    [
        ("dict('')", "TypeError: argument", "a dict is copied"),
        ("dict('ab')", "TypeError: argument", "a dict is copied"),
        ("dict([])", "TypeError: argument", "a dict is copied"),
        ("dict([(1, 2)])", "TypeError: argument", "a dict is copied"),
        ("dict(lent([]))", "TypeError: argument", "a dict is copied"),
        ("list()", "[] | ours | 0 steps | 1 cells", "costs"),
        ("list([1, 2])", "[1, 2] | ours | 2 steps | 3 cells", "costs"),
        ("list('aé')", "['a', 'é'] | 2 steps | 6 cells", "costs"),
        ("list({'a': 1})", "['a'] | 1 steps | 2 cells", "costs"),
        ("tuple()", "() | ours | 0 steps | 1 cells", "costs"),
        ("tuple((1, 2))", "(1, 2) | ours | 2 steps | 3 cells", "costs"),
        ("dict()", "{} | ours | 0 steps | 1 cells", "costs"),
        ("dict({'a': 1, 'b': 2})", "{'a': 1, 'b': 2} | ours | 0 steps | 3 cells", "costs"),
        ("list(5)", "TypeError: iterate | 0 steps | 0 cells", "costs"),
        ("list(lent([[1], 2, {}]))", "[[1], 2, {}] | ours | 2 lent elements", "costs"),
        ("list([[1], lent({})])", "[[1], {}] | 1 lent elements", "costs"),
        ("tuple(lent(([1], 2)))", "([1], 2) | ours | 1 lent elements", "costs"),
        ("dict(lent({1: [2], 2: 3}))", "{1: [2], 2: 3} | ours | 1 lent elements", "costs"),
        ("dict({1: [2], 2: lent([3])})", "{1: [2], 2: [3]} | 1 lent elements", "costs"),
        ("list(theirs([1]))", "[1] | ours", "costs"),
        ("dict(theirs({1: 2}))", "{1: 2} | ours", "costs"),
        ("steps 2; cells 2; list([1, 2])", "stop cells", "charged as a whole behind the walk"),
        ("steps 1; cells 0; list([1, 2])", "stop steps", "walked before it is charged"),
    ],
)
table(
    "OTHER_CALLS",
    "Methods that are called as functions, and proxies that are taken off.",
    [],
    [
        ("append([1], 2)", "TypeError: call", "a method is no function"),
        ("isdigit('1')", "TypeError: call", "a method is no function"),
        ("join()", "TypeError: call", "a method is no function"),
        ("removeSecurityProxy(1)", "1 | rock | 0 steps | 0 cells", "a rock as it is"),
        ("removeSecurityProxy('a')", "'a' | rock | 0 cells", "a rock as it is"),
        ("removeSecurityProxy([1])", "[1] | ours | 0 steps | 0 cells", "a plain reference as it is"),
        ("removeSecurityProxy(lent([1]))", "[1] | ours | 0 steps | 0 cells", "a proxy as the plain reference"),
        ("removeSecurityProxy(lent(theirs([1])))", "[1] | theirs", "a proxy as the plain reference"),
        ("removeSecurityProxy()", "TypeError: arguments", "the count of arguments"),
        ("removeSecurityProxy(1, 2)", "TypeError: arguments", "the count of arguments"),
    ],
)
table(
    "LINES",
    "The line of print.",
    [
        "print()", "print('')", "print('', '')", "print('a')", "print('a', 'b', 'c')", "print(1, None, True, -2)",
        "print([1, 'a'], (2,), {})",
        "print(['a'], 'b')", "print(lent([1]), 'ä')", r"print('a\nb')", "print(ValueError('a'), [ValueError('a')])",
        "a = [1]; b = a.append(a); print(a)",
        "print(KeyError)", r"print('it\'s', ['it\'s'])",
    ],
    [
        ("print(KeyError('a'))", r"'a\n'", "an exception value is shown as its text"),
        ("print(thing(), len)", r"'<thing object> <function len>\n'", "shown by their names"),
        ("print()", r"'\n' | 0 steps | 1 cells", "costs"),
        ("print('ab')", r"'ab\n' | 0 steps | 3 cells", "costs"),
        ("print('é', '')", r"'é \n' | 0 steps | 4 cells", "costs"),
        ("print([1, 2], 'a')", r"'[1, 2] a\n' | 2 steps | 9 cells", "costs"),
        ("print({'a': 1})", "\"{'a': 1}\\n\" | 1 steps | 9 cells", "costs"),
        ("print(10, None)", r"'10 None\n' | 0 steps | 8 cells", "costs"),
        ("steps 0; cells 2; print('a', [1])", "stop cells", "the space before what stands behind it"),
        ("steps 0; cells 3; print('a', [1])", "stop steps", "the element's step behind the bracket"),
    ],
)
table(
    "RANGES",
    "Ranges are lists of numbers.",
    [
        "range(3)", "range(0)", "range(-3)", "range(1, 4)", "range(4, 1)", "range(1, 1)", "range(-2, 2)",
        "range(0, 10, 3)", "range(0, 9, 3)",
        "range(10, 0, -3)", "range(9, 0, -3)", "range(0, 10, -1)", "range(10, 0, 1)", "range(True)",
        "range(False, True)", "range(0, 3, True)",
        "range(-3, 3, 2)", "range(9223372036854775806, 9223372036854775807)",
        "range(9223372036854775800, 9223372036854775807, 5)",
        "range(9223372036854775806, 9223372036854775807, 9223372036854775807)", "range(lowest, -9223372036854775806)",
        "range(0, lowest, lowest)",
        "range(9223372036854775807, lowest, lowest)", "range(lowest, 9223372036854775807, 9223372036854775807)",
        "range(-1, lowest, lowest)",
        "range(1, 0, lowest)", "range(0, 1, 9223372036854775807)",
        *sorted_by_text("range", ["range(1, 2, 0)", "range(0, 0, 0)", "range(1, 2, False)"]),
        *sorted_by_text("argument", ["range('a')", "range(None)", "range([])", "range(1, 'a')", "range('a', 1)",
        "range(1, 2, 'a')", "range(1, 2, None)",
            "range('a', 2, 0)", "range(lent([1]))", "range(KeyError)", "range(thing())"]),
        *sorted_by_text("arguments", ["range()", "range(1, 2, 3, 4)"]),
    ],
    [
        ("range(0)", "[] | ours | 0 steps | 1 cells", "costs"),
        ("range(3)", "[0, 1, 2] | ours | 0 steps | 4 cells", "costs"),
        ("range(0, 10, 3)", "[0, 3, 6, 9] | 0 steps | 5 cells", "costs"),
        ("range(10, 0, -4)", "[10, 6, 2] | 0 steps | 4 cells", "costs"),
        ("range(1, 2, 0)", "ValueError: range | 0 steps | 0 cells", "costs"),
        ("cells 1000; range(1000)", "stop cells", "a cell for each number and one"),
        ("cells 1000; len(range(999))", "999", "a cell for each number and one"),
        ("range(9223372036854775807)", "stop cells", "the cells are over each limit"),
        ("range(lowest, 9223372036854775807)", "stop cells", "the cells are over each limit"),
        ("range(9223372036854775807, lowest, -1)", "stop cells", "the cells are over each limit"),
    ],
)
table(
    "SORTED",
    "Sorted lists, of all numbers or all texts.",
    [
        "sorted([])", "sorted(())", "sorted('')", "sorted({})", "sorted([3, 1, 2])", "sorted((2, 1))",
        "sorted('hello')", "sorted({2: 0, 1: 0})",
        "sorted(['b', 'a', 'B', 'ab', ''])", "sorted([1, True, 0, False])", "sorted([True, 1])", "sorted([1, True])",
        "sorted([2, 1, True, 0, False, 1])",
        "sorted(lent([2, 1]))", "sorted([lowest, 9223372036854775807, 0, -1])", r"sorted(['😀', '\uff5e', 'z', 'é'])",
        "sorted([5])",
        "sorted([9, 8, 7, 6, 5, 4, 3, 2, 1, 0])", "sorted(['10', '9', '1'])", "a = [2, 1]; b = sorted(a); a",
        *sorted_by_text("argument", ["sorted([1, 'a'])", "sorted(['a', None])", "sorted([None, 1])", "sorted([[1], 2])",
        "sorted({'a': 1, 1: 1})",
            "sorted([KeyError, KeyError])"]),
        *sorted_by_text("iterate", ["sorted(5)", "sorted(None)", "sorted(True)", "sorted(len)", "sorted(thing())"]),
        *sorted_by_text("arguments", ["sorted()", "sorted([], None)"]),
    ],
    [
        ("sorted([None])", "TypeError: argument", "all numbers or all texts"),
        ("sorted([[2], [1]])", "TypeError: argument", "all numbers or all texts"),
        ("sorted([(1,)])", "TypeError: argument", "all numbers or all texts"),
        ("sorted([])", "[] | ours | 0 steps | 1 cells", "costs"),
        ("sorted([3, 1, 2])", "[1, 2, 3] | ours | 3 steps | 4 cells", "costs"),
        ("sorted('bé')", "['b', 'é'] | 2 steps | 6 cells", "costs"),
        ("sorted({'b': 1, 'a': 2})", "['a', 'b'] | 2 steps | 3 cells", "costs"),
        ("sorted([1, 'a'])", "TypeError: argument | 2 steps | 0 cells", "costs"),
        ("sorted(theirs([1]))", "[1] | ours", "costs"),
    ],
)
table(
    "COUNTED",
    "What is walked with its places.",
    [
        "enumerate([])", "enumerate(['a', 'b'])", "enumerate(('a',))", "enumerate('ab')", "enumerate({'a': 1, 'b': 2})",
        "enumerate(lent([[1]]))",
        "enumerate([None, [1]])", "a = [1]; b = a.append(a); enumerate(a)", "enumerate('äb')",
        *sorted_by_text("iterate", ["enumerate(5)", "enumerate(None)", "enumerate(True)", "enumerate(KeyError)",
        "enumerate(len)", "enumerate(thing())"]),
        *sorted_by_text("arguments", ["enumerate()", "enumerate([], 1, 2)"]),
    ],
    [
        ("enumerate([], 1)", "TypeError: arguments", "enumerate takes one argument"),
        ("enumerate([])", "[] | ours | 0 steps | 1 cells", "costs"),
        ("enumerate([7, 8])", "[(0, 7), (1, 8)] | ours | 2 steps | 9 cells", "costs"),
        ("enumerate('éb')", "[(0, 'é'), (1, 'b')] | 2 steps | 12 cells", "costs"),
        ("a = enumerate(lent([[1]])); a.pop()", "(0, [1]) | ours | 1 lent elements", "costs"),
        ("a = enumerate([[1]]); a.pop()", "(0, [1]) | ours | 0 lent elements", "costs"),
        ("enumerate(theirs([1]))", "[(0, 1)] | ours", "costs"),
        ("enumerate(5)", "TypeError: iterate | 0 steps | 0 cells", "costs"),
    ],
)
table(
    "ZIPPED",
    "What is walked side by side.",
    [
        "zip()", "zip([])", "zip([1, 2])", "zip([1, 2], [3, 4])", "zip([1, 2, 3], [4])", "zip([4], [1, 2, 3])",
        "zip([], [1])", "zip([1], [])",
        "zip('ab', [1, 2])", "zip({'a': 1}, (2,))", "zip([1, 2], 'ab', (3, 4))", "zip([1, 2, 3], 'ab', (3,))",
        "zip(lent([[1]]), [[2]])",
        "a = [1]; b = a.append(a); zip(a, a)", "zip('', 'a')", "zip([1], [2], [3], [4])",
        *sorted_by_text("iterate", ["zip(5)", "zip([1], 5)", "zip(5, [1])", "zip([], 5)", "zip(None)",
        "zip([], [], thing())", "zip('ab', True)",
            "zip(len, [])"]),
    ],
    [
        ("zip()", "[] | ours | 0 steps | 1 cells", "costs"),
        ("zip([])", "[] | ours | 0 steps | 1 cells", "costs"),
        ("zip([1, 2], [3, 4])", "[(1, 3), (2, 4)] | ours | 2 steps | 9 cells", "costs"),
        ("zip([1, 2, 3], 'ab')", "[(1, 'a'), (2, 'b')] | 2 steps | 11 cells", "costs"),
        ("zip('abc', [1])", "[('a', 1)] | 1 steps | 6 cells", "costs"),
        ("zip([1], 'abc')", "[(1, 'a')] | 1 steps | 6 cells", "costs"),
        ("zip('é', 'ab', '')", "[] | 0 steps | 1 cells", "costs"),
        ("zip('éa', 'b')", "[('é', 'b')] | 1 steps | 8 cells", "costs"),
        ("zip([1], 5)", "TypeError: iterate | 0 steps | 0 cells", "costs"),
        ("zip('ab', 5)", "TypeError: iterate | 0 steps | 0 cells", "costs"),
        ("a = zip(lent([[1]]), [[2]]); a.pop()", "([1], [2]) | ours | 1 lent elements", "costs"),
        ("steps 1; cells 1; zip('ab', 'cd')", "stop cells", "the tuple's step, then the characters' cells"),
        ("steps 1; cells 2; zip('ab', 'cd')", "stop steps", "the list and the tuples behind the walk"),
        ("steps 2; cells 12; zip('ab', 'cd')", "stop cells", "the list and the tuples as a whole"),
        ("zip('ab', 'cd')", "[('a', 'c'), ('b', 'd')] | 2 steps | 13 cells", "costs"),
    ],
)
table(
    "LIST_GROWTHS",
    "Lists grow by append, extend and insert.",
    [
        "[].append(1)", "a = []; a.append(1); a", "a = [1]; a.append([2]); a", "a = [1]; a.append(a); a",
        "a = []; a.append(lent([1])); a",
        "a = [1]; lent(a).append(2); a",
        *sorted_by_text("arguments", ["[].append()", "[].append(1, 2)", "[].extend()", "[].extend([], [])",
        "[].insert()", "[].insert(0)",
            "[].insert(0, 1, 2)"]),
        "[].extend([])", "a = [1]; a.extend([2, 3]); a", "a = [1]; a.extend((2,)); a", "a = [1]; a.extend('äb'); a",
        "a = [1]; a.extend({'a': 2, 3: 4}); a",
        "a = [1]; a.extend(a); a", "a = [1]; a.extend([]); a", "a = [1]; a.extend(''); a",
        "a = []; a.extend(lent([[1]])); a",
        "a = [1]; a.extend(lent(a)); a",
        *sorted_by_text("iterate", ["[].extend(5)", "[].extend(None)", "[1].extend(True)", "[].extend(len)",
        "[].extend(KeyError('a'))",
            "[].extend(thing())"]),
        "[].insert(0, 1)", "a = [1, 2]; a.insert(0, 9); a", "a = [1, 2]; a.insert(1, 9); a",
        "a = [1, 2]; a.insert(2, 9); a", "a = [1, 2]; a.insert(7, 9); a",
        "a = [1, 2]; a.insert(-1, 9); a", "a = [1, 2]; a.insert(-2, 9); a", "a = [1, 2]; a.insert(-3, 9); a",
        "a = [1, 2]; a.insert(-7, 9); a",
        "a = [1, 2]; a.insert(True, 9); a", "a = [1, 2]; a.insert(False, 9); a",
        "a = [1, 2]; a.insert(9223372036854775807, 9); a",
        "a = [1, 2]; a.insert(lowest, 9); a", "a = []; a.insert(-1, 9); a", "a = [1]; a.insert(0, a); a",
        *sorted_by_text("argument", ["[].insert('a', 1)", "[].insert(None, 1)", "[].insert([], 1)",
        "[1].insert((0,), 1)", "[1].insert(lent([]), 1)"]),
    ],
    [
        ("[1].append(2)", "None | rock | 0 steps | 1 cells", "costs"),
        ("[1].append('abc')", "None | 0 steps | 1 cells", "costs"),
        ("[1].append([2, 3])", "None | 0 steps | 1 cells", "costs"),
        ("[1].extend([2, 3])", "None | rock | 2 steps | 2 cells", "costs"),
        ("[1].extend([])", "None | 0 steps | 0 cells", "costs"),
        ("[1].extend('aé')", "None | 2 steps | 5 cells", "costs"),
        ("[1].extend({'a': 1})", "None | 1 steps | 1 cells", "costs"),
        ("[1, 2].insert(0, 3)", "None | rock | 0 steps | 1 cells", "costs"),
        ("[1].insert('a', 2)", "TypeError: argument | 0 steps | 0 cells", "costs"),
        ("steps 2; cells 1; [].extend([1, 2])", "stop cells", "charged as a whole behind the walk"),
        ("steps 1; cells 0; [].extend([1, 2])", "stop steps", "walked before it is charged"),
        ("a = []; a.append(lent([1])); a", "[[1]] | 1 lent elements", "costs"),
        ("a = []; a.append([1]); a", "[[1]] | 0 lent elements", "costs"),
        ("a = []; a.extend(lent([[1], 2])); a", "[[1], 2] | 1 lent elements", "costs"),
        ("a = []; a.insert(0, lent([1])); a", "[[1]] | 1 lent elements", "costs"),
    ],
)
table(
    "LIST_TAKES",
    "Elements are taken out of lists, and put in the opposite order.",
    [
        "[1, 2].pop()", "[1, 2].pop(0)", "[1, 2].pop(1)", "[1, 2].pop(-1)", "[1, 2].pop(-2)", "[1, 2].pop(True)",
        "[1, 2].pop(False)",
        "a = [1, 2, 3]; a.pop(); a", "a = [1, 2, 3]; a.pop(1); a", "a = [1, 2, 3]; a.pop(-3); a", "[[1]].pop()",
        "a = [1]; b = a.append(a); a.pop()",
        "a = [1, 2]; lent(a).pop(0); a",
        *sorted_by_text("index", ["[].pop()", "[].pop(0)", "[].pop(-1)", "[1, 2].pop(2)", "[1, 2].pop(-3)",
        "[1].pop(9223372036854775807)",
            "[1].pop(lowest)", "[1].pop(True)"]),
        *sorted_by_text("argument", ["[1].pop('a')", "[1].pop(None)", "[1].pop([])", "[].pop('a')",
        "[1].pop(lent([0]))"]),
        *sorted_by_text("arguments", ["[1].pop(0, 1)", "[1].reverse(1)", "[1].remove()", "[1].remove(1, 2)"]),
        "[].reverse()", "a = []; a.reverse(); a", "a = [1]; a.reverse(); a", "a = [1, [2], 'c']; a.reverse(); a",
        "a = [1, 2, 3, 4]; a.reverse(); a",
        "a = [1]; b = a.append(a); a.reverse(); a",
        "[1].remove(1)", "a = [1, 2, 1]; a.remove(1); a", "a = [0, 1]; a.remove(True); a",
        "a = [True, 1]; a.remove(1); a", "a = [[1], [2]]; a.remove([2]); a",
        "a = ['a', 'b']; a.remove('b'); a", "a = [None]; a.remove(None); a", "a = [lent([1])]; a.remove([1]); a",
        *sorted_by_text("value", ["[].remove(1)", "[1].remove(2)", "['a'].remove('b')", "[[1]].remove((1,))",
        "[1].remove('1')", "[None].remove(False)"]),
    ],
    [
        ("[1, 2].pop()", "2 | rock | 0 steps | 0 cells", "costs"),
        ("[1, 2].pop(2)", "IndexError: index | 0 steps | 0 cells", "costs"),
        ("['abc'].pop()", "'abc' | 0 steps | 0 cells", "costs"),
        ("[[1]].pop()", "[1] | ours | 0 steps | 0 cells", "costs"),
        ("[lent([1])].pop()", "[1] | lent", "costs"),
        ("[1, 2].reverse()", "None | rock | 0 steps | 0 cells", "costs"),
        ("[1, 2, 3].remove(1)", "None | rock | 1 steps | 0 cells", "costs"),
        ("[1, 2, 3].remove(3)", "None | 3 steps | 0 cells", "costs"),
        ("[1, 2].remove(3)", "ValueError: value | 2 steps | 0 cells", "costs"),
        ("[[1, 2], [1, 3]].remove([1, 3])", "None | 6 steps | 0 cells", "costs"),
        ("[[1], [1, 3]].remove([1, 3])", "None | 4 steps | 0 cells", "costs"),
        ("[1].pop(0, 'a')", "TypeError: arguments | 0 steps | 0 cells", "costs"),
    ],
)
table(
    "SEARCHES",
    "Elements of lists and tuples are searched for.",
    [
        "[1, 2].index(2)", "[1, 2, 1].index(1)", "[1].index(True)", "[True].index(1)", "('a', 'b').index('b')",
        "[[1], [2]].index([2])",
        "[(), []].index([])", "[{1: 2}].index({True: 2})", "[None].index(None)", "[KeyError].index(KeyError)",
        "[len].index(len)",
        "a = [1]; b = a.append(a); a.index(a)", "lent([1, 2]).index(2)", "[lent([1])].index([1])",
        "[[1]].index(lent([1]))", "(1, 2).index(2)",
        *sorted_by_text("value", ["[].index(1)", "().index(1)", "[1].index(2)", "(1,).index('1')", "[[1]].index((1,))",
        "['ab'].index('a')",
            "[None].index(0)", "[{1: 2}].index({1: 3})"]),
        *sorted_by_text("arguments", ["[1].index()", "(1,).index()", "[1].count()", "(1,).count()", "[1].count(1, 2)",
        "(1,).count(1, 2)"]),
        "[].count(1)", "().count(1)", "[1, True, 1, '1'].count(1)", "[1, 2].count(3)", "('a', 'b', 'a').count('a')",
        "[[1], [1], (1,)].count([1])",
        "[None, 0, False].count(0)", "[None, 0, False].count(None)", "lent([1, 1]).count(1)",
        "a = [1]; b = a.append(a); a.count(a)",
        "['', ''].count('')", "(lent([1]), [1]).count([1])",
    ],
    [
        ("[1].index(1, 0)", "TypeError: arguments", "index takes one argument"),
        ("(1,).index(1, 0, 1)", "TypeError: arguments", "index takes one argument"),
        ("[KeyError('a')].index(KeyError('a'))", "0", "exception values are equal by kind and text"),
        ("[KeyError('a')].count(LookupError('a'))", "0", "exception values are equal by kind and text"),
        ("[1, 2, 3].index(2)", "1 | rock | 2 steps | 0 cells", "costs"),
        ("(1, 2, 3).index(3)", "2 | rock | 3 steps | 0 cells", "costs"),
        ("[1, 2].index(3)", "ValueError: value | 2 steps | 0 cells", "costs"),
        ("[[1, 2], [3]].index([3])", "1 | 3 steps | 0 cells", "costs"),
        ("[[1, 2], [1, 3]].index([1, 3])", "1 | 6 steps | 0 cells", "costs"),
        ("[[2, 2], [1, 3]].index([1, 3])", "1 | 5 steps | 0 cells", "costs"),
        ("a = [1]; b = a.append(a); a.index(a)", "1 | 2 steps | 0 cells", "costs"),
        ("[1, 2, 1].count(1)", "2 | rock | 3 steps | 0 cells", "costs"),
        ("[[1], [1]].count([1])", "2 | 4 steps | 0 cells", "costs"),
        ("({1: [2]}, 3).count({1: [2]})", "1 | 4 steps | 0 cells", "costs"),
        ("a = [1]; b = a.append(a); c = [1]; d = c.append(c); [a].index(c)", "RecursionError: depth",
        "compared at depth 201"),
    ],
)
table(
    "NO_METHODS",
    "Methods that the receiver does not have, whatever the arguments.",
    [],
    [
        ("(1,).append(2)", "TypeError: call", "tuples have index and count"),
        ("(1,).append()", "TypeError: call", "tuples have index and count"),
        ("().pop()", "TypeError: call", "tuples have index and count"),
        ("(1,).reverse()", "TypeError: call", "tuples have index and count"),
        ("[1].keys()", "TypeError: call", "lists have no keys"),
        ("[1].copy()", "TypeError: call", "lists have no copy"),
        ("[1].join('a')", "TypeError: call", "lists have no join"),
        ("None.append(1)", "TypeError: call", "None has no methods"),
        ("True.count(1)", "TypeError: call", "a truth value has no methods"),
        ("KeyError.index(1)", "TypeError: call", "a kind has no methods"),
        ("KeyError('a').count('a')", "TypeError: call", "an exception value has no built-in methods"),
        ("len.append(1)", "TypeError: call", "a function has no methods"),
        ("thing().append(1)", "TypeError: call", "an instance has no built-in methods"),
        ("lent((1,)).append(2)", "TypeError: call", "tuples have index and count"),
        ("[1].len()", "TypeError: call", "a function is no method"),
        ("[1].print()", "TypeError: call", "a function is no method"),
        ("(1,).append(2)", "TypeError: call | 0 steps | 0 cells", "nothing is charged"),
    ],
)
table(
    "NO_METHODS_OF_DICTS_AND_TEXTS",
    "Methods that dicts and texts do not have, whatever the arguments.",
    [],
    [
        ("{}.append(1)", "TypeError: call", "dicts have no append"),
        ("{}.index(1)", "TypeError: call", "dicts have no index"),
        ("{}.count(1)", "TypeError: call", "dicts have no count"),
        ("''.append('a')", "TypeError: call", "texts have no append"),
        ("'a'.index('a')", "TypeError: call", "texts have no index"),
        ("'a'.pop()", "TypeError: call", "texts have no pop"),
    ],
)
table(
    "DICT_READS",
    "Dicts are read, and copied.",
    [
        "{}.get(1)", "{1: 2}.get(1)", "{1: 2}.get(True)", "{True: 2}.get(1)", "{'a': 1}.get('a')", "{'a': 1}.get('b')",
        "{'a': 1}.get('b', 5)",
        "{'a': 1}.get('a', 5)", "{None: 1}.get(None)", "{0: 1}.get(False)", "{'1': 1}.get(1)", "{}.get(1, [2])",
        "{1: [2]}.get(1)", "lent({1: [2]}).get(1)",
        "{'ä': 1}.get('ä')",
        *sorted_by_text("key", ["{}.get([])", "{1: 2}.get({})", "{}.get([], 1)", "{1: 2}.get(lent([]), 3)"]),
        *sorted_by_text("arguments", ["{}.get()", "{}.get(1, 2, 3)", "{}.keys(1)", "{}.values(1)", "{}.items(1)",
        "{}.copy(1)"]),
        "{}.keys()", "{'a': 1, 2: 3}.keys()", "{True: 1, None: 2}.keys()", "{}.values()", "{'a': [1], 2: 3}.values()",
        "{}.items()",
        "{'a': 1, 2: [3]}.items()", "lent({1: [2]}).values()", "lent({1: [2]}).items()",
        "a = {1: 2}; b = a.setdefault(3, a); a.values()", "a = {1: 2}; b = a.setdefault('a', a); dict(a)",
        "{}.copy()", "{'b': 1, 'a': [2]}.copy()", "a = {1: 2}; b = a.copy(); c = b.setdefault(3, 4); a",
        "lent({1: [2]}).copy()",
    ],
    [
        ("{}.get((1,))", "TypeError: key", "keys are None, numbers, truth values and texts"),
        ("{}.get(KeyError)", "TypeError: key", "keys are None, numbers, truth values and texts"),
        ("{}.get(KeyError('a'))", "TypeError: key", "keys are None, numbers, truth values and texts"),
        ("{}.get(len)", "TypeError: key", "keys are None, numbers, truth values and texts"),
        ("{}.get(thing())", "TypeError: key", "keys are None, numbers, truth values and texts"),
        ("{1: 2}.get(1)", "2 | rock | 0 steps | 0 cells", "costs"),
        ("{1: 'abc'}.get(1)", "'abc' | 0 steps | 0 cells", "costs"),
        ("{}.get(1, 'abc')", "'abc' | 0 steps | 0 cells", "costs"),
        ("{}.get([])", "TypeError: key | 0 steps | 0 cells", "costs"),
        ("{}.keys()", "[] | ours | 0 steps | 1 cells", "costs"),
        ("{'a': 1, 'b': 2}.keys()", "['a', 'b'] | ours | 0 steps | 3 cells", "costs"),
        ("{'a': 'x', 'b': 2}.values()", "['x', 2] | ours | 0 steps | 3 cells", "costs"),
        ("{}.items()", "[] | ours | 0 steps | 1 cells", "costs"),
        ("{'a': 1, 'b': 2}.items()", "[('a', 1), ('b', 2)] | ours | 0 steps | 9 cells", "costs"),
        ("{'a': 1, 'b': [2]}.copy()", "{'a': 1, 'b': [2]} | ours | 0 steps | 3 cells | 0 lent elements", "costs"),
        ("theirs({1: 2}).keys()", "[1] | theirs", "costs"),
        ("theirs({1: 2}).values()", "[2] | theirs", "costs"),
        ("theirs({1: 2}).items()", "[(1, 2)] | theirs", "costs"),
        ("theirs({1: 2}).copy()", "{1: 2} | theirs", "costs"),
    ],
)
table(
    "DICT_CHANGES",
    "Entries are taken out of dicts, and put in.",
    [
        "{1: 2}.pop(1)", "{1: 2}.pop(True)", "{'a': [1]}.pop('a')", "{1: 2}.pop(3, 4)", "{1: 2}.pop(1, 4)",
        "{}.pop(1, None)",
        "a = {1: 2, 3: 4, 5: 6}; a.pop(3); a", "a = {1: 2}; b = a.pop(1); c = a.setdefault(1, 3); a", "{}.pop(1)",
        "{'a': 1}.pop('b')", "{}.pop(None)",
        "{1: 2}.pop(False)", r"{}.pop('it\'s')", "a = {1: 2}; lent(a).pop(1); a",
        *sorted_by_text("key", ["{1: 2}.pop([])", "{1: 2}.pop({}, 1)", "{}.setdefault([])", "{}.setdefault({}, 1)"]),
        *sorted_by_text("arguments", ["{}.pop()", "{}.pop(1, 2, 3)", "{}.setdefault()", "{}.setdefault(1, 2, 3)",
        "{}.update({}, {})"]),
        "{}.setdefault(1)", "{}.setdefault(1, 2)", "{1: 2}.setdefault(1, 3)", "{1: 2}.setdefault(True, 3)",
        "a = {}; a.setdefault('a', [1]); a",
        "a = {1: 2}; a.setdefault(True, 3); a", "a = {1: 2}; a.setdefault(0, a); a",
        "a = {1: None}; a.setdefault(1, 3); a", "a = {}; a.setdefault(1); a",
        "{}.update({})", "a = {}; a.update({1: 2}); a", "a = {1: 2, 3: 4}; a.update({3: 5, 6: 7}); a",
        "a = {1: 2}; a.update({True: 3}); a",
        "a = {1: 2}; a.update(a); a", "a = {1: 2}; a.update(lent({3: [4]})); a", "a = {1: 2}; a.update(lent(a)); a",
        *sorted_by_text("argument", ["{}.update(5)", "{}.update(None)", "{}.update([1])", "{}.update(thing())",
        "{}.update(len)"]),
    ],
    [
        ("{}.update()", "TypeError: arguments", "update takes one argument"),
        ("{}.update([])", "TypeError: argument", "update takes a dict"),
        ("{}.update('')", "TypeError: argument", "update takes a dict"),
        ("{}.update('ab')", "TypeError: argument", "update takes a dict"),
        ("{}.update([(1, 2)])", "TypeError: argument", "update takes a dict"),
        ("{}.update(lent([]))", "TypeError: argument", "update takes a dict"),
        ("{}.pop((1,))", "TypeError: key", "keys are None, numbers, truth values and texts"),
        ("{}.pop([], 1)", "TypeError: key", "the key is tested also in an empty dict"),
        ("{}.setdefault((1,), 2)", "TypeError: key", "keys are None, numbers, truth values and texts"),
        ("{1: 2}.pop(1)", "2 | rock | 0 steps | 0 cells", "costs"),
        ("{}.pop('a')", "KeyError: 'a' | 0 steps | 0 cells", "costs"),
        ("{1: 2}.setdefault(1, 3)", "2 | rock | 0 steps | 0 cells", "costs"),
        ("{1: 2}.setdefault(2, 'abc')", "'abc' | 0 steps | 1 cells", "costs"),
        ("{1: 2}.update({3: 4, 5: 6})", "None | rock | 0 steps | 2 cells", "costs"),
        ("{1: 2}.update({1: 4, 5: 6})", "None | 0 steps | 1 cells", "costs"),
        ("{1: 2}.update({True: 4})", "None | 0 steps | 0 cells", "costs"),
        ("a = {1: 2}; a.update(lent({3: [4]})); a", "{1: 2, 3: [4]} | 1 lent elements", "costs"),
        ("a = {}; a.setdefault(1, lent([2])); a", "{1: [2]} | 1 lent elements", "costs"),
    ],
)
table(
    "TEXT_JOINS",
    "Texts are joined, split and stripped.",
    [
        "', '.join([])", "', '.join(['a'])", "', '.join(['a', 'b'])", "''.join(['a', 'b', 'c'])", "'-'.join('abc')",
        "'-'.join(('a', 'b'))",
        "'-'.join({'a': 1, 'b': 2})", "'-'.join(['', ''])", "'é'.join(['ä', 'ö'])", "''.join('')",
        "'-'.join(lent(['a', 'b']))",
        *sorted_by_text("argument", ["''.join([1])", "''.join(['a', 1])", "''.join([None])", "''.join([['a']])",
        "''.join({1: 'a'})", "''.join([KeyError])"]),
        *sorted_by_text("iterate", ["''.join(5)", "''.join(None)", "''.join(True)", "''.join(thing())"]),
        *sorted_by_text("arguments", ["''.join()", "''.join([], [])", "''.split('a', 1, 2)"]),
        "''.split()", "' '.split()", "'a'.split()", "'a b'.split()", r"' a\t b\n\r '.split()",
        r"'a\u2003b\u3000c\x85d'.split()", r"len('a\u200bb'.split())",
        "'a,b'.split(',')", "',a,,b,'.split(',')", "''.split(',')", "'abc'.split('abc')", "'a'.split('ab')",
        "'aXXbXX'.split('XX')", "'aaa'.split('aa')",
        "'äöä'.split('ö')", "'a b'.split(' ')", "'  '.split(' ')",
        *sorted_by_text("empty", ["'a'.split('')", "''.split('')"]),
        *sorted_by_text("argument", ["'a'.split(5)", "'a'.split([])", "'a'.split(True)", "'a'.split(lent([]))"]),
        "''.strip()", "' '.strip()", "' a '.strip()", "'a b'.strip()",
        r"'\t\n\r\x0b\x0c a \u2003\u3000\x85\xa0'.strip()", r"len('\u200ba'.strip())", "'äb'.strip()",
    ],
    [
        ("'a'.split(None)", "TypeError: argument", "split takes a text"),
        ("'a b'.split(' ', 1)", "TypeError: arguments", "split takes no count"),
        ("'a'.strip('a')", "TypeError: arguments", "strip takes no argument"),
        (r"'\x1ca\x1f'.strip()", r"'\x1ca\x1f'", "blanks have the property White_Space"),
        (r"'a\x1cb'.split()", r"['a\x1cb']", "blanks have the property White_Space"),
        ("','.join(['a', 'b'])", "'a,b' | rock | 2 steps | 3 cells", "costs"),
        ("','.join([])", "'' | 0 steps | 0 cells", "costs"),
        ("'é'.join(['a', 'b', 'c'])", "'aébéc' | 3 steps | 7 cells", "costs"),
        ("''.join('aé')", "'aé' | 2 steps | 6 cells", "costs"),
        ("''.join(['a', 1, 'b'])", "TypeError: argument | 3 steps | 0 cells", "costs"),
        ("''.join(5)", "TypeError: iterate | 0 steps | 0 cells", "costs"),
        ("''.split()", "[] | ours | 0 steps | 1 cells", "costs"),
        ("'ab c'.split()", "['ab', 'c'] | ours | 0 steps | 6 cells", "costs"),
        ("'é,,b'.split(',')", "['é', '', 'b'] | 0 steps | 7 cells", "costs"),
        ("' é '.strip()", "'é' | rock | 0 steps | 2 cells", "costs"),
        ("'a'.strip()", "'a' | 0 steps | 1 cells", "costs"),
    ],
)
table(
    "TEXT_SEARCHES",
    "Parts of texts are searched for, counted and replaced.",
    [
        "'abc'.startswith('ab')", "'abc'.startswith('b')", "'abc'.startswith('')", "''.startswith('')",
        "''.startswith('a')", "'äb'.startswith('ä')",
        "'abc'.startswith('abcd')", "'abc'.endswith('bc')", "'abc'.endswith('b')", "'abc'.endswith('')",
        "''.endswith('')", "'bä'.endswith('ä')",
        "'c'.endswith('bc')", "'abc'.find('b')", "'abc'.find('bc')", "'abc'.find('d')", "'abc'.find('')", "''.find('')",
        "''.find('a')", "'äb'.find('b')",
        "'😀é'.find('é')", "'aab'.find('ab')", "'abab'.find('ab')", "'banana'.count('an')", "'aaa'.count('aa')",
        "'abc'.count('d')", "''.count('a')",
        "'äbä'.count('ä')", "'abc'.count('abc')", "'aXa'.replace('a', 'bb')", "'aaa'.replace('aa', 'b')",
        "'abc'.replace('d', 'x')", "'abc'.replace('b', '')",
        "''.replace('a', 'b')", "'äbä'.replace('ä', 'é')", "'ab'.replace('ab', 'ab')", "'123'.isdigit()",
        "''.isdigit()", "'1a'.isdigit()", "'-1'.isdigit()",
        "' 1'.isdigit()", "'0'.isdigit()", "'ä'.isdigit()",
        *sorted_by_text("argument", ["'a'.startswith(5)", "'a'.startswith(None)", "'a'.startswith(['a'])",
        "'a'.endswith(5)", "'a'.endswith(lent(['a']))",
            "'a'.find(5)", "'a'.find(None)", "'a'.find(['a'])", "'a'.count(5)", "'a'.count(None)",
            "'a'.replace(1, 'a')", "'a'.replace('a', 1)",
            "'a'.replace('', None)", "'a'.replace(None, None)"]),
        *sorted_by_text("arguments", ["'a'.startswith()", "'a'.endswith()", "'a'.find()", "'a'.count()",
        "'a'.replace()", "'a'.replace('a')",
            "'1'.isdigit(1)", "'a'.replace('a', 'b', 1, 2)"]),
    ],
    [
        ("'a'.startswith(('a', 'b'))", "TypeError: argument", "startswith takes a text"),
        ("'a'.endswith(('a', 'b'))", "TypeError: argument", "endswith takes a text"),
        ("'a'.startswith('a', 0)", "TypeError: arguments", "startswith takes one argument"),
        ("'a'.endswith('a', 0)", "TypeError: arguments", "endswith takes one argument"),
        ("'a'.find('a', 0)", "TypeError: arguments", "find takes one argument"),
        ("'a'.count('a', 0)", "TypeError: arguments", "count takes one argument"),
        ("'aa'.replace('a', 'b', 1)", "TypeError: arguments", "replace takes two arguments"),
        ("'a'.count('')", "ValueError: empty", "an empty part"),
        ("''.count('')", "ValueError: empty", "an empty part"),
        ("'a'.replace('', 'b')", "ValueError: empty", "an empty part"),
        ("''.replace('', 'b')", "ValueError: empty", "an empty part"),
        ("'²'.isdigit()", "False", "ASCII digits"),
        ("'٣'.isdigit()", "False", "ASCII digits"),
        ("'abc'.startswith('ab')", "True | rock | 0 steps | 0 cells", "costs"),
        ("'abc'.endswith('c')", "True | 0 steps | 0 cells", "costs"),
        ("'abc'.find('c')", "2 | rock | 0 steps | 0 cells", "costs"),
        ("'abc'.count('c')", "1 | 0 steps | 0 cells", "costs"),
        ("'12'.isdigit()", "True | 0 steps | 0 cells", "costs"),
        ("'aXa'.replace('a', 'éé')", "'ééXéé' | rock | 0 steps | 9 cells", "costs"),
        ("'abc'.replace('d', 'x')", "'abc' | 0 steps | 3 cells", "costs"),
        ("'a'.replace('a', '')", "'' | 0 steps | 0 cells", "costs"),
    ],
)

# The need of each function and method, and the counts of arguments at which it has one.
NEEDS = {
    "len": ("len", [1]), "bool": ("bool", [1]), "str": ("str", [1]), "print": ("str", [1, 2, 3]), "min": ("iter", [1]),
    "max": ("iter", [1]),
    "dict": ("items", [1]), "update": ("items", [1]), "zip": ("iter", [1, 2, 3]),
    **{word: ("iter", [1]) for word in "sum sorted list tuple enumerate extend join".split()},
    **{word: ("", []) for word in "int abs range getattr setattr removeSecurityProxy append insert pop remove".split()},
    **{word: ("", []) for word in "index count reverse get keys values items setdefault copy split strip".split()},
    **{word: ("", []) for word in "startswith endswith find replace isdigit".split()},
}


def need_row(need, counts):
    """The needs of the arguments 0 to 3 at each count of arguments from 0 to 3, counts without any left out."""
    rows = [f"{count}: " + " ".join([need] * count + ["-"] * (4 - count)) for count in counts]
    return ", ".join(rows) or "nothing"


table(
    "NEEDS",
    "What is decided on each argument.",
    [],
    [(word, need_row(*NEEDS[word]), "the table of decisions") for word in NEEDS],
)


def main(words):
    if words[:1] == ["--check"]:
        return 0 if check(words[1:]) else 1
    for name in words or TABLES:
        show_table(name)
    return 0


if __name__ == "__main__":
    sys.exit(main(sys.argv[1:]))
