#!/usr/bin/env python3
"""Prints every function and type of crates/*/src that goes into itself, and so takes stack by what it is given.

    bench/recursion.py            a line for each
    bench/recursion.py --check    compares them with bench/recursion.txt, which says what bounds each; status 1 where
                                  one stands in the one and not in the other

The checker asks for a mark `#[cycle(NAME)]` on each function and type of a cycle of several, and refuses the mark
elsewhere. So a cycle is told by its crate, its NAME and how many bear it. What goes into itself alone bears no mark.
Such a function is told where it calls its own name, by itself or on `self`, `Self` or its type, or where its proof has
a folder `+NAME`, as the proof of what calls itself has; a type, where it names itself. Cycles over several crates, by
a trait's method or by a function that is handed over, are not looked for.
"""
import collections
import re
import sys
from pathlib import Path

TOP = Path(__file__).resolve().parent.parent
LIST = TOP / "bench" / "recursion.txt"
MARK = re.compile(r"#\[cycle\((\w+)\)\]")
NOISE = re.compile(r'//.*|"(?:\\.|[^"\\])*"')


def items_of(lines):
    """The functions and types of a file: kind, name, the type of whose impl it is, whether it is marked, what is within."""
    owner = ""
    for at, line in enumerate(lines):
        impl = re.match(r"^impl(?:<.*?>)? (?:.* for )?(\w+)", line)
        owner = impl.group(1) if impl else "" if line == "}" else owner
        item = re.match(r"^( *)(?:pub(?:\(crate\))? )?(?:const )?(fn|struct|enum) (\w+)", line)
        if item and not line.endswith(";"):
            indent, kind, name = item.groups()
            end = next((n for n in range(at, len(lines)) if lines[n].startswith(indent + "}")), at)
            begin = at + 1
            if kind == "fn":
                begin = next((n for n in range(at, end) if lines[n] == indent + "{"), end)
            marked = any(MARK.search(lines[n]) for n in range(max(0, at - 4), at) if lines[n].lstrip().startswith("#"))
            text = "\n".join(NOISE.sub("", inner) for inner in lines[begin:end])
            yield kind, name, owner if indent else "", marked, text


def names_itself(kind, name, owner, text):
    if kind != "fn":
        return re.search(rf"\b{name}\b", text)
    before = rf"\b(?:self\.|Self::|{owner}::)" if owner else r"(?<![\w.:])"
    return re.search(rf"{before}{name}\(", text)


def found_in(crate):
    """A line of the list for each cycle of a crate, and for each that goes into itself alone."""
    marks, alone = collections.Counter(), set()
    for path in sorted((crate / "src").glob("**/*.rt")):
        lines = path.read_text().split("\n")
        marks.update(MARK.findall("\n".join(lines)))
        for kind, name, owner, marked, text in items_of(lines):
            if not marked and names_itself(kind, name, owner, text):
                alone.add(f"{crate.name} {name}")
    for folder in (crate / "proofs").glob("**/+*"):
        if folder.name[1:] not in marks:
            alone.add(f"{crate.name} {folder.name[1:]}")
    return {f"{crate.name} cycle {mark} of {count}" for mark, count in marks.items()} | alone


def main():
    found = set().union(*(found_in(crate) for crate in (TOP / "crates").iterdir() if (crate / "src").is_dir()))
    if sys.argv[1:] != ["--check"]:
        print("\n".join(sorted(found)))
        return 0
    lines = [line for line in LIST.read_text().split("\n") if line and not line.startswith("#")]
    told = {line.split(": ")[0] for line in lines}
    for line in sorted(found - told):
        print(f"not in bench/recursion.txt: {line}")
    for line in sorted(told - found):
        print(f"in bench/recursion.txt, and not found: {line}")
    print(f"{len(found & told)} of {len(found | told)} are found, and have a bound")
    return int(found != told)


sys.exit(main())
