#!/usr/bin/env python3
"""Prints the definitions that the contract of the top call reaches: each file, its lines, and how many of them are reached.

    bench/definitions.py            the files, in the order in which they are reached
    bench/definitions.py --names    the same, with the names of the definitions
    bench/definitions.py --check    fails where the first two parts of docs/DEFINITIONS.md do not name a file that is reached, or name
                                    one that is not

It begins at the header of `rp_run::run` and follows names: those of definitions (`crates/*/specs/*.antt`) over the `use` lines of their
modules, those of the code's types and traits (`crates/*/src/*.rt`) over `use` and `ghost use`. The field of a record is not followed, since the
record's own name stands where it is used. A name that a definition binds itself and that is also another's counts as the other's, so a little too
much may be reached. What stands in std and in the libraries of others is left out, and told as a number.
"""
import re
import sys
from functools import lru_cache
from pathlib import Path

TOP = Path(__file__).resolve().parent.parent
CRATES = TOP / "crates"
PAGE = TOP / "docs" / "DEFINITIONS.md"
THIRD = "\n# What other public calls cite\n"
START = (CRATES / "rp_run" / "src" / "program.rt", "run")
WORD = re.compile(r"[^\W\d][\w'-]*(?:\.[^\W\d][\w'-]*)*")
USE = re.compile(r"^\s*(?:pub )?(?:ghost )?use (Rattle\.[\w.-]+?)(?:\.\{([^}]*)\}| as ([\w'-]+)|);?\s*$")
RUST_USE = re.compile(r"^\s*(?:pub )?use ([\w:]+?)(?:::\{([^}]*)\})?;\s*$")
HEAD = re.compile(r"^(?:abbrev|pub|data|record|mutual|opaque|unfoldable)\b")
NAMED = re.compile(r"^\s*(?:abbrev |unfoldable |opaque )*pub (?:data |record )?([^\W\d][\w'-]*)")
CONSTRUCTOR = re.compile(r"^\s+(?:pub )?([^\W\d][\w'-]*) :")
BLOCK = re.compile(r"^module _ (.*) where$")
RECORD = re.compile(r"^(?:pub )?record ")
ITEM = re.compile(r"^(?:pub(?:\(crate\))? )?(?:struct|enum|trait|fn|const) (\w+)")


class Chunk:
    """A definition, or a group of those that speak of one another: where it stands, its text, and what it names."""

    def __init__(self, path, names, lines, uses, parameters=""):
        self.path, self.names, self.lines, self.uses = path, names, lines, uses
        self.words = set(WORD.findall("\n".join([parameters] + [line.split("--")[0].split("//")[0] for line in lines])))


def imported(entry):
    """The name in the other module and the name here of one entry of a `use` list."""
    there, _, here = entry.strip().partition(" as ")
    return there.strip(), (here or there).strip()


def uses_of(lines):
    """The names that `use Rattle..` lines bring in: here -> (module, name there, or None for the module itself)."""
    found = {}
    for line in lines:
        match = USE.match(line)
        if not match:
            continue
        module, listed, alias = match.groups()
        if listed is not None:
            for entry in filter(None, (e.strip() for e in listed.split(","))):
                there, here = imported(entry)
                found[here] = (module, there)
        else:
            found[alias or module.rsplit(".", 1)[1]] = (module, None)
    return found


def rust_uses(path, lines):
    """The names that `use` lines of the code bring in, where they are those of a crate of ours: here -> (file, name)."""
    found = {}
    for line in lines:
        match = RUST_USE.match(line)
        if not match:
            continue
        steps, listed = match.group(1).split("::"), match.group(2)
        names = [imported(e) for e in listed.split(",") if e.strip()] if listed is not None else [(steps[-1], steps[-1])]
        steps = steps if listed is not None else steps[:-1]
        for there, here in names:
            at = rust_item(path, steps, there)
            if at:
                found[here] = at
    return found


def rust_item(path, steps, name):
    """Where the code's item of this path stands."""
    if not steps:
        return None
    source = next(p for p in path.parents if p.name == "src") if steps[0] == "crate" else CRATES / steps[0] / "src"
    if not source.is_dir():
        return None
    file = source.joinpath(*steps[1:]).with_suffix(".rt") if len(steps) > 1 else source / "lib.rt"
    if file.name != "lib.rt":
        return (file, name) if file.is_file() else None
    return rust_uses(file, re.sub(r"pub use (\w+)::", r"pub use crate::\1::", file.read_text()).split("\n")).get(name)


def flattened(lines):
    """Each line with the parameters of the block `module _ PARAMETERS where` in which it stands, moved to the left there."""
    parameters = ""
    for line in lines:
        match = BLOCK.match(line)
        if match:
            parameters = match.group(1)
        elif parameters and (line.startswith("  ") or not line.strip()):
            yield line[2:], parameters
        else:
            parameters = ""
            yield line, parameters


@lru_cache(maxsize=None)
def antt(path):
    """The chunks of a module of definitions by name, and the names that it brings in."""
    lines = path.read_text().split("\n")
    uses, by_name, open_chunk, front, around = uses_of(lines), {}, None, [], ""

    def close():
        if open_chunk:
            kept = [line for line in open_chunk if line.strip()]
            found = [m.group(1) for line in kept for m in [NAMED.match(line) or CONSTRUCTOR.match(line)] if m]
            names = set(found[:1] if any(RECORD.match(line) for line in kept) else found)
            chunk = Chunk(path, names, kept, uses, around)
            by_name.update({name: chunk for name in names})

    for line, parameters in flattened(lines):
        if HEAD.match(line) and not USE.match(line):
            close()
            open_chunk, front, around = front + [line], [], parameters
        elif line.startswith("--") or USE.match(line) or not line.strip():
            front = front + [line] if line.startswith("--") else [] if USE.match(line) else front
            if open_chunk and not line.strip():
                open_chunk.append(line)
        elif open_chunk is not None:
            open_chunk, front = open_chunk + front + [line], []
    close()
    return by_name, uses


@lru_cache(maxsize=None)
def handed_on(path, name):
    """A name that a module has from another one and hands on: its `pub use` line, which says nothing more."""
    return Chunk(path, {name}, [f"-- {name}"], {})


@lru_cache(maxsize=None)
def rust(path):
    """The types, traits and headers of a file of the code by name, and the names that it brings in."""
    lines = path.read_text().split("\n")
    uses, others, by_name = uses_of(lines), rust_uses(path, lines), {}
    for at, line in enumerate(lines):
        match = ITEM.match(line)
        if match:
            text = header(lines, at) if re.match(r"(pub )?fn ", line) else block(lines, at)
            text += [l for i, other in enumerate(lines) if re.match(rf"impl.* Model for {match.group(1)}\b", other) for l in block(lines, i)]
            chunk = Chunk(path, {match.group(1)}, text, {**uses, **uses_of(text)})
            chunk.others = others
            by_name[match.group(1)] = chunk
    return by_name, uses


def block(lines, at):
    """The lines of an item, up to the one that closes it."""
    if lines[at].rstrip().endswith(";"):
        return [lines[at]]
    end = next(i for i in range(at, len(lines)) if lines[i].startswith("}"))
    return lines[at : end + 1]


def header(lines, at):
    """The lines of a function's header, its contract included."""
    end = next(i for i in range(at, len(lines)) if lines[i].startswith("{") or lines[i].endswith("{"))
    return lines[at : end + 1]


class Walk:
    def __init__(self):
        self.reached, self.order, self.outside = set(), [], set()

    def module(self, module, name):
        """Reaches a name of a module, and what its definition names."""
        parts = module.split(".")
        crate = CRATES / parts[1]
        if not crate.is_dir():
            self.outside.add(module)
            return
        if parts[3] in ("declared", "contracts"):
            self.declared(crate, parts[4:], name)
            return
        path = crate.joinpath(*parts[2:]).with_suffix(".antt")
        by_name, uses = antt(path)
        if name in by_name:
            self.chunk(by_name[name])
        elif name in uses:
            self.chunk(handed_on(path, name))
            self.module(uses[name][0], uses[name][1] or name)

    def declared(self, crate, parts, name):
        """Reaches a type of the code: `declared`, the path of its file, and its own name."""
        for cut in range(len(parts), 0, -1):
            path = crate.joinpath("src", *parts[:cut]).with_suffix(".rt")
            if path.is_file():
                by_name, _ = rust(path)
                for word in parts[cut:] + [name]:
                    if word in by_name:
                        self.chunk(by_name[word])
                return

    def chunk(self, chunk):
        if chunk in self.reached:
            return
        self.reached.add(chunk)
        self.order.append(chunk)
        by_name, _ = (antt if chunk.path.suffix == ".antt" else rust)(chunk.path)
        for word in sorted(chunk.words):
            self.word(chunk, by_name, word.split("."))

    def word(self, chunk, by_name, steps):
        first = steps[0]
        if first in chunk.uses:
            module, there = chunk.uses[first]
            if there is not None:
                self.module(module, there)
            elif len(steps) > 1:
                self.module(module, steps[1])
            elif ".declared." in module:
                self.module(module, module.rsplit(".", 1)[1])
        elif first in by_name:
            self.chunk(by_name[first])
        elif first in getattr(chunk, "others", {}):
            path, name = chunk.others[first]
            found, _ = rust(path)
            if name in found:
                self.chunk(found[name])


def walk():
    sys.setrecursionlimit(100000)
    path, name = START
    found = Walk()
    found.chunk(rust(path)[0][name])
    return found


def files_of(found):
    """Each file that is reached, in order: its crate, folder and stem, its lines, those reached, and the names."""
    files = {}
    for chunk in found.order:
        files.setdefault(chunk.path, []).append(chunk)
    return {path: (len(path.read_text().splitlines()), sum(len(c.lines) for c in chunks), sorted(set().union(*(c.names for c in chunks))))
            for path, chunks in files.items()}


def name_of(path):
    """`rp_run/specs/Told`, as the page names it."""
    return str(path.relative_to(CRATES).with_suffix(""))


def named_on_page():
    """The files that the page's first two parts name: `crate/specs/Name`, and behind it in the same paragraph `Name` alone."""
    found = set()
    for paragraph in re.split(r"\n\s*\n|\n- ", PAGE.read_text().split(THIRD)[0]):
        folder = None
        for word in re.findall(r"`([^`]+)`", paragraph):
            match = re.fullmatch(r"(\w+/(?:specs|src))/(\w+)", word)
            if match:
                folder = match.group(1)
                found.add(word)
            elif folder and re.fullmatch(r"\w+", word):
                found.add(f"{folder}/{word}")
    return found


def is_file(name):
    """Whether it is a file of definitions or of the code, as the page names it, and not only a word that stands there."""
    return (CRATES / f"{name}.antt").is_file() or (CRATES / f"{name}.rt").is_file()


def check(files):
    """Compares the files that are reached with those that the page names."""
    named, reached = named_on_page(), {name_of(path) for path in files}
    missing, more = sorted(reached - named), sorted(filter(is_file, named - reached))
    for name in missing:
        print(f"{PAGE.relative_to(TOP)} does not name {name}")
    for name in more:
        print(f"{PAGE.relative_to(TOP)} names {name}, which is not reached")
    print(f"{len(reached)} files are reached, {len(missing)} of them are not named; {len(more)} more are named")
    return 1 if missing or more else 0


def main(words):
    found = walk()
    files = files_of(found)
    if words == ["--check"]:
        return check(files)
    if words not in ([], ["--names"]):
        print(__doc__)
        return 2
    print("lines reached  file")
    for path, (lines, reached, names) in files.items():
        print(f"{lines:5} {reached:7}  {name_of(path)}{path.suffix}")
        if words:
            print("               " + ", ".join(names))
    sums = [sum(f[i] for p, f in files.items() if p.suffix == kind) for kind in (".antt", ".rt") for i in (0, 1)]
    print(f"definitions: {sums[1]} lines of {sums[0]}; types, traits and the header of run: {sums[3]} lines of {sums[2]};")
    libraries = sorted({module.split(".")[1] for module in found.outside})
    print(f"{len(found.outside)} modules of libraries are cited beside these: {', '.join(libraries)}")
    return 0


sys.exit(main(sys.argv[1:]))
