"""Writes declaration files that once cost more than their size: `policy.py chain|roles|wide|plain PATH [PARTS]`.

chain: classes, each like the next, as many as fit into the longest file (167,769), the last one like none.
plain: the same classes, like none.
roles: 1,000 groups, each with the same 20 roles of the same 1,000 permissions, and one principal who is in all groups.
wide: the same with as many roles as fit into the longest file (448), of which the groups take 20 each in turn.
PARTS: fewer classes, or groups, for a try.
"""

import bisect
import itertools
import string
import sys

LONGEST_FILE = 4_194_304
HEAD = 'version = {}\nexpose = []\npermissions = [{}]\n'
PRINCIPAL = "[principal.bob]\n"


def class_names():
    return ("".join(letters) for letters in itertools.product(string.ascii_uppercase, repeat=4))


def listed(ids):
    return ", ".join(f'"{each}"' for each in ids)


def classes(parts, is_chain):
    """Both kinds have as many classes: those of the chain that fit."""
    head = HEAD.format(1, '"p.0"') + PRINCIPAL
    longest = len('[class.AAAA]\nlike="AAAA"\n')
    count = min(parts, (LONGEST_FILE - len(head)) // longest)
    names = list(itertools.islice(class_names(), count))
    ends = [f'like="{name}"\n' if is_chain else "" for name in names[1:]] + [""]
    return head + "".join(f"[class.{name}]\n{end}" for name, end in zip(names, ends))


def roles(parts, count):
    """The groups take the roles in turn, each 20 of them."""
    permissions = [f"p.{i}" for i in range(1_000)]
    groups = [f"g{i}" for i in range(parts)]
    named = [f"r{i}" for i in range(count)]
    taken = itertools.cycle(named)
    lines = [HEAD.format(2, listed(permissions)).rstrip(), PRINCIPAL.rstrip(), f"groups = [{listed(groups)}]"]
    lines += [f"[role.{role}]\npermissions = [{listed(permissions)}]" for role in named]
    lines += [f"[group.{group}]\nroles = [{listed(itertools.islice(taken, 20))}]" for group in groups]
    return "\n".join(lines) + "\n"


def most_roles(parts):
    """How many roles fit into the longest file."""
    return bisect.bisect_right(range(1_000), LONGEST_FILE, key=lambda count: len(roles(parts, count + 1)))


def made(kind, parts):
    groups = min(parts, 1_000)
    if kind == "roles":
        return roles(groups, 20)
    if kind == "wide":
        return roles(groups, most_roles(groups))
    return classes(parts, kind == "chain")


def main():
    kind, path, *parts = sys.argv[1:]
    text = made(kind, int(parts[0]) if parts else LONGEST_FILE)
    assert len(text) <= LONGEST_FILE
    with open(path, "w", encoding="ascii", newline="\n") as file:
        file.write(text)


main()
