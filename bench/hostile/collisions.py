"""Identifiers that all had one hash under the fixed hasher that the tables of names and of keys once had.

That hasher (`FoldHasher` of the kit's core, which indexmap takes where it is given no other) reads sixteen bytes at a time as two
words, a and b, and its next state is the low half of (a ^ state) * (b ^ MULTIPLIER) xored with the high half. The product is
the same where the factors change places, so two blocks of sixteen characters lead to one state: a, b and b ^ d, a ^ d, with
d = state ^ MULTIPLIER. Fourteen such pairs in a row, behind a first block, fit into an identifier of 255 bytes: 16,384 identifiers of one hash.

Run as `python3 bench/hostile/collisions.py script FILE` or `.. plain-script FILE`, `.. keys FILE`, `.. plain-keys FILE`: it
writes 16,000 statements `NAME = 1`, which is near the greatest file that is read, all of one hash, or 40,000 names one a line, in
four families of one hash each, or as many plain ones of the same length.
"""

import random
import sys

MULTIPLIER = 0x9E37_79B9_7F4A_7C15
INITIAL = 0x243F_6A88_85A3_08D3
WORD = 2**64 - 1
LENGTH = 255
BLOCKS = 15
LETTERS = b"ABCDEFGHIJKLMNOPQRSTUVWXYZabcdefghijklmnopqrstuvwxyz0123456789_"
STATEMENTS = 16_000
KEYS = 40_000


def folded(a, b):
    product = a * b
    return (product & WORD) ^ (product >> 64)


def word(data):
    return int.from_bytes(data, "little")


def hash_of(name):
    """The state of the hasher behind the bytes of a name of more than eight bytes."""
    state = (INITIAL + len(name)) & WORD
    at = 0
    while len(name) - at > 16:
        state = folded(word(name[at : at + 8]) ^ state, word(name[at + 8 : at + 16]) ^ MULTIPLIER)
        at += 16
    return folded(word(name[-16:-8]) ^ state, word(name[-8:]) ^ MULTIPLIER)


def partners(difference):
    """For each byte of the difference the letters that are letters again under it, None where one has none."""
    found = [[x for x in LETTERS if x ^ d in LETTERS] for d in difference.to_bytes(8, "little")]
    return found if all(found) else None


def swapped(block, difference):
    first, second = word(block[:8]), word(block[8:])
    return (second ^ difference).to_bytes(8, "little") + (first ^ difference).to_bytes(8, "little")


def pair(random_source, state, is_last):
    """Two blocks that lead to one state, from which the next pair can be found."""
    difference = state ^ MULTIPLIER
    letters = partners(difference)
    while True:
        block = bytearray(random_source.choice(letters[i % 8]) for i in range(16))
        if is_last:
            # The last byte is read again behind the blocks: it is the same in both.
            block[15] = block[7] ^ difference.to_bytes(8, "little")[7]
        other = swapped(block, difference)
        after = folded(word(block[:8]) ^ state, word(block[8:]) ^ MULTIPLIER)
        if other != block and (is_last or partners(after ^ MULTIPLIER)):
            return bytes(block), other, after


def first_block(random_source, state):
    """A block behind which a pair can be found."""
    while True:
        block = bytes(random_source.choice(LETTERS[:52]) for _ in range(16))
        after = folded(word(block[:8]) ^ state, word(block[8:]) ^ MULTIPLIER)
        if partners(after ^ MULTIPLIER):
            return block, after


def family(seed, count):
    """So many identifiers of one hash, for at most 2 ** 14."""
    source = random.Random(seed)
    front, state = first_block(source, INITIAL + LENGTH)
    choices = []
    for n in range(BLOCKS - 1):
        one, other, state = pair(source, state, n == BLOCKS - 2)
        choices.append((one, other))
    names = []
    for number in range(count):
        blocks = [choices[n][number >> n & 1] for n in range(BLOCKS - 1)]
        names.append(front + b"".join(blocks) + b"z" * (LENGTH - 16 * BLOCKS))
    assert len({hash_of(name) for name in names}) == 1 and len(set(names)) == count
    assert all(name.decode().isidentifier() for name in names)
    return [name.decode() for name in names]


def colliding(count, families):
    """The names, in families each of one hash."""
    names = []
    for seed in range(families):
        names += family(seed, count // families)
    return names


def plain(count):
    source = random.Random(1)
    return ["n" + "".join(source.choices(LETTERS.decode(), k=LENGTH - 1)) for _ in range(count)]


if __name__ == "__main__":
    what, file = sys.argv[1:]
    is_script = what.endswith("script")
    count, families = (STATEMENTS, 1) if is_script else (KEYS, 4)
    names = plain(count) if what.startswith("plain") else colliding(count, families)
    with open(file, "w", encoding="ascii") as out:
        for name in names:
            print(f"{name} = 1" if is_script else name, file=out)
