"""Asks CPython for the table of the test of slices in rp_tests_values.

For each text and step it prints the FNV-1a hash, of 32 bits, of the slices between each two bounds, with a point
behind each. Run it as `python3 bench/slice_cases.py`.
"""

TEXTS = ["", "a", "ab", "abc", "abcd"]
STEPS = [-3, -2, -1, 1, 2, 3]
BOUNDS = [*range(-6, 7), None]


def slices(text, step):
    """The slices between each two bounds."""
    return [text[first:last:step] for first in BOUNDS for last in BOUNDS]


def fnv(data):
    """The FNV-1a hash of bytes."""
    hash = 2166136261
    for byte in data:
        hash = (hash ^ byte) * 16777619 % 2**32
    return hash


for text in TEXTS:
    hashes = [fnv("".join(part + "." for part in slices(text, step)).encode()) for step in STEPS]
    print(f'        ("{text}", {hashes}),')
