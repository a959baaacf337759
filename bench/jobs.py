"""The cases that are timed, as lines of tests/README.md. A job is a name, its cases, and whether the naive search can finish
it."""

import random
from collections import namedtuple

Job = namedtuple("Job", "name cases naive")

ROOM = 896
ROWS = 128
TARGETS = 16

# Climbed to from random lists, one or two constants changed at a time, by the bytes scanned and the pairs tried: most of its
# constants stay beyond for most of its turns, so that nearly every scan runs to the end of the maps.
HARDEST = [
    17767, 26229, 18811, 42113, 24025, 19239, 21191, 60595, 48419, 30565, 18547, 18841, 22347, 7931, 44051, 19411,
]


def case(*parts):
    return " ".join(map(str, parts))


def generate(b, targets):
    return case("generate", b, ROOM, *targets)


def distance(b, target, ready):
    return case("distance", b, target, *ready)


def row(rng, b, values):
    """A valid row on top of these values, drawn until one is valid."""
    while True:
        u, v, s = rng.randrange(len(values)), rng.randrange(len(values)), rng.randrange(2)
        l1, l2 = rng.choice([(0, rng.randrange(b + 2)), (rng.randrange(b + 2), 0)])
        n = abs((values[u] << l1) + (-1) ** s * (values[v] << l2))
        r = (n & -n).bit_length() - 1
        if n and n >> r < 2 << b:
            return [u, v, l1, l2, s, r, n >> r]


def graph(rng, b):
    """b, as many targets as a list may have and as many rows as a graph, as check takes them. The targets come from
    anywhere in the rows."""
    values, words = [1], []
    while len(values) <= ROWS:
        words += row(rng, b, values)
        values.append(words[-1])
    odds = [v for v in values if 1 < v < 1 << b]
    targets = [rng.choice([1, -1]) * rng.choice(odds) << rng.randrange(32 - b) for _ in range(TARGETS)]
    return [b, TARGETS, *targets, ROWS, *words]


def nonzero_digits(n):
    """Of the canonic form: the bits in which n and 3n differ."""
    return bin(n ^ 3 * n).count("1")


def nine_digits(rng, lists):
    """No constant below 2^16 has more digits, so step C writes the most rows for these."""
    most = [c for c in range(3, 1 << 16, 2) if nonzero_digits(c) == 9]
    return [generate(16, rng.sample(most, 16)) for _ in range(lists)]


def random_lists(rng, b, size, lists):
    return [generate(b, rng.sample(range(3, 1 << b, 2), size)) for _ in range(lists)]


def beyond(rng, b, size, lists):
    """Of multiples of 3 every operation makes a multiple of 3 again, so any other target is beyond: both maps are
    filled, and scanned to their ends."""
    cases = []
    for _ in range(lists):
        target = rng.choice([c for c in range(1, 1 << b, 2) if c % 3])
        cases.append(distance(b, target, rng.sample(range(3, 2 << b, 6), size)))
    return cases


def near(rng, b, size, lists):
    """Most targets are one operation away from a long list."""
    return [distance(b, rng.randrange(3, 1 << b, 2), rng.sample(range(3, 2 << b, 2), size)) for _ in range(lists)]


def jobs():
    rng = random.Random(1)
    yield Job("generate, b 16, the hardest list found", [generate(16, HARDEST)], False)
    yield Job("generate, b 16, 16 constants of nine digits", nine_digits(rng, 32), False)
    for b in (16, 12, 8):
        for size in (16, 4, 1):
            name = f"generate, b {b}, {size} odd constant{'s' if size > 1 else ''}"
            yield Job(name, random_lists(rng, b, size, 32), size == 1 or b == 8 or (b, size) == (12, 4))
    yield Job("distance, b 16, 129 ready, beyond", beyond(rng, 16, 129, 16), False)
    yield Job("distance, b 16, 129 ready, any", near(rng, 16, 129, 16), False)
    yield Job("distance, b 16, 4 ready, beyond", beyond(rng, 16, 4, 4), True)
    yield Job("distance, b 8, 8 ready, beyond", beyond(rng, 8, 8, 16), True)
    graphs = [graph(rng, 16) for _ in range(16)]
    name = f"b 16, {ROWS} rows, {TARGETS} targets"
    yield Job(f"check, {name}", [case("check", *g) for g in graphs], False)
    yield Job(f"products, {name}", [case("products", -12345678, TARGETS, *g) for g in graphs], False)
    yield Job(f"widths, {name}", [case("widths", 24, ROWS + TARGETS, *g) for g in graphs], False)
    yield Job(f"ranking, {name}", [case("ranking", 24, ROWS, *g) for g in graphs], False)
