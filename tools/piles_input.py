#!/usr/bin/env python3
"""Writes the test input of the program `piles` (docs/PILES.md) to standard output.

The same lines come every time. `python3 tools/piles_input.py > crates/piles/stdin`
"""
import random
import sys

LIMIT = 4048            # a bank's most cells, and where windows end at the latest
ROOM = 8                # the cells that a hold-back holds
TOP = 2**64 - 1         # the largest number of the language
KINDS = range(7)
HOLDING = [2, 4, 5, 3, 6]
WINDOWED = [1, 3, 4, 6]
LENGTHS = [0, 1, 2, 8, 9, 40, 4047, 4048, 4049, 5000]
FAR = [4047, 4048, 65535, 2**63, TOP]
VALUES = [0, 1, 65535]

rng = random.Random(4048)
lines = []


def say(*fields):
    lines.append(" ".join(str(field) for field in fields).encode())


def windowed(cells, first, length):
    return min(length, max(0, cells - first))


def pile(kind, length, lower=(0, LIMIT), upper=(0, LIMIT)):
    """Asks for a pile, and gives its size: 0 where it is refused."""
    say("p", kind, length, *lower, *upper)
    size = length if length <= LIMIT else 0
    needed = ([lower] if kind in WINDOWED else []) + ([upper] if kind == 6 else [])
    for first, count in needed:
        size = windowed(size, first, count) if first + count <= LIMIT else 0
    return size


def value():
    return rng.choice(VALUES + [rng.randrange(65536)] * 5)


def edges(size):
    """The size, and reads and writes at every edge of it."""
    say("n")
    for cell in sorted({0, max(size - 1, 0), size, size + 1, *FAR}):
        say("r", cell)
        say("w", cell, value())
    say("r", max(size - 1, 0))


def fill(size, settles):
    """Eight different cells, some of them again, a ninth, and reads in between."""
    cells = rng.sample(range(size), min(size, ROOM + 4))
    for cell in cells[:ROOM]:
        say("w", cell, value())
    say("h")
    for cell in rng.sample(cells[:ROOM], min(len(cells), 3)):
        say("w", cell, value())
        say("r", cell)
    say("h")
    for cell in cells[ROOM:]:
        say("w", cell, value())
        say("r", cell)
        say("r", cells[0])
        say("h")
    if settles:
        say("s")
        say("h")
        say("w", cells[-1], value())
        say("w", cells[0], value())
        say("h")


def some(size, count):
    """Random actions, on few cells, so that many meet a held one."""
    near = [rng.randrange(max(size, 1)) for _ in range(11)]
    for _ in range(count):
        cell = rng.choice(near) if rng.random() < 0.8 else rng.choice([size, size + 1, *FAR])
        letter = rng.choice("wwwwwwwwrrrrrrnhhs")
        fields = {"r": [cell], "w": [cell, value()]}.get(letter, [])
        say(letter, *fields)


def malformed():
    """Lines that are no action: they leave the pile as it is."""
    lines.extend([
        b"", b" ", b"x", b"N", b"nn", b"n ", b" n", b"n 1", b"n\r", b"n\t", b"r", b"r ", b"r  1", b" r 1",
        b"r 1 ", b"r 1 2", b"r one", b"r -1", b"r +1", b"r 1.0", b"r 0x1", b"r\t1", b"rr 1", b"R 1", b"r1",
        b"r 18446744073709551616", b"r 99999999999999999999", b"r 000000000000000000001", b"r 1\r",
        b"w", b"w 1", b"w  1 2", b"w 1  2", b"w 1 2 3", b"w 1 65536", b"w 1 18446744073709551615", b"w 1 -2",
        b"w 1,2", b"w 18446744073709551616 1", b"h 1", b"s 1", b"e 1", b"h ", b"s ", b"e ", b"held", b"settle",
        b"p", b"p 1", b"p 1 8 0 8 0", b"p 1 8 0 8 0 8 0", b"p 7 8 0 8 0 8", b"p 18446744073709551615 8 0 8 0 8",
        b"p 0 5001 0 0 0 0", b"p 0 18446744073709551615 0 0 0 0", b"p 0 8 0 0 0 18446744073709551616",
        b"p  0 8 0 0 0 0", b"p 0 8 0 0 0 0 ", b"p 0 8 a 0 0 0", b"q 0 8 0 0 0 0", "é".encode(),
        "r é".encode(), "r １".encode(), b"r \xff", b"\xff", b"# a remark",
    ])


def none_stands():
    for line in [("n",), ("r", 0), ("w", 0, 1), ("h",), ("s",), ("e",), ("r", TOP)]:
        say(*line)


def rows():
    """Every kind on every length of row, its windows within the limit."""
    for kind in KINDS:
        for length in LENGTHS:
            lower = rng.choice([(0, LIMIT), (1, 3), (length // 2, 9)])
            lower = (min(lower[0], LIMIT), min(lower[1], LIMIT - min(lower[0], LIMIT)))
            size = pile(kind, length, lower, rng.choice([(0, 40), (1, 8)]))
            if size:
                edges(size)
            else:
                say("n")
                say("r", 0)
                say("e")


def windows():
    """Windows at and beyond every edge, on rows shorter than, as long as and longer than they reach."""
    frames = [
        (LIMIT, 0), (LIMIT, 1), (0, LIMIT), (0, LIMIT + 1), (1, LIMIT - 1), (1, LIMIT), (LIMIT - 1, 1),
        (LIMIT - 1, 2), (LIMIT + 1, 0), (0, 0), (5, 0), (39, 1), (39, 2), (40, 1), (41, 5), (30, 20),
        (TOP, 0), (TOP, 1), (1, TOP), (TOP, TOP), (2**63, 2**63), (0, TOP),
    ]
    for i, frame in enumerate(frames):
        for kind, length in [(WINDOWED[i % 3], 40), (WINDOWED[(i + 1) % 3], LIMIT)]:
            size = pile(kind, length, frame, (TOP, TOP))
            say("n")
            say("w", 0, value())
            say("r", max(size - 1, 0))
            say("w", size, value())
        pile(6, 40, (2, 30), frame)
        say("n")
        say("w", 0, value())
        say("r", 0)
    for kind in [0, 2, 5]:                      # a window that the kind does not need is ignored
        pile(kind, 9, (TOP, TOP), (TOP, TOP))
        say("n")
    pile(6, 0, (TOP, 1), (TOP, 1))              # the row's length is judged first
    pile(1, 4049, (TOP, 1))
    say("e")


def held():
    """Runs that fill the hold-backs of every kind that has one."""
    for kind in HOLDING:
        for length, settles in [(8, True), (9, False), (40, True)]:
            size = pile(kind, length, (1, 30), (1, 20)) if length > 9 else pile(kind, length)
            fill(size, settles)
            fill(size, not settles)
            say("e")
    say("e")


def random_piles():
    for i in range(36):
        kind = rng.choice(KINDS)
        length = rng.choice([rng.randrange(1, 60), rng.randrange(1, 20), rng.choice(LENGTHS)])
        frames = [(rng.randrange(6), rng.randrange(1, 40)) for _ in range(2)]
        size = pile(kind, length, *frames)
        some(size, rng.randrange(10, 40))
        if i % 3:
            say("e")
        if i % 10 == 0:
            none_stands()


none_stands()
malformed()
rows()
windows()
held()
random_piles()
pile(5, 40)
some(40, 25)
malformed()
say("h")
fill(40, False)
sys.stdout.buffer.write(b"\n".join(lines))      # the last line has no line feed
