#!/usr/bin/env python3
"""Writes the constant tables of study_board.

    tools/release/tables.py tables   prints src/attack_tables.rt
    tools/release/tables.py rays     prints src/ray_tables.rt

A set of squares is a 64-bit number, bit x for the square x. Run `rt fmt` in the crate afterwards."""
import sys


def file(s):
    return s % 8


def rank(s):
    return s // 8


def files(a, x):
    return abs(file(a) - file(x))


def ranks(a, x):
    return abs(rank(a) - rank(x))


def mask(squares):
    return sum(1 << x for x in squares)


# Right, right and up, up, left and up, left, left and down, down, right and down.
STEPS = [(1, 0), (1, 1), (0, 1), (-1, 1), (-1, 0), (-1, -1), (0, -1), (1, -1)]


def ray(direction, a):
    f, r = file(a), rank(a)
    squares = []
    while True:
        f, r = f + STEPS[direction][0], r + STEPS[direction][1]
        if not (0 <= f < 8 and 0 <= r < 8):
            return squares
        squares.append(8 * r + f)


def direction(a, y):
    return next((d for d in range(8) if y in ray(d, a)), 8)


ONE_SQUARE = [
    ("The squares a king step away.", "KING", lambda a, x: files(a, x) <= 1 and ranks(a, x) <= 1),
    ("The squares a knight's jump away.", "KNIGHT", lambda a, x: {files(a, x), ranks(a, x)} == {1, 2}),
    ("The other squares on its file or its rank.", "ROOK", lambda a, x: files(a, x) == 0 or ranks(a, x) == 0),
    ("The other squares on its diagonals.", "BISHOP", lambda a, x: files(a, x) == ranks(a, x)),
    ("The squares on which a white pawn captures.", "WHITE_PAWN", lambda a, x: files(a, x) == 1 and rank(x) == rank(a) + 1),
    ("The squares on which a black pawn captures.", "BLACK_PAWN", lambda a, x: files(a, x) == 1 and rank(x) + 1 == rank(a)),
]


def print_tables():
    print("//! Sets of squares as bits, the bit x for the square x. Written by tools/release/tables.py.\n")
    for doc, name, test in ONE_SQUARE:
        print(f"/// {doc}\npub(crate) static {name}: [u64; 64] = [")
        for a in range(64):
            print(f"    {mask(x for x in range(64) if x != a and test(a, x)):#018x},")
        print("];\n")
    print("/// The direction in which a square lies from another: 0 to 7, or 8 if they are the same square or share no line.")
    print("pub(crate) static DIRECTION: [[u8; 64]; 64] = [")
    for a in range(64):
        print("    [" + ", ".join(str(direction(a, y)) for y in range(64)) + "],")
    print("];")


def print_rays():
    print("//! The squares in each direction from each square, the bit x for the square x. Written by tools/release/tables.py.\n")
    print("/// The directions are right, right and up, up, left and up, left, left and down, down, right and down; in a ninth\n/// there is no square.")
    print("pub(crate) static RAY: [[u64; 64]; 9] = [")
    for d in range(9):
        print("    [")
        for a in range(64):
            print(f"        {mask(ray(d, a)) if d < 8 else 0:#018x},")
        print("    ],")
    print("];")


if sys.argv[1:] == ["tables"]:
    print_tables()
elif sys.argv[1:] == ["rays"]:
    print_rays()
else:
    sys.exit(__doc__)
