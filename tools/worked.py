#!/usr/bin/env python3
"""worked.py: what crates/worked must write, computed with big integers from document 01, on a copy of the program's operands.

    tools/worked.py > crates/worked/stdout

Nothing here is read from the Rattle code: an answer is 01's formula, and a refusal 01's number under 01's condition.
"""

W32 = 2**32
W64 = 2**64
M = W32 - 1
H = 2**31
LAST = W64 - 1
TOP = 2**63

PAIRS = [
    (0, 0), (0, 1), (1, 0), (1, 1), (0, 2), (1, 2), (2, 1), (3, 2),
    (7, 2), (8, 2), (7, 0), (6, 7), (7, 7), (8, 7), (100, 255), (255, 255),
    (256, 255), (65535, 65537), (65536, 65536), (65537, 65537), (H, 2), (H - 1, H), (H, H), (H + 1, H),
    (M - 1, 1), (M - 1, 2), (M, 0), (M, 1), (M, 2), (M, H), (M, M), (1, M),
]

WIDE = [
    (0, 0), (1, 0), (LAST, 0), (0, 1), (1, 1), (0, 2), (7, 2), (8, 2),
    (9, 2), (M, 1), (W32, 1), (W32 + 1, 1), (W32, 2), (2 * W32 - 2, 2), (2 * W32 - 1, 2), (2 * W32, 2),
    (2 * W32 + 1, 2), (2**48 - 65536, 65536), (2**48 - 65535, 65536), (2**48 + 1, 65536),
    (LAST - 1, 1), (LAST, 1), (LAST - 2, 2), (LAST - 1, 2),
    (0, LAST), (1, LAST), (LAST, LAST), (TOP - 1, TOP), (TOP, TOP - 1), (TOP, TOP),
    (W64 - W32 - 1, W32), (W64 - W32, W32),
]

SHIFTS = [
    (0, 0), (1, 0), (M, 0), (0, 1), (1, 1), (2, 1), (3, 1), (M, 1),
    (7, 3), (8, 3), (9, 3), (65535, 16), (65536, 16), (65537, 16), (0, 31), (H - 1, 31),
    (H, 31), (H + 1, 31), (M, 31), (0, 32), (1, 32), (H, 32), (M, 32), (0, 33),
    (M, 33), (0, 63), (1, 63), (M, 63), (0, 64), (M, 64), (1, 65), (7, M),
]

SPANS = [
    (0, 0, 0), (5, 5, 0), (5, 5, 4), (16, 16, 4), (M, M, 31), (6, 5, 4), (40, 5, 4), (M, 0, 15),
    (0, 1, 0), (3, 10, 0), (M - 1, M, 0), (0, M, 0),
    (0, 15, 4), (0, 16, 4), (0, 17, 4), (15, 16, 4), (15, 17, 4), (16, 32, 4), (16, 33, 4), (5, 40, 4),
    (0, 32768, 15), (0, 32769, 15), (32767, 32769, 15), (0, M, 15), (32767, M, 15),
    (W32 - 32768, M, 15), (W32 - 32769, M, 15),
    (1, 2, 31), (H - 1, H, 31), (H - 1, H + 1, 31), (0, M, 31),
    (0, 1, 32), (5, 5, 32), (6, 5, 33), (0, 1, 64), (0, M, M),
]

# image, grid origin, tile size, tiles across and down; then the tile numbers
TILES = [
    ((0, 0, 100, 80), (0, 0), (32, 32), (4, 3), [0, 1, 3, 4, 11, 12, 13, M]),
    ((10, 20, 100, 80), (4, 8), (32, 24), (3, 3), [0, 1, 3, 8, 9]),
    ((3, 5, 1000, 700), (1, 2), (300, 100), (4, 7), [5, 26, 27, 28]),
    ((50, 0, 100, 80), (0, 0), (32, 32), (4, 3), [0]),
    ((0, 0, 90, 80), (0, 0), (32, 32), (4, 3), [3]),
    ((0, 0, 100, 80), (7, 9), (0, 0), (4, 3), [6]),
    ((0, 0, M, M), (0, 0), (M, M), (1, 1), [0]),
    ((1, 1, M, M), (1, 1), (M, M), (1, 1), [0]),
    ((0, 0, M, M), (W32 - 32, W32 - 256), (32, 512), (1, 1), [0]),
    ((0, 0, M - 1, M), (H, H), (H - 1, H), (1, 1), [0]),
    ((0, 0, M, M), (H, H), (2**30, 2**30), (4, 4), [1, 2, 15]),
    ((9, 0, M, M), (5, 7), (H + 1, 3), (4, 1), [2]),
    ((0, 0, M, M), (M, 7), (M, M), (2, 3), [5]),
    ((0, 0, 100, 80), (0, 0), (1, 1), (65536, 65536), [0]),
    ((0, 0, 65536, 80), (0, 0), (1, 1), (65537, 65536), [65535, 65536]),
    ((0, 0, 100, 80), (0, 0), (32, 32), (H + 1, 2), [1, 2]),
    ((0, 0, 100, 80), (0, 0), (32, 32), (2, H + 1), [1]),
    ((0, 0, 100, 80), (0, 0), (32, 32), (M, M), [0, 1]),
    ((0, 0, 100, 80), (0, 0), (32, 32), (0, 3), [0]),
    ((0, 0, 100, 80), (0, 0), (32, 32), (4, 0), [0]),
    ((0, 0, 100, 80), (0, 0), (32, 32), (0, 0), [M]),
]

REFUSED = "refused -22"


def ceil(a, b):
    return -(-a // b)


# Modules, 1, with -22 of 'Numbers that come back'. The Rust shifts in 32 bits for the floor, in 64 for the ceiling.
def ceildiv(a, b):
    return REFUSED if b == 0 else ceil(a, b)


def ceildiv64(a, b):
    return REFUSED if b == 0 or a + b > LAST else ceil(a, b) % W32


def floordivpow2(a, b):
    return REFUSED if b >= 32 else a // 2**b


def ceildivpow2(a, b):
    return REFUSED if b >= 64 else ceil(a, 2**b)


# Geometry: ceil(r1/2^pd) - floor(r0/2^pd), or 0 where there is no sample; the floor's shift decides the refusal.
def precincts(r0, r1, pd):
    if pd >= 32:
        return REFUSED
    return 0 if r1 <= r0 else ceil(r1, 2**pd) - r0 // 2**pd


# Ranges and orders: columns count from floor(r0/2^pd), on an empty axis too. No number reaches 2^64.
def columns(r0, r1, pd):
    size = 2**min(pd, 64)
    return words((r0 // size, 0 if r1 <= r0 else ceil(r1, size) - r0 // size))


# Tile bounds, one axis: from the raised start to the smaller end; sum and product wrap, the end's sum saturates.
def side(i0, i1, origin, p, size):
    start = (origin + p * size) % W32
    return max(start, i0), min(i1, min(start + size, M))


def tile(image, origin, size, tiles, n):
    if not n < tiles[0] * tiles[1] % W32:
        return "refused -10"
    p, q = n % tiles[0], n // tiles[0]
    x = side(image[0], image[2], origin[0], p, size[0])
    y = side(image[1], image[3], origin[1], q, size[1])
    return words((x[0], y[0], x[1], y[1]))


def words(ns):
    return " ".join(str(n) for n in ns)


def lines():
    for a, b in PAIRS:
        yield "uint_min", (a, b), min(a, b)
        yield "uint_max", (a, b), max(a, b)
        yield "uint_adds", (a, b), min(a + b, M)
        yield "wrapping_mul", (a, b), a * b % W32
        yield "uint_ceildiv", (a, b), ceildiv(a, b)
        yield "component_bound", (a, b), ceildiv(a, b)
    for a, b in WIDE:
        yield "uint64_ceildiv_res_uint32", (a, b), ceildiv64(a, b)
    for a, b in SHIFTS:
        yield "uint_floordivpow2", (a, b), floordivpow2(a, b)
        yield "uint_ceildivpow2", (a, b), ceildivpow2(a, b)
        yield "resolution_bound", (a, b), ceildivpow2(a, b)
    for r0, r1, pd in SPANS:
        yield "precincts", (r0, r1, pd), precincts(r0, r1, pd)
        yield "columns", (r0, r1, pd), columns(r0, r1, pd)
    for image, origin, size, tiles, numbers in TILES:
        for n in numbers:
            given = (*image, "of", *origin, *size, "by", *tiles, "at", n)
            yield "tile_bounds", given, tile(image, origin, size, tiles, n)


for name, given, answer in lines():
    print(name, words(given), "=", answer)
