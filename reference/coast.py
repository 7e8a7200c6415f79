#!/usr/bin/env python3
"""A second implementation of the coast, written from docs/ alone and sharing no code with the crates.

The expected values in crates/acceptance, crates/drift and crates/world_drift come from here:

    reference/coast.py raw SEED X Y W H         the window as `sheet` should print it
    reference/coast.py heights SEED X Y W H     the same for the noise smoothed twice
    reference/coast.py sites SEED X Y W H       the same for the settlements of those heights
    reference/coast.py roads SEED X Y W H       the same for the roads between those settlements
    reference/coast.py drift N                  what `drift` should print for N windows
    reference/coast.py world_drift N            what `world_drift` should print for N windows of heights
"""
import functools
import sys

MASK = 2**64 - 1
RIM = 10**9
BLANK = 65535


def splitmix64(seed):
    """The generator itself, one output after another."""
    state = seed
    while True:
        state = (state + 0x9E3779B97F4A7C15) & MASK
        z = state
        z = ((z ^ (z >> 30)) * 0xBF58476D1CE4E5B9) & MASK
        z = ((z ^ (z >> 27)) * 0x94D049BB133111EB) & MASK
        yield z ^ (z >> 31)


def output(seed, k):
    """Output number k: the first one of a generator whose state has gone k steps."""
    return next(splitmix64((seed + k * 0x9E3779B97F4A7C15) & MASK))


def noise(seed, x, y):
    """The formula of the noise, at any cell."""
    return output(seed, (y % 2**32) * 2**32 + x % 2**32) // 2**52


def raw(seed, x, y):
    """The noise as a field. None is a blank, here and below."""
    return None if max(abs(x), abs(y)) > RIM else noise(seed, x, y)


def smoothed(height):
    """The field that averages a field with its eight neighbours, by weights that add up to 16."""

    # Neighbours share most of what they ask, so the answers are kept. That cannot change them.
    @functools.cache
    def average(x, y):
        total = 0
        for dy in (-1, 0, 1):
            for dx in (-1, 0, 1):
                part = height(x + dx, y + dy)
                if part is None:
                    return None
                total += part * (2 - abs(dx)) * (2 - abs(dy))
        return total // 16

    return average


def heights(seed):
    return smoothed(smoothed(lambda x, y: raw(seed, x, y)))


def kept(field):
    """The same field, with its answers kept. That cannot change them."""
    return functools.cache(field)


def square(height, x, y, radius):
    """The cells around a cell with their heights, or None where one of them is blank."""
    cells = {}
    for dy in range(-radius, radius + 1):
        for dx in range(-radius, radius + 1):
            cells[dx, dy] = height(x + dx, y + dy)
            if cells[dx, dy] is None:
                return None
    return cells


def sites(seed):
    height = heights(seed)

    @kept
    def settlement(x, y):
        cells = square(height, x, y, 2)
        if cells is None:
            return None
        # By height, and among equals the earlier one in reading order.
        best = max(cells, key=lambda cell: (cells[cell], -cell[1], -cell[0]))
        return int(best == (0, 0))

    return settlement


def distance(a, b):
    return max(abs(a[0] - b[0]), abs(a[1] - b[1]))


def path(a, b):
    """From a along its row to the column of b, then along that column to b."""
    (ax, ay), (bx, by) = a, b
    along = {(x, ay) for x in range(min(ax, bx), max(ax, bx) + 1)}
    return along | {(bx, y) for y in range(min(ay, by), max(ay, by) + 1)}


def roads(seed):
    settlement = sites(seed)

    @kept
    def road(x, y):
        cells = square(settlement, x, y, 11)
        if cells is None:
            return None
        towns = sorted((cell for cell in cells if cells[cell] != 0), key=lambda cell: (cell[1], cell[0]))
        for i, a in enumerate(towns):
            for b in towns[i + 1:]:
                d = distance(a, b)
                alone = all(distance(c, a) >= d or distance(c, b) >= d for c in towns)
                if d <= 6 and alone and (0, 0) in path(a, b):
                    return 1
        return 0

    return road


def window(height, x, y, w, h):
    """The rows of a window, and the chunks that it touches."""
    rows = [[height(x + i, y + j) for i in range(w)] for j in range(h)]
    chunks = {((x + i) // 8, (y + j) // 8) for i in range(w) for j in range(h)}
    return rows, len(chunks)


def draw(height, x, y, w, h):
    rows, fills = window(height, x, y, w, h)
    for row in rows:
        if None in row:
            print("refused 6")
            return
        print(*row)
    print("fills", fills)


def drift(n):
    """The answers of n windows of seed 1, each 40 cells east and 7 south of the one before, as one number."""
    cells, checksum = 0, 0
    for i in range(n):
        # Anew for each window, so that nothing is carried over.
        rows, _ = window(heights(1), i * 40 - 1000, i * 7 - 1000, 57, 57)
        for answer in sum(rows, []):
            cells += 1
            checksum = (checksum * 31 + (BLANK if answer is None else answer)) & MASK
    print("cells", cells)
    print("checksum", checksum)


def world_drift(n):
    """The heights of n windows of seed 1, each 3 cells east and 1 south of the one before, as one number, and the fills of one world."""
    cells, checksum, fills, slots = 0, 0, 0, {}
    for i in range(n):
        x, y = i * 3 - 1000, i - 1000
        # Anew for each window, so that nothing is carried over but the addresses in the slots.
        rows, _ = window(heights(1), x, y, 57, 57)
        for b, row in enumerate(rows):
            for a, height in enumerate(row):
                cells += 1
                checksum = (checksum * 31 + height) & MASK
                chunk = (x + a) // 8, (y + b) // 8
                slot = 8 * (chunk[1] % 8) + chunk[0] % 8
                if slots.get(slot) != chunk:
                    slots[slot] = chunk
                    fills += 1
    print("cells", cells)
    print("checksum", checksum)
    print("fills", fills)


def main():
    kind, *numbers = sys.argv[1:]
    numbers = [int(number) for number in numbers]
    if kind in ("drift", "world_drift"):
        {"drift": drift, "world_drift": world_drift}[kind](*numbers)
        return
    seed, *place = numbers
    kinds = {"raw": lambda x, y: raw(seed, x, y), "heights": heights(seed), "sites": sites(seed), "roads": roads(seed)}
    draw(kinds[kind], *place)


if __name__ == "__main__":
    main()
