#!/usr/bin/env python3
"""Segments of twelve kinds of maps, for search_graphs.sh: search_graphs.py KIND. A layer takes 2,000 segments."""
import random
import sys


def made(count):
    x, lines = 1, []

    def draw():
        nonlocal x
        x = (1103515245 * x + 12345) % 2 ** 31
        return x // 65536
    for _ in range(count):
        a, b, c, d = draw(), draw(), draw(), draw()
        u, v = a - 16384, b - 16384
        lines.append((u, v, u + c % 2048 - 1024, v + d % 2048 - 1024))
    return lines


def dense(count):
    draw, lines = random.Random(count), []
    while len(lines) < count:
        ends = [draw.randint(-10000, 10000) for _ in range(4)]
        if ends[:2] != ends[2:]:
            lines.append(tuple(ends))
    return lines


def chords(count):
    """From one side of a square to another."""
    draw, lines = random.Random(count), []

    def at(side):
        t = draw.randint(-9999, 9999)
        return ((t, -10000), (10000, t), (t, 10000), (-10000, t))[side]
    for _ in range(count):
        one = draw.randrange(4)
        lines.append(at(one) + at((one + draw.randint(1, 3)) % 4))
    return lines


def grid(count):
    end = 10 * (count - 1)
    return [line for k in range(count) for line in ((0, 10 * k, end, 10 * k), (10 * k, 0, 10 * k, end))]


def nested(count):
    return [line for k in range(4, 4 * count + 4, 4) for line in (
        (-k, -k, k, -k), (k, -k, k, k), (k, k, -k, k), (-k, k, -k, -k))]


def comb(teeth):
    """Triangles side by side on one segment."""
    return [(0, 0, 4 * teeth, 0)] + [line for x in range(0, 4 * teeth, 4) for line in (
        (x, 0, x + 2, 1000), (x + 2, 1000, x + 4, 0))]


def stacked(count):
    """One over the other, each longer than the one below."""
    return [(-k - 1, k, k + 1, k) for k in range(count)]


def fan(count):
    return [(0, 0, 100000, 60 * k) for k in range(count)]


def posts(count):
    """Long ones over short vertical ones."""
    return [line for k in range(count) for line in ((k, 2 * k, 20000 - k, 2 * k), (15 * k + 2, -10, 15 * k + 2, -5))]


KINDS = {'made400': (made, 400), 'made2000': (made, 2000), 'dense100': (dense, 100), 'dense200': (dense, 200),
         'chords100': (chords, 100), 'chords200': (chords, 200), 'grid40': (grid, 40), 'nested500': (nested, 500),
         'comb999': (comb, 999), 'stacked2000': (stacked, 2000), 'fan1500': (fan, 1500), 'posts1000': (posts, 1000)}

if __name__ == '__main__':
    if len(sys.argv) == 1:
        print(' '.join(KINDS))
    else:
        make, size = KINDS[sys.argv[1]]
        for ends in make(size):
            print('segment %d %d %d %d' % ends)
