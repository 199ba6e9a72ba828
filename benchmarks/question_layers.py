"""Writes the edits of a layer of which questions are asked, for the program or for any other that reads the same language.

    question_layers.py SHAPE

Shapes, N being a number:

    madeN     N segments at most 1,024 wide and high in a plane 32,768 wide, which hardly cross, every eighth followed by a drop, as
              `planar --make N` has them
    keptN     the same without the drops
    denseN    N segments in a square 2,000 wide, most pairs of which cross
    gridN     N lines each way
"""
import random
import re
import sys


def made(count, drops=True):
    x, lines = 1, []

    def draw():
        nonlocal x
        x = (1103515245 * x + 12345) % 2 ** 31
        return x // 65536

    for k in range(1, count + 1):
        a, b, c, d = draw(), draw(), draw(), draw()
        u, v = a - 16384, b - 16384
        lines.append(f'segment {u} {v} {u + c % 2048 - 1024} {v + d % 2048 - 1024}')
        if drops and k % 8 == 0:
            lines.append(f'drop {k // 2}')
    return lines


def kept(count):
    return made(count, False)


def dense(count):
    draw, lines = random.Random(count), []
    while len(lines) < count:
        ends = [draw.randint(-1000, 1000) for _ in range(4)]
        if ends[:2] != ends[2:]:
            lines.append('segment %d %d %d %d' % tuple(ends))
    return lines


def grid(count):
    end = 10 * (count - 1)
    return [f'segment {10 * k} 0 {10 * k} {end}' for k in range(count)] + [f'segment 0 {10 * k} {end} {10 * k}' for k in range(count)]


SHAPES = {shape.__name__: shape for shape in (made, kept, dense, grid)}


def layer(name):
    shape, count = re.fullmatch('([a-z]+)([0-9]+)', name).groups()
    return SHAPES[shape](int(count))


if __name__ == '__main__':
    print('\n'.join(layer(sys.argv[1])))
