"""Writes scripts of edits that change faces in one way each, for the program or for any other that reads the same language.

    face_scripts.py SHAPE SIZE [unclosed | opened | dropped]

The shape comes by insertions (and, of `islands`, cuts). `unclosed` leaves the last line out; `dropped` adds lines that drop each curve
again, in the order of insertion, but of `islands` the one that closed the boundary first; `opened` adds the first of these. Shapes, of
which SIZE is a number:

    comb      teeth that stand on one segment: one boundary cycle, which grows with each
    ladder    squares side by side that share sides, from left to right: each rung splits off a face
    squares   squares side by side that are apart, in the unbounded face
    nested    squares one inside the other, from the outermost: each is the hole of the one before
    star      segments from one point, in a mixed order
    islands   small squares in three sides of a boundary, which is closed last; to have more than fit in the 2,000 curves of a layer they are made
              by long segments whose parts between the squares are cut
    crossing  segments in a square 2,000 wide, most pairs of which cross
"""
import random
import sys


def segment(*ends):
    return 'segment %d %d %d %d' % ends


def square(low_x, low_y, high_x, high_y):
    corners = [(low_x, low_y), (high_x, low_y), (high_x, high_y), (low_x, high_y)]
    return [segment(*p, *q) for p, q in zip(corners, corners[1:] + corners[:1])]


def comb(size):
    return [segment(0, 0, 10 * size, 0)] + [segment(x, 0, x, 10) for x in range(5, 10 * size, 10)]


def ladder(size):
    rails = [segment(0, y, 10 * size, y) for y in (0, 10)]
    return rails + [segment(x, 0, x, 10) for x in range(0, 10 * size + 1, 10)]


def squares(size):
    return [side for k in range(size) for side in square(20 * k, 0, 20 * k + 10, 10)]


def nested(size):
    return [side for k in range(size, 0, -1) for side in square(-10 * k, -10 * k, 10 * k, 10 * k)]


def star(size):
    # Ends on the sides of a square, in as many directions as there are segments.
    ends = []
    for k in range(size):
        side, along = divmod(8_000 * k // size, 2_000)
        x, y = along - 1_000, -1_000
        for _ in range(side):
            x, y = -y, x
        ends.append((x, y))
    random.Random(size).shuffle(ends)
    return [segment(0, 0, *end) for end in ends]


def islands(size):
    across = 30
    rows = -(-size // across)
    right, top = 20 * across, 20 * rows
    lines = [segment(-10, -10, right, -10), segment(right, -10, right, top), segment(right, top, -10, top)]
    flat = [20 * k + more for k in range(rows) for more in (0, 10)]
    steep = [20 * k + more for k in range(across) for more in (0, 10)]
    lines += [segment(0, y, right - 10, y) for y in flat] + [segment(x, 0, x, top - 10) for x in steep]
    lines += ['cut %d %d 1 %d %d 1' % (x + 10, y, x + 20, y) for y in flat for x in range(0, right - 20, 20)]
    lines += ['cut %d %d 1 %d %d 1' % (x, y + 10, x, y + 20) for x in steep for y in range(0, top - 20, 20)]
    return lines + [segment(-10, top, -10, -10)]


def crossing(size):
    draw, lines = random.Random(size), []
    while len(lines) < size:
        ends = [draw.randint(-1000, 1000) for _ in range(4)]
        if ends[:2] != ends[2:]:
            lines.append(segment(*ends))
    return lines


SHAPES = {shape.__name__: shape for shape in (comb, ladder, squares, nested, star, islands, crossing)}


def script(shape, size, what):
    lines = SHAPES[shape](size)
    numbers = list(range(1, 1 + sum(line.startswith('segment') for line in lines)))
    if shape == 'islands':
        numbers = numbers[-1:] + numbers[:-1]
    drops = ['drop %d' % number for number in numbers]
    return {'unclosed': lines[:-1], 'whole': lines, 'opened': lines + drops[:1], 'dropped': lines + drops}[what]


if __name__ == '__main__':
    shape, size, *what = sys.argv[1:]
    print('\n'.join(script(shape, int(size), *(what or ['whole']))))
