"""Writes scripts of random pairs of layers, a file for each, with `overlay` at the end.

    overlay_pairs.py FOLDER COUNT SEED

Both layers of a pair are drawn in one small square, with shared vertices, segments that overlap ones of the other layer, pins in the other
layer's faces, on its edges and on its vertices, squares one inside the other; one in ten has a layer of nothing, or one far away.
"""
import random
import sys


def square(x, y, half):
    corners = [(x - half, y - half), (x + half, y - half), (x + half, y + half), (x - half, y + half)]
    return list(zip(corners, corners[1:] + corners[:1]))


def segments_of(dice, size):
    def point():
        return dice.randrange(size), dice.randrange(size)

    kind = dice.randrange(4)
    if kind == 0:
        x, y = point()
        return [part for half in range(1, dice.randrange(2, 6)) for part in square(x, y, half)]
    if kind == 1:
        corners = [point() for _ in range(3)]
        return list(zip(corners, corners[1:] + corners[:1]))
    return [(point(), point()) for _ in range(dice.randrange(1, 6))]


def layer_of(dice, size, other):
    segments = [part for _ in range(dice.randrange(1, 5)) for part in segments_of(dice, size)]
    # Some of the other layer's, whole, or longer along the same line.
    for (a, b), (c, d) in dice.sample(other, min(len(other), dice.randrange(4))):
        segments.append(((a, b), (2 * c - a, 2 * d - b)) if dice.random() < 0.5 else ((a, b), (c, d)))
    return [(p, q) for p, q in segments if p != q]


def pins_of(dice, size, segments):
    ends = [end for segment in segments for end in segment]
    for _ in range(dice.randrange(4)):
        if ends and dice.random() < 0.4:
            yield *dice.choice(ends), 1
        elif segments and dice.random() < 0.5:
            (a, b), (c, d) = dice.choice(segments)
            x, y = a + c, b + d
            yield (x, y, 2) if x % 2 or y % 2 else (x // 2, y // 2, 1)
        else:
            yield dice.randrange(size), dice.randrange(size), 1


def lines_of(segments, pins, shift):
    for (a, b), (c, d) in segments:
        yield f'segment {a + shift} {b} {c + shift} {d}'
    for x, y, w in pins:
        yield f'pin {x + shift * w} {y} {w}'


def pair(dice):
    size = dice.choice((6, 12, 40))
    red = layer_of(dice, size, [])
    blue = layer_of(dice, size, red)
    everything = red + blue
    far = dice.randrange(20)
    red_pins, blue_pins = list(pins_of(dice, size, everything)), list(pins_of(dice, size, everything))
    if far == 0:
        blue, blue_pins = [], []
    yield 'layer red'
    yield from lines_of(red, red_pins, 0)
    yield 'layer blue'
    yield from lines_of(blue, blue_pins, 1000 if far == 1 else 0)
    yield 'overlay'


def main(folder, count, seed):
    for k in range(count):
        with open(f'{folder}/pair_{k:04}', 'w', encoding='ascii') as file:
            file.writelines(line + '\n' for line in pair(random.Random(seed * 1000000 + k)))


if __name__ == '__main__':
    main(sys.argv[1], int(sys.argv[2]), int(sys.argv[3]))
