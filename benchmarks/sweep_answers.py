"""Compares sweeps with all pairs of pieces by brute force, or makes one large input.

    sweep_answers.py compare PROGRAM CASES SEED
    sweep_answers.py made SEGMENTS              short segments, few crossings
    sweep_answers.py dense SEGMENTS             long ones, most pairs cross
"""
import functools
import random
import subprocess
import sys
from fractions import Fraction
from math import gcd


def ends(segment):
    a, b, c, d = segment
    return min((a, b), (c, d)), max((a, b), (c, d))


def line(segment):
    (a, b), (c, d) = ends(segment)
    return b - d, c - a, a * d - c * b


def side(segment, point):
    a, b, c = line(segment)
    return a * point[0] + b * point[1] + c


def meeting(one, other):
    (a, b, c), (d, e, f) = line(one), line(other)
    weight = a * e - d * b
    if weight == 0:
        return None
    point = Fraction(b * f - e * c, weight), Fraction(c * d - f * a, weight)
    inside = all(ends(s)[0] <= point <= ends(s)[1] for s in (one, other))
    return point if inside else None


def numbers(point):
    x, y = map(Fraction, point)
    w = x.denominator * y.denominator // gcd(x.denominator, y.denominator)
    return f'{int(x * w)} {int(y * w)} {w}'


def heights(segments, point, one, other):
    """The order of two pieces on the line through the point, leant by less than any number."""
    (a, b, _), (d, e, _) = line(segments[one]), line(segments[other])
    s, t = side(segments[one], point), side(segments[other], point)
    lean = a * e - d * b
    for number in (e * s - b * t, a * t - d * s, lean):
        if number != 0:
            return -1 if number > 0 else 1
    return one - other


def rows(segments, pins):
    """What the program should write."""
    points = set(pins)
    for segment in segments:
        points.update(ends(segment))
    for one in segments:
        for other in segments:
            point = meeting(one, other)
            if point:
                points.add(point)
    for point in sorted(points):
        here = [i for i, s in enumerate(segments) if side(s, point) == 0 and ends(s)[0] <= point <= ends(s)[1]]
        end = [i for i in here if ends(segments[i])[1] == point]
        start = [i for i in here if ends(segments[i])[0] == point]
        status = [i for i, s in enumerate(segments) if ends(s)[0] <= point < ends(s)[1]]
        status.sort(key=functools.cmp_to_key(lambda i, j: heights(segments, point, i, j)))
        lists = end, start, [i for i in here if i not in end and i not in start], status
        yield numbers(point) + ''.join(' :' + ''.join(f' {i}' for i in places) for places in lists)


def case(dice):
    """Small ends, so that many touch, overlap, are vertical or go through one point; or ends near the limit."""
    limit = dice.choice([2, 3, 4, 6, 10, 16777215])
    low = -limit if limit > 10 else 0
    segments = []
    for _ in range(dice.randrange(12)):
        segment = [dice.randint(low, limit) for _ in range(4)]
        if segment[:2] != segment[2:]:
            segments.append(segment)
    pins = [(Fraction(dice.randint(low, limit)), Fraction(dice.randint(0, 2 * limit), 2)) for _ in range(dice.randrange(3))]
    pins = [(x, min(y, Fraction(limit))) for x, y in pins]
    return segments, pins


def lines(segments, pins):
    for segment in segments:
        yield 'segment %d %d %d %d' % tuple(segment)
    for pin in pins:
        yield 'pin ' + numbers(pin)


def compare(program, count, seed):
    dice = random.Random(seed)
    cases = [case(dice) for _ in range(count)]
    text = ''.join(''.join(row + '\n' for row in lines(*one)) + 'sweep\n' for one in cases)
    out = subprocess.run([program], input=text, capture_output=True, text=True).stdout
    answers, events, differ = out.split('end\n'), 0, 0
    assert len(answers) == count + 1 and not answers[-1], 'not one answer a case'
    for one, answer in zip(cases, answers):
        wanted = list(rows(*one))
        events += len(wanted)
        if answer.splitlines() != wanted:
            differ += 1
            if differ == 1:
                print(*lines(*one), 'wanted', *wanted, 'found', *answer.splitlines(), sep='\n')
    print(f'{count} inputs with {events} events, {differ} differ')
    return differ != 0


def made(count):
    """Segments at most some 1,400 long in a square of 32,768 (the linear congruential generator of C's standard)."""
    x = 1
    for _ in range(count):
        draw = []
        for _ in range(4):
            x = (1103515245 * x + 12345) % 2 ** 31
            draw.append(x // 65536)
        a, b = draw[0] - 16384, draw[1] - 16384
        yield a, b, a + draw[2] % 2048 - 1024, b + draw[3] % 2048 - 1024


def dense(count):
    dice = random.Random(count)
    while count:
        segment = [dice.randint(-1000, 1000) for _ in range(4)]
        if segment[:2] != segment[2:]:
            count -= 1
            yield tuple(segment)


if sys.argv[1] == 'compare':
    sys.exit(compare(sys.argv[2], int(sys.argv[3]), int(sys.argv[4])))
for segment in (made if sys.argv[1] == 'made' else dense)(int(sys.argv[2])):
    print('segment %d %d %d %d' % segment)
