"""Compares the slab engine with the oracle on random small presents, or makes one large present.

    slab_answers.py compare ORACLE_FOLDER PROGRAM CASES SEED
    slab_answers.py make SEGMENTS SEED            (lines for the program, which answers nothing but its time)
"""
import random
import subprocess
import sys


def numbers(point):
    return f'{point.X} {point.Y} {point.W}'


def wanted(oracle, segments, pin, points):
    """What the program should write, by the oracle."""
    place = oracle.make_point
    pieces = [oracle.new_piece(oracle.RED, curve, 1, place(a, b, 1), place(c, d, 1))
              for curve, (a, b, c, d) in enumerate(segments, 1)]
    sub = oracle.Subdivision(oracle.Graph(pieces, [pin]))
    graph = sub.graph
    darts = sorted(graph.edges + [(j, i) for i, j in graph.edges])
    at = {dart: k for k, dart in enumerate(darts)}
    lines = []
    for i, j in darts:
        cycle = sub.cycle_of[i, j]
        outer = 'true' if sub.outer[cycle] else 'false'
        curves = ''.join(f' {c}' for _, c in graph.curves((min(i, j), max(i, j))))
        lines.append(f'dart {i - 1} {j - 1} {at[j, i]} {at[sub.next_dart((i, j))]} {cycle} {outer} '
                     f'{sub.face_of_dart((i, j))}{curves}')
    for point in points:
        what, which = sub.locate(point)
        if what == 'vertex':
            lines.append(f'vertex {numbers(graph.vertices[which])}')
        elif what == 'edge':
            low, high = graph.ends(which)
            lines.append(f'edge {numbers(low)} {numbers(high)}')
        else:
            lines.append(f'face {which}')
    return lines, graph


def case(oracle, dice):
    """Segments with small ends, so that many touch and overlap; a pin; points on and off the graph."""
    limit = dice.choice([2, 3, 4, 6, 10])
    segments = []
    for _ in range(dice.randrange(10)):
        ends = [dice.randint(0, limit) for _ in range(4)]
        if ends[:2] != ends[2:]:
            segments.append(ends)
    pin = oracle.make_point(dice.randint(-1, 2 * limit), dice.randint(-1, 2 * limit), dice.randint(1, 3))
    points = [oracle.make_point(dice.randint(-1, 4 * limit), dice.randint(-1, 4 * limit), dice.randint(1, 4))
              for _ in range(10)]
    _, graph = wanted(oracle, segments, pin, [])
    points += graph.vertices[1:5]
    for i, j in graph.edges[:6]:
        p, q = graph.vertices[i], graph.vertices[j]
        points.append(oracle.make_point(p.X * q.W + q.X * p.W, p.Y * q.W + q.Y * p.W, 2 * p.W * q.W))
    return segments, pin, points


def script(segments, pin, points):
    lines = [f'pin {numbers(pin)}'] + ['segment ' + ' '.join(map(str, s)) for s in segments]
    return '\n'.join(lines + [f'locate {numbers(p)}' for p in points]) + '\n'


def compare(folder, program, cases, seed):
    sys.path.insert(0, folder)
    import planar_oracle as oracle
    dice = random.Random(seed)
    differ = darts = 0
    for number in range(cases):
        segments, pin, points = case(oracle, dice)
        lines, _ = wanted(oracle, segments, pin, points)
        given = subprocess.run([program], input=script(segments, pin, points), text=True, stdout=subprocess.PIPE)
        darts += len(lines) - len(points)
        if given.stdout.splitlines() != lines or given.returncode:
            differ += 1
            print(f'case {number} differs:', script(segments, pin, points), sep='\n')
    print(f'{cases} presents, {darts} darts: {differ} differ')
    return 1 if differ else 0


def make(segments, seed):
    dice = random.Random(seed)
    print('quiet\npin 0 0 1')
    for _ in range(segments):
        print('segment', *(dice.randint(-1000, 1000) for _ in range(4)))
    return 0


if __name__ == '__main__':
    if sys.argv[1] == 'compare':
        sys.exit(compare(sys.argv[2], sys.argv[3], int(sys.argv[4]), int(sys.argv[5])))
    sys.exit(make(int(sys.argv[2]), int(sys.argv[3])))
