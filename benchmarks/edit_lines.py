"""Writes the edits of worked rows and of random scripts, a file for each, by the oracle's rows and generator.

    edit_lines.py ORACLE_FOLDER FOLDER COUNT SEED

Random scripts are of all kinds that change what is drawn. At the end of each the layers are taken apart again, curve by curve or edge by edge, in
a random order, since most random lines draw.
"""
import random
import sys

EDITS = {b'segment', b'path', b'drop', b'cut', b'pin', b'unpin', b'split', b'merge', b'clear', b'layer'}
KINDS = ('grid', 'cross', 'extreme', 'holes', 'layers', 'mixed')
STAGE = 16
# A row with more lines shows limits, and would be compared too often.
LONGEST_ROW = 300


def rows(oracle):
    for row in oracle.rows.ROWS:
        steps = [] if row.only_by_api() else row.steps_at(STAGE)
        if 0 < len(steps) <= LONGEST_ROW:
            yield [line if isinstance(line, bytes) else line.encode() for line, _ in steps]


def take_apart(script, dice):
    for layer in ('red', 'blue'):
        script.add('layer ' + layer)
        for _ in range(2 * len(script.layer.names) + len(script.layer.pins)):
            if script.layer.names and dice.random() < 0.5:
                script.add('drop %d' % dice.choice(script.layer.names))
            elif script.graph.edges:
                dice.choice((script.cut, script.cut, script.merge, script.unpin))()
            elif script.layer.pins:
                script.unpin()


def random_script(oracle, seed, kind, lines):
    script = oracle.generate.make_script(seed, kind, lines, STAGE)
    script.kind = 'holes' if kind == 'mixed' else kind
    take_apart(script, random.Random(seed))
    return script.lines


def write(path, lines):
    # A line with a byte that is no letter, digit or mark is refused, and the program here reads lines of text alone.
    edits = [line for line in lines if line.split(b' ')[0] in EDITS and line.isascii()]
    with open(path, 'wb') as file:
        file.write(b''.join(line + b'\n' for line in edits))


class Oracle:
    def __init__(self, folder):
        sys.path.insert(0, folder)
        import generate
        import rows
        self.generate, self.rows = generate, rows


def main(folder, scripts, count, seed):
    oracle = Oracle(folder)
    for number, lines in enumerate(rows(oracle), 1):
        write(f'{scripts}/row_{number:02}', lines)
    for k in range(count):
        kind = KINDS[k % len(KINDS)]
        lines = (20, 40, 60, 120)[k // len(KINDS) % 4]
        write(f'{scripts}/{kind}_{k:05}', random_script(oracle, seed * 1000000 + k, kind, lines))


if __name__ == '__main__':
    folder, scripts, count, seed = sys.argv[1:]
    main(folder, scripts, int(count), int(seed))
