#!/usr/bin/env python3
"""What the built program answers to bytes that mean no good, outside the gate.

    benchmarks/hostile_bytes.py PROGRAM ORACLE [LINES [SEED]]

PROGRAM is crates/planar/out/planar, ORACLE the folder of the program's executable meaning (planar_oracle.py). It makes scripts of
100,000 lines in all: bytes of every value, good lines with bytes and words put in, taken out or changed, lines of 299 to 301
bytes, byte 13 and byte 0, text in UTF-8 whole and broken, numbers of many digits, and good lines between them. Each reply has to
be the meaning's, and the program ends by itself with status 0. Then 2^26 bytes of `locate 0 0 1`, and one more: status 6. It
tells the most memory that the program held in each run. The exit status is 1 where something differs.
"""
import os
import random
import subprocess
import sys
import tempfile
import threading
import time

program, oracle = sys.argv[1:3]
count = int(sys.argv[3]) if len(sys.argv) > 3 else 100000
seed = int(sys.argv[4]) if len(sys.argv) > 4 else 1
sys.path.insert(0, oracle)
sys.dont_write_bytecode = True

from planar_oracle import STRATEGIES, World

STAGE = 20
LIMIT = 2 ** 26
SCRIPTS = 40
WORDS = ('layer red', 'layer blue', 'segment 0 0 4 3', 'segment 1 0 1 3', 'drop 1', 'cut 0 0 1 4 3 1', 'pin 1 1 1', 'unpin 1 1 1',
         'split 0 0 1 4 3 1 8 6 4', 'merge 2 1 1', 'clear', 'locate 1 1 1', 'locate 3 3 4', 'edge 0 0 1 4 3 1', 'curve 1', 'count', 'show',
         'overlay', 'attach 1', 'attach 2 at 3', 'leave 1', 'leave 2 at 4', 'mirror 1', '# note', '')
PARTS = (b'', b' ', b'\x00', b'\r', b'\t', b'\x0b', b'\x7f', b'\x80', b'\xff', b'-', b'+', b'0', b'00', b'-0', b'1e3', b'0x1', b'#', b'9' * 50,
         b'-' + b'9' * 50, b'340282366920938463463374607431768211456', b'18446744073709551616', b'at', b'red', 'é'.encode(), '−1'.encode(),
         '٣'.encode(), '\u2028'.encode(), b'\xc3', b'\xed\xa0\x80', b'\xf4\x90\x80\x80', b'segment', b'show ')


class Maker:
    """Random lines."""

    def __init__(self, number):
        self.random = random.Random('%d %d' % (seed, number))

    def good(self):
        r = self.random
        words = r.choice(WORDS).split(' ')
        if words[0] in ('segment', 'pin', 'locate') and r.random() < 0.7:
            words[1:] = [str(r.randint(0, 5)) for _ in words[1:]]
        if words[0] in ('pin', 'locate'):
            words[-1] = str(r.randint(1, 3))
        return ' '.join(words).encode()

    def changed(self):
        r, line = self.random, bytearray(self.good())
        for _ in range(r.randint(1, 4)):
            at = r.randint(0, len(line))
            kind = r.randrange(4)
            if kind == 0:
                line[at:at] = r.choice(PARTS)
            elif kind == 1 and line:
                del line[at:at + r.randint(1, 3)]
            elif kind == 2 and at < len(line):
                line[at] = r.choice([byte for byte in range(256) if byte != 10])
            else:
                line[at:at] = b' ' * r.randint(1, 9)
        return bytes(line)

    def long(self):
        r, length = self.random, self.random.choice((299, 300, 301, 302, 255, 256, 4095, 4096, 4097))
        fill = r.choice((b' ', b'a', b'9', b'\x00', b'\r', b'\xff'))
        line = self.good()
        return line + r.choice((b'', b' ')) + fill * (length - len(line)) if r.random() < 0.5 else (fill * length)[:length]

    def wild(self):
        return bytes(self.random.choice([byte for byte in range(256) if byte != 10]) for _ in range(self.random.randint(0, 60)))

    def line(self):
        choice = self.random.random()
        if choice < 0.30:
            return self.good() + (b'\r' if choice < 0.02 else b'')
        if choice < 0.70:
            return self.changed()
        return self.long()[:5000] if choice < 0.80 else self.wild()


def run(words, script):
    """What the program writes to a script, its status, and the most memory that it held, in KiB."""
    with tempfile.TemporaryFile() as source, tempfile.TemporaryFile() as sink:
        source.write(script)
        source.seek(0)
        process = subprocess.Popen([program] + words, stdin=source, stdout=sink)
        peak = [0]

        def watch():
            while process.poll() is None:
                try:
                    with open('/proc/%d/status' % process.pid) as status:
                        peak[0] = max([peak[0]] + [int(line.split()[1]) for line in status if line.startswith('VmHWM')])
                except (OSError, ValueError):
                    pass
                time.sleep(0.002)

        watcher = threading.Thread(target=watch)
        watcher.start()
        process.wait()
        watcher.join()
        sink.seek(0)
        return sink.read(), process.returncode, peak[0]


def main():
    wrong, lines, most, began = 0, 0, 0, time.monotonic()
    for number in range(SCRIPTS):
        maker, world = Maker(number), World(STAGE)
        made, replies = [], []
        while len(made) < count // SCRIPTS:
            line = b'clear' if len(made) % 60 == 59 else maker.line()
            made.append(line)
            replies.append(world.feed(line) or b'')
        lines += len(made)
        script = b'\n'.join(made) + (b'\n' if number % 2 else b'')
        words = ['--locate', STRATEGIES[number % 4]]
        output, status, peak = run(words, script)
        most = max(most, peak)
        if (output, status) != (b''.join(replies), 0):
            wrong += 1
            print('wrong: script %d of seed %d, status %d' % (number, seed, status))
    print('%d lines in %d scripts: %d differ; at most %d KiB held; %.0f seconds' % (lines, SCRIPTS, wrong, most, time.monotonic() - began))
    question = b'locate 0 0 1\n'
    script = (question * (LIMIT // len(question) + 1))[:LIMIT]
    for script, status, last in ((script, 0, b'refused 1\n'), (script + b'x', 6, b'')):
        began = time.monotonic()
        output, ended, peak = run([], script)
        fine = ended == status and output == b'face 0\n' * (LIMIT // len(question)) + last
        wrong += not fine
        print('%d bytes of questions: %s, status %d; at most %d KiB held; %.1f seconds' % (
            len(script), 'as they have to be' if fine else 'WRONG', ended, peak, time.monotonic() - began))
    sys.exit(wrong > 0)


main()
