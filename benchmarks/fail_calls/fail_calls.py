"""fail_calls.py PROGRAM LIBRARY ORACLE [SCRIPT..]: see ../fail_calls.sh"""
import os
import subprocess
import sys
import tempfile
import time

program, library, oracle, scripts = sys.argv[1], sys.argv[2], sys.argv[3], sys.argv[4:]
sys.path.insert(0, oracle)

from aimed import COMMANDS, aimed_script
from generate import KINDS, make_script
from judge import STAGE, Kept, Wrong, missed
from planar_oracle import STRATEGIES, made_script, script_lines
from rows import ROWS

NAMED = ('one edge of two curves', 'islands', 'cuts', 'planned observers', 'overlay of squares', 'path folded back', 'path across itself',
         'regions', 'doubled region', 'vertical neighbours', 'vertical edge', 'batch', 'envelopes', 'empty envelope')
# A script with more lines shows limits, and has too many allocations.
MOST_LINES = 300
AIMED = 20
SECONDS = 600
wrong = 0


def expect(fine, *what):
    global wrong
    if not fine:
        wrong += 1
        print('wrong:', *what, flush=True)


def run(script, words, **variables):
    """What the program writes, its exit status, and what the library tells."""
    reader, writer = os.pipe()
    environment = dict(LD_PRELOAD=library, TELL_CALLS='yes', **{name: str(value) for name, value in variables.items()})

    def hand_over():
        os.dup2(writer, 9)

    with subprocess.Popen([program] + words, stdin=subprocess.PIPE, stdout=subprocess.PIPE, env=environment, close_fds=False,
                          preexec_fn=hand_over) as process:
        os.close(writer)
        try:
            process.stdin.write(script)
            process.stdin.close()
        except BrokenPipeError:
            pass
        with os.fdopen(reader, 'rb') as told:
            if 'EACH_ALLOCATION' in variables:
                record = told.read()
                output = process.stdout.read()
            else:
                output = process.stdout.read()
                record = told.read()
        process.wait(SECONDS)
    return output, process.returncode, record


def outcomes(path, words):
    """Each outcome of a script where allocations are refused, once: kind, number of the first one, status, what was written. Then how
    many runs and how many allocations there were."""
    _, status, record = run(b'', words, EACH_ALLOCATION=path)
    expect(status == 0, path, words, 'ends with', status)
    found, at = [], 0
    while at < len(record):
        end = record.index(b'\n', at)
        kind, number, status, length = record[at:end].split()
        if kind == b'runs':
            return found, int(number), int(status)
        at = end + 1 + int(length)
        found.append((kind.decode(), int(number), int(status), record[end + 1:at]))
    expect(False, path, words, 'ends without its counts')
    return found, 0, 0


class Tally:
    """What was seen of a group of scripts."""

    def __init__(self):
        self.scripts = self.runs = self.allocations = self.outcomes = self.answers = self.losses = 0
        self.began = time.monotonic()

    def tell(self, name):
        print('%s: %d scripts; %d runs with an allocation refused, of %d; %d outcomes, with %d answers `no memory` and %d observers lost; '
              '%d seconds; wrong so far: %d' % (name, self.scripts, self.runs, self.allocations, self.outcomes, self.answers, self.losses,
                                                time.monotonic() - self.began, wrong), flush=True)


def judge_allocations(name, script, tally):
    """A script under each way of location, with each allocation refused, alone and with all that follow."""
    lines = list(script_lines(script))
    kept, tally.scripts = Kept(), tally.scripts + 1
    with tempfile.NamedTemporaryFile() as file:
        file.write(script)
        file.flush()
        for way in STRATEGIES:
            found, runs, allocations = outcomes(file.name, ['--locate', way])
            tally.runs += runs
            tally.allocations += allocations
            tally.outcomes += len(found)
            for kind, number, status, output in found:
                where = name, way, kind, number
                if status == 5:
                    expect(output == b'', *where, 'status 5, and something is written')
                    continue
                expect(status == 0, *where, 'ends with', status)
                try:
                    events = missed(lines, output, way, kept)
                except Wrong as fault:
                    expect(False, *where, fault)
                    continue
                tally.answers += sum(lost is None for lost in events.values())
                tally.losses += sum(len(lost) for lost in events.values() if lost)
                # What is refused once is missed at one line at most, and nowhere where none is refused.
                expect(len(events) <= {'one': 1, 'plain': 0}.get(kind, len(lines)), *where, events)


def judge_made(count, tally):
    """A made script: a front of its lines is run, and `no memory` written, or the last reply."""
    world_reply = run(b'', ['--make', str(count)])[0]
    tally.scripts += 1
    for way in STRATEGIES:
        found, runs, allocations = outcomes('/dev/null', ['--make', str(count), '--locate', way])
        tally.runs += runs
        tally.allocations += allocations
        tally.outcomes += len(found)
        for kind, number, status, output in found:
            where = 'made', count, way, kind, number
            if status == 5:
                expect(output == b'', *where, 'status 5, and something is written')
            else:
                fine = (world_reply,) if kind == 'plain' else (world_reply, b'no memory\n')
                expect(status == 0 and output in fine, *where, status, output)
                tally.answers += output == b'no memory\n'


def judge_faults(name, script):
    """Each read, and each write, failing; and every one moving one byte, or interrupted twice before it moves any."""
    right, status, record = run(script, [])
    expect(status == 0, name, 'ends with', status)
    _, reads, writes = map(int, record.split())
    for kind, calls, fault in ('FAIL_READ', reads, 3), ('FAIL_WRITE', writes, 4):
        for call in range(1, calls + 1):
            output, status, _ = run(script, [], **{kind: call})
            expect(status == fault and right.startswith(output), name, kind, call, 'ends with', status)
    for kind in 'SHORT_READS', 'SHORT_WRITES', 'INTERRUPTED_READS', 'INTERRUPTED_WRITES':
        expect(run(script, [], **{kind: 1})[:2] == (right, 0), name, kind)
    return reads + writes


def with_observers(script):
    """The script with mirrors in both layers from its first line on: two that stay and two that come by plan."""
    lines = [b'attach 1', b'attach 3 at 2', b'layer blue', b'attach 2', b'attach 4 at 3', b'layer red']
    return b''.join(line + b'\n' for line in lines + script)


def groups():
    """The scripts by group."""
    if scripts:
        yield 'the scripts given', [(path, open(path, 'rb').read()) for path in scripts]
        return
    rows = [row for row in ROWS if row.name in NAMED]
    expect(len(rows) == len(NAMED), 'a worked row is missing')
    yield 'worked rows', [(row.name, b''.join(line.encode() + b'\n' for line, _ in row.steps)) for row in rows]
    for folder in 'crates/planar/cases', 'examples':
        paths = sorted(os.path.join(folder, file) for file in os.listdir(folder) if file.endswith('.script'))
        read = [(path, open(path, 'rb').read()) for path in paths]
        yield folder, [(path, script) for path, script in read if script.count(b'\n') <= MOST_LINES]
    for command in COMMANDS:
        yield f'random scripts aimed at {command}', [(f'{command} {seed}', with_observers(aimed_script(15000 + seed, command, STAGE)))
                                                     for seed in range(AIMED)]
    for kind in KINDS:
        made = []
        for seed in range(200 // len(KINDS)):
            made.append(('%s %d' % (kind, seed), with_observers(make_script(14000 + seed, kind, 16, STAGE).lines)))
        yield 'random scripts of kind %s' % kind, made


for group, named in groups():
    tally = Tally()
    for name, script in named:
        judge_allocations(name, script, tally)
    tally.tell(group)
if not scripts:
    tally = Tally()
    judge_made(40, tally)
    tally.tell('--make 40')
    named = next(groups())[1]
    calls = sum(judge_faults(name, script) for name, script in named)
    print('worked rows: %d reads and writes failing' % calls)
print('%d wrong' % wrong)
sys.exit(wrong > 0)
