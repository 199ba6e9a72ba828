"""What a script may be answered where memory is refused, by the program's executable meaning (planar_oracle.py)."""
import copy

from planar_oracle import (BLUE, EDITS, RED, Graph, Layer, Overlay, Refused, Subdivision, World, envelope_text, overlay_text, read_line,
                           region_text, show_text, vertical_text)

# Of the meaning's stages, the one of this program.
STAGE = 20
WITHOUT_MEMORY = ('layer', 'unpin', 'merge', 'clear', 'leave', 'count')
WITHOUT_TABLES = ('naive', 'walk')


class Wrong(Exception):
    """A reply that no run may give."""


class Kept(dict):
    """What was worked out, by what it was worked out of."""

    def get_or(self, key, make):
        if key not in self:
            self[key] = make()
        return self[key]


class KeptLayer(Layer):
    """A layer whose graph and cells are kept. Edits put new lists in the place of its own, so a shallow copy stays as it is."""

    def __init__(self, colour, kept):
        super().__init__(colour)
        self.kept = kept

    def key(self):
        return tuple(self.pieces), tuple(self.pins)

    def graph(self):
        return self.kept.get_or(('graph', self.key()), lambda: Graph(self.pieces, self.pins))

    def subdivision(self):
        return self.kept.get_or(('cells', self.key()), lambda: Subdivision(self.graph()))

    def text(self):
        return self.kept.get_or(('text', self.key()), lambda: show_text(copy.copy(self)))


class KeptWorld(World):
    """A world of such layers, with four mirrors without a limit, which never change."""

    def __init__(self, kept):
        super().__init__(STAGE)
        self.kept = kept
        self.layers = [KeptLayer(RED, kept), KeptLayer(BLUE, kept)]

    def clone(self):
        other = copy.copy(self)
        other.layers = [copy.copy(layer) for layer in self.layers]
        other.seats = [[copy.copy(seat) for seat in seats] for seats in self.seats]
        other.gone = set(self.gone)
        return other

    def answer_show(self, command):
        return self.layer().text()

    def answer_mirror(self, command):
        return self.layers[self._seated(command.numbers[0]).layer].text()

    def both(self):
        return tuple(layer.key() for layer in self.layers)

    def kept_overlay(self):
        return self.kept.get_or(('overlay', self.both()), lambda: Overlay(*map(copy.copy, self.layers)))

    def answer_overlay(self, command):
        return self.kept.get_or(('overlay text', self.both()), lambda: overlay_text(self.kept_overlay()))

    def answer_region(self, command):
        operation = command.fixed[0]
        if any(layer.least_odd_point() is not None for layer in self.layers):
            raise Refused(19)
        return self.kept.get_or(('region', operation, self.both()), lambda: region_text(self.kept_overlay(), operation))

    def answer_vertical(self, command):
        return self.kept.get_or(('vertical', self.layer().key()), lambda: vertical_text(copy.copy(self.layer())))

    def answer_envelope(self, command):
        which = command.fixed[0]
        return self.kept.get_or(('envelope', which, self.layer().key()), lambda: envelope_text(copy.copy(self.layer()), which))

    def lose(self, name):
        """An observer of the current layer is lost in an edit."""
        self.seats[self.current] = [seat for seat in self.seats[self.current] if seat.name != name]
        self.gone.add(name)


def groups(reply):
    """The head of an edit's reply, and the names that joined, left and were lost, each ascending."""
    words, found = reply.split(b' '), {b'joined': [], b'left': [], b'lost': []}
    head = 2 if len(words) > 1 and words[1].isdigit() else 1
    for group, name in zip(words[head::2], words[head + 1::2]):
        if group not in found or not name.isdigit():
            raise Wrong('not the reply of an edit: %r' % reply)
        found[group].append(int(name))
    again = words[:head] + [word for group in found for name in found[group] for word in (group, b'%d' % name)]
    if again != words or any(names != sorted(set(names)) for names in found.values()):
        raise Wrong('not the reply of an edit: %r' % reply)
    return words[:head], found[b'joined'], found[b'left'], found[b'lost']


def lost_in(line, stated, given, seated):
    """The observers that the reply to an edit names as lost, where it differs in nothing that this doesn't explain: one that is
    lost doesn't leave besides, and hasn't joined where it is lost at the turn of its join."""
    difference = Wrong('%r is answered %r, not %r' % (line, given, stated))
    if line.split()[0].decode() not in EDITS or not stated.startswith(b'ok') or not given.startswith(b'ok'):
        raise difference
    head, joins, leaves, _ = groups(stated)
    given_head, joined, left, lost = groups(given)
    if not (given_head == head and lost
            and set(lost) <= seated | set(joins)
            and left == [name for name in leaves if name not in lost]
            and set(joined) <= set(joins)
            and all(name in joined or name in lost for name in joins)):
        raise difference
    return lost


def command_of(line):
    """The command of a line; None where it has no reply, and an empty text where it is refused as it stands."""
    try:
        return read_line(line, STAGE)
    except Refused:
        return ''


def may_find_none(world, line, way):
    """Raises Wrong where a line may not be answered `no memory`. The world stays as it is."""
    command = command_of(line)
    if not command or command.name in WITHOUT_MEMORY or (command.name == 'locate' and way in WITHOUT_TABLES):
        raise Wrong('no memory for %r' % line)
    reply = world.clone().feed(line)
    if reply.startswith(b'refused'):
        raise Wrong('no memory for %r, which is answered %r' % (line, reply))


def missed(lines, output, way, kept):
    """By the number of each line at which memory was missed: None where it was answered `no memory`, else the observers that were
    lost. Raises Wrong where a reply isn't what the world then gives."""
    world, found, at = KeptWorld(kept), {}, 0
    for number, line in enumerate(lines):
        if command_of(line) is None:
            continue
        if output.startswith(b'no memory\n', at):
            may_find_none(world, line, way)
            found[number] = None
            at += len(b'no memory\n')
            continue
        seated = {seat.name for seat in world.seats[world.current] if seat.seated()}
        reply = world.feed(line)
        if output.startswith(reply, at):
            at += len(reply)
            continue
        end = output.find(b'\n', at)
        if end < 0:
            raise Wrong('%r has no reply' % line)
        found[number] = lost_in(line, reply[:-1], output[at:end], seated)
        for name in found[number]:
            world.lose(name)
        at = end + 1
    if at < len(output):
        raise Wrong('more than the replies: %r' % output[at:])
    return found
