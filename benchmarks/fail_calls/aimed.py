"""Random scripts aimed at one command each: those of the generator have `region`, `vertical`, `batch` and `envelope` too seldom, and
`path` seldom with what is beside it."""
from generate import Script

# The commands, with the generator's kind whose points suit them.
COMMANDS = {'path': 'grid', 'region': 'layers', 'vertical': 'holes', 'batch': 'cross', 'envelope': 'grid'}
ROUNDS = 3


def draw(script, command):
    """Some edits: paths alone where these are meant, closed ones where layers have to be."""
    edits = [script.path] if command == 'path' else [script.path, script.segment, script.segment, script.pin]
    if command == 'region':
        edits = [script.path, script.path, script.square, script.pin]
    for _ in range(3):
        script.random.choice(edits)()


def change(script, command):
    """An edit that takes something away, or parts an edge."""
    script.random.choice([script.drop, script.split, script.unpin] + [script.cut] * (command != 'region'))()


def ask(script, command):
    if command == 'path':
        script.show()
    elif command == 'region':
        for operation in 'union', 'intersection', 'difference', 'symmetric':
            script.add('region ' + operation)
    elif command == 'vertical':
        script.vertical()
    elif command == 'batch':
        # The second one finds the tables of its way as the first one left them.
        script.batch()
        script.batch()
    else:
        script.add('envelope lower')
        script.add('envelope upper')


def aimed_script(seed, command, stage):
    """The lines of a script in which the command comes three times and more, with edits between."""
    script = Script(seed, COMMANDS[command], stage)
    script.only_closed = command == 'region'
    for number in range(ROUNDS):
        if command == 'region' or script.random.random() < 0.3:
            script.add('layer ' + ('red', 'blue')[number % 2])
        draw(script, command)
        if number:
            change(script, command)
        ask(script, command)
    if command == 'region':
        # An open layer is refused, and takes no memory to be.
        script.add('segment 0 0 1 7')
        script.add('region union')
    script.close()
    return script.lines
