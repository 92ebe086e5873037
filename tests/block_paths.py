"""What is asked of a block `always @*` before it is run: the rules 604 to 607, what is read for
each signal, and the paths of each with what is read on them, as docs/language.md, docs/semantics.md
and docs/formats.md say; worked out from the trees of `tests/blocks.py`, for `tests/earlier.py`.
"""
import itertools

from blocks import Assign, Branch, Choice, Read, Sequence, Writer, union

NAMES = {604: "undriven", 605: "latch", 606: "phase", 607: "loop"}


def shown(place):
    """A place as it is printed."""
    return f"{place[0]}:{place[1]}"


class Reading:
    """A name in a block: its signal and place, the bits of the signals that it is read for, whether
    an assignment to its bits can follow it, and whether every path to it has assigned these."""

    def __init__(self, name, serves, before, follows):
        self.signal, self.place, high, low = name
        self.serves, bits = serves, self.signal.bits(high, low)
        self.is_earlier, self.is_assigned = bits & follows != 0, bits & ~before == 0


def readings(statement, before, later):
    """Each name in a statement, where some bits are assigned before it and some can be after it."""
    if isinstance(statement, Sequence):
        found = []
        for at, part in enumerate(statement.statements):
            behind = union(other.can for other in statement.statements[at + 1:])
            found += readings(part, before, behind | later)
            before |= part.always
        return found
    statement.follows = statement.can | later
    read = statement.right if isinstance(statement, Assign) else statement.condition
    found = [Reading(name, statement.can, before, statement.follows) for name in read.names()]
    if isinstance(statement, Branch):
        found += readings(statement.first, before, later)
        found += readings(statement.second, before, later)
    return found


def read_for(target, names):
    """The signals of which a settled value is read for the target, of the names in its block: an
    earlier read stands for what is read for its signal."""
    followed, size = target.all, 0
    while followed != size:
        size = followed
        followed |= union(reading.signal.all for reading in names
                          if reading.is_earlier and reading.serves & followed)
    return {reading.signal for reading in names
            if not reading.is_earlier and reading.serves & followed}


def circle(signals, names):
    """The first of the signals that is read for what is read for it; none where none is."""
    reads = {signal: read_for(signal, names) for signal in signals}
    for signal in signals:
        found, fresh = set(), {signal}
        while fresh:
            fresh = set().union(*(reads.get(one, ()) for one in fresh)) - found
            found |= fresh
        if signal in found:
            return signal
    return None


class Module:
    """A module of inputs and one block, as a text, with what is asked of it."""

    def __init__(self, inputs, registers, body):
        self.inputs, self.registers = inputs, registers
        # in signal order: the ports stand first
        self.signals = inputs + sorted(registers, key=lambda signal: not signal.is_port)
        self.assigned = self.signals[len(inputs):]
        writer = Writer()
        self.write(writer, body)
        self.text, self.body, self.plain = writer.text, body, body.plain()
        self.readings = readings(self.plain, 0, 0)

    def write(self, writer, body):
        """The whole text."""
        writer.put("module m(")
        for signal in self.signals:
            if signal.is_port:
                writer.put(", " if signal is not self.signals[0] else "")
                signal.write(writer)
        writer.put(");\n")
        for signal in self.signals:
            if not signal.is_port:
                writer.put("  ")
                signal.write(writer)
                writer.put(";\n")
        writer.put("  ")
        self.place = writer.put("always @*\n")
        body.write(writer, "  ")
        writer.put("endmodule\n")

    def broken(self):
        """The first rule that is broken, with its place and signal; nothing where none is."""
        for signal in self.assigned:
            if not signal.all & self.plain.can:
                return 604, signal.place, signal
        for signal in self.assigned:
            if signal.all & ~self.plain.always:
                return 605, self.place, signal
        unassigned = [reading for reading in self.readings
                      if not reading.signal.is_input and not reading.is_assigned]
        if unassigned:
            first = min(unassigned, key=lambda reading: reading.place)
            return 606, first.place, first.signal
        signal = circle(self.assigned, self.readings)
        return (607, signal.place, signal) if signal else None

    def is_circle(self, names):
        """Whether each of these signals reads the next one, and the last the first, none twice."""
        signals = [signal for name in names for signal in self.assigned if signal.name == name]
        return (len(signals) == len(names) == len(set(names)) and bool(names)
                and all(behind in read_for(signal, self.readings)
                        for signal, behind in zip(signals, signals[1:] + signals[:1])))

    def lines(self, most):
        """What `list` prints, line by line, each with its target and path; nothing where these are
        more than so many."""
        told = [(target, path) for target in self.assigned
                for path in itertools.islice(before(self.plain, target, Path(target)), most + 1)]
        if len(told) > most:
            return []
        return [(path.line(number, target, self.signals), target, path)
                for number, (target, path) in enumerate(told, 1)]


class Path:
    """A path as far back as statements were taken: its conditions with whether they hold, the
    signals that are wanted in these and in the result, those of which a settled value is read, the
    wanted name that the result is by itself, and the place of the last assignment to the target."""

    def __init__(self, target, steps=(), place=None, asked=0, read=0):
        self.steps, self.place, self.alone = list(steps), place, target
        self.asked, self.made, self.read = asked, target.all if target else 0, read

    def copy(self):
        """Another one of the same."""
        other = Path(self.alone, self.steps, self.place, self.asked, self.read)
        other.made = self.made
        return other

    def under(self, place, truth, condition, follows):
        """This path with a condition before it."""
        wanted, settled = split(condition, follows)
        self.steps.insert(0, (place, truth))
        self.asked |= wanted
        self.read |= settled
        return self

    def line(self, number, target, signals):
        """The line of a list."""
        steps = "".join(f" {'+' if truth else '-'}{shown(place)}" for place, truth in self.steps)
        names = "".join(f" {signal.name}" for signal in signals if signal.all & self.read)
        return f"{number} {target.name} now{steps} ={shown(self.place)} reads{names}"

    def is_taken(self, steps):
        """Whether a run whose conditions went so takes this path."""
        return all(steps.get(place) == truth for place, truth in self.steps)


def split(expression, follows):
    """The signals of which an expression reads earlier values, and those of settled ones."""
    wanted = settled = 0
    for signal, _, high, low in expression.names():
        if signal.bits(high, low) & follows:
            wanted |= signal.all
        else:
            settled |= signal.all
    return wanted, settled


def ways(right):
    """The values that a right side may have, each with the conditions under which it is that."""
    if not isinstance(right, Choice):
        return [([], right)]
    return [([(right.place, truth, right.condition), *steps], value)
            for truth, side in ((True, right.first), (False, right.second))
            for steps, value in ways(side)]


def put(names, pieces, right, follows):
    """What is wanted where an assignment is put for wanted names, and what is read by it."""
    whole = union(piece.signal.all for piece in pieces if piece.is_whole)
    if not names & union(piece.signal.all for piece in pieces):
        return names, 0
    wanted, settled = split(right, follows)
    return names & ~whole | wanted, settled


def assigned(statement, target, path):
    """The paths that an assignment makes of one."""
    pieces, follows, found = statement.pieces, statement.follows, []
    ours = [piece for piece in pieces if piece.signal is path.alone]
    covers = bool(ours) and ours[0].is_whole
    places = [piece.read.place for piece in pieces if piece.signal is target]
    asked, read = put(path.asked, pieces, statement.right, follows)
    for steps, value in ways(statement.right) if covers else [([], statement.right)]:
        place = path.place or (places[0] if places else None)
        new = Path(None, path.steps, place, asked, path.read | read)
        new.made, settled = put(path.made, pieces, value, follows)
        new.read |= settled
        if not ours:
            new.alone = path.alone
        elif covers and statement.is_lowest(ours[0]):
            new.alone = alone(value, follows)
        for place, truth, condition in reversed(steps):
            new.under(place, truth, condition, follows)
        found.append(new)
    return found


def alone(value, follows):
    """The wanted name that an expression is by itself."""
    if isinstance(value, Read) and value.is_whole and value.signal.all & follows:
        return value.signal
    return None


def before(statement, target, path):
    """The paths that one becomes where a statement is taken before it."""
    if isinstance(statement, Sequence):
        yield from all_before(statement.statements, target, path)
    elif not (path.asked | path.made) & statement.can:
        # it assigns nothing that is wanted
        yield path
    elif isinstance(statement, Assign):
        yield from assigned(statement, target, path)
    else:
        for truth, arm in ((True, statement.first), (False, statement.second)):
            for new in before(arm, target, path.copy()):
                yield new.under(statement.place, truth, statement.condition, statement.follows)


def all_before(statements, target, path):
    """The paths that one becomes where several statements are taken before it, from the last on."""
    if not statements:
        yield path
        return
    for new in before(statements[-1], target, path):
        yield from all_before(statements[:-1], target, new)
