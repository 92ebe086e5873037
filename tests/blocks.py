"""What a block `always @*` means, worked out beside the program: small blocks of unsigned values as
trees that are written as text, run by IEEE 1364-2005, and asked for the rules 604 to 607, for their
paths and for what is read on each, by docs/language.md and docs/semantics.md. `tests/earlier.py`
compares the program with it.
"""
import operator

# Of the standard's table of lengths: these have the length of the longer operand, and that of what
# stands around them where it is longer.
CONTEXT = {"+": operator.add, "-": operator.sub, "*": operator.mul, "&": operator.and_,
           "|": operator.or_, "^": operator.xor, "~^": lambda a, b: ~(a ^ b)}
SHIFTS = {"<<": operator.lshift, ">>": operator.rshift}
# These give one bit, of operands that are as long as the longer one.
COMPARISONS = {"==": operator.eq, "!=": operator.ne, "<": operator.lt, "<=": operator.le,
               ">": operator.gt, ">=": operator.ge}
# And these, of operands that have each its own length.
LOGICAL = {"&&": lambda a, b: a != 0 and b != 0, "||": lambda a, b: a != 0 or b != 0}
# One operand: kept at the length around it, or made one bit of its own length.
KEPT = {"+": operator.pos, "-": operator.neg, "~": operator.inv}
REDUCED = {"!": lambda v, n: v == 0, "&": lambda v, n: v == ones(n), "|": lambda v, n: v != 0,
           "^": lambda v, n: bin(v).count("1") % 2, "~&": lambda v, n: v != ones(n),
           "~|": lambda v, n: v == 0, "~^": lambda v, n: bin(v).count("1") % 2 == 0}


def ones(length):
    """The greatest value of so many bits."""
    return (1 << length) - 1


def union(sets):
    """All that is in one of these sets of bits."""
    found = 0
    for one in sets:
        found |= one
    return found


class Writer:
    """A text that grows, and knows at which line and column it ends."""

    def __init__(self):
        self.text, self.line, self.column = "", 1, 1

    def put(self, words):
        """Writes words and gives the place at which they begin."""
        place = (self.line, self.column)
        self.text += words
        self.line += words.count("\n")
        self.column = len(self.text) - self.text.rfind("\n")
        return place


class Signal:
    """An input or a `reg`, of at most 8 bits; its place is set when its declaration is written. A
    set of bits of signals is a number, in which each signal has bits of its own."""

    def __init__(self, number, name, length, label="L", is_input=False, is_port=True):
        self.base, self.name, self.length, self.label = 8 * number, name, length, label
        self.is_input, self.is_port, self.place = is_input, is_port, None
        self.all = self.bits(length - 1, 0)

    def write(self, writer):
        """Its declaration without what stands around it."""
        kind = "input " if self.is_input else "output reg " if self.is_port else "reg "
        span = f"[{self.length - 1}:0] " if self.length > 1 else ""
        writer.put(kind + span + ("{H} " if self.label == "H" else ""))
        self.place = writer.put(self.name)

    def bits(self, high, low):
        """Its bits from one down to another, as a set."""
        return ones(high - low + 1) << self.base + low


class Run:
    """A run of a block: the values so far, and which way each condition went, by its place."""

    def __init__(self, values):
        self.values, self.steps = dict(values), {}

    def assign(self, signal, high, low, value):
        """Replaces bits of a signal."""
        mask = ones(high - low + 1) << low
        self.values[signal] = self.values[signal] & ~mask | value << low & mask


class Expression:
    """An expression, with the length that it has by itself."""

    def value(self, run, length):
        """Its value at the length that is pushed down to it, which is at least its own."""
        raise NotImplementedError

    def names(self):
        """Its names: of each the signal, the place, and from which bit down to which it is read."""
        raise NotImplementedError

    def write(self, writer):
        """Writes it, and keeps the places of its names."""
        raise NotImplementedError


class Number(Expression):
    """A number with a length."""

    def __init__(self, length, value):
        self.length, self.number = length, value

    def value(self, run, length):
        return self.number

    def names(self):
        return []

    def write(self, writer):
        writer.put(f"{self.length}'d{self.number}")


class Read(Expression):
    """A name: whole, or a bit or part of it."""

    def __init__(self, signal, high=None, low=0):
        self.signal, self.is_whole, self.place = signal, high is None, None
        self.high, self.low = signal.length - 1 if high is None else high, low
        self.length = self.high - low + 1

    def value(self, run, length):
        return run.values[self.signal] >> self.low & ones(self.length)

    def names(self):
        return [(self.signal, self.place, self.high, self.low)]

    def write(self, writer):
        self.place = writer.put(self.signal.name)
        if not self.is_whole:
            low = f":{self.low}" if self.length > 1 else ""
            writer.put(f"[{self.high}{low}]")


class Picked(Expression):
    """A bit at an index that names a signal, 0 where there is none; it reads all bits."""

    def __init__(self, signal, index):
        self.signal, self.index, self.length, self.place = signal, index, 1, None

    def value(self, run, length):
        return run.values[self.signal] >> self.index.value(run, self.index.length) & 1

    def names(self):
        return [(self.signal, self.place, self.signal.length - 1, 0), *self.index.names()]

    def write(self, writer):
        self.place = writer.put(self.signal.name)
        writer.put("[")
        self.index.write(writer)
        writer.put("]")


class Unary(Expression):
    """An operator before its operand."""

    def __init__(self, sign, operand):
        self.sign, self.operand = sign, operand
        self.length = operand.length if sign in KEPT else 1

    def value(self, run, length):
        if self.sign in KEPT:
            return KEPT[self.sign](self.operand.value(run, length)) & ones(length)
        own = self.operand.length
        return int(REDUCED[self.sign](self.operand.value(run, own), own))

    def names(self):
        return self.operand.names()

    def write(self, writer):
        writer.put(f"({self.sign}")
        self.operand.write(writer)
        writer.put(")")


class Binary(Expression):
    """An operator between two operands."""

    def __init__(self, sign, left, right):
        self.sign, self.left, self.right = sign, left, right
        self.longest = max(left.length, right.length)
        self.length = self.longest if sign in CONTEXT else left.length if sign in SHIFTS else 1

    def value(self, run, length):
        if self.sign in LOGICAL:
            sides = [side.value(run, side.length) for side in (self.left, self.right)]
            return int(LOGICAL[self.sign](*sides))
        if self.sign in SHIFTS:
            amount = self.right.value(run, self.right.length)
            return SHIFTS[self.sign](self.left.value(run, length), amount) & ones(length)
        at = self.longest if self.sign in COMPARISONS else length
        sides = [side.value(run, at) for side in (self.left, self.right)]
        if self.sign in COMPARISONS:
            return int(COMPARISONS[self.sign](*sides))
        return CONTEXT[self.sign](*sides) & ones(length)

    def names(self):
        return self.left.names() + self.right.names()

    def write(self, writer):
        writer.put("(")
        self.left.write(writer)
        writer.put(f" {self.sign} ")
        self.right.write(writer)
        writer.put(")")


class Choice(Expression):
    """`c ? a : b`."""

    def __init__(self, condition, first, second):
        self.condition, self.first, self.second, self.place = condition, first, second, None
        self.length = max(first.length, second.length)

    def value(self, run, length):
        truth = self.condition.value(run, self.condition.length) != 0
        run.steps[self.place] = truth
        return (self.first if truth else self.second).value(run, length)

    def names(self):
        return self.condition.names() + self.first.names() + self.second.names()

    def write(self, writer):
        writer.put("(")
        self.condition.write(writer)
        writer.put(" ")
        self.place = writer.put("?")
        writer.put(" ")
        self.first.write(writer)
        writer.put(" : ")
        self.second.write(writer)
        writer.put(")")


class Join(Expression):
    """Parts in braces, the first one highest."""

    def __init__(self, parts):
        self.parts, self.length = parts, sum(part.length for part in parts)

    def value(self, run, length):
        joined = 0
        for part in self.parts:
            joined = joined << part.length | part.value(run, part.length)
        return joined

    def names(self):
        return [name for part in self.parts for name in part.names()]

    def write(self, writer):
        writer.put("{")
        for part in self.parts:
            if part is not self.parts[0]:
                writer.put(", ")
            part.write(writer)
        writer.put("}")


class Equal:
    """The condition of an arm: the selector equals one of the items."""

    def __init__(self, selector, items):
        self.selector, self.items = selector, items

    def names(self):
        """Those of the selector, since items have none."""
        return self.selector.names()


class Piece:
    """What one target of an assignment is given: a signal, or a bit or part of it."""

    def __init__(self, signal, high=None, low=0):
        self.read = Read(signal, high, low)
        self.signal, self.high, self.low = signal, self.read.high, low
        self.length = self.read.length
        self.is_whole = self.length == signal.length


class Statement:
    """A statement as it stands in a text."""

    def run(self, run):
        """Runs it."""
        raise NotImplementedError

    def write(self, writer, margin):
        """Writes it behind so many blanks, and keeps the places of its names and conditions."""
        raise NotImplementedError

    def plain(self):
        """It as assignments, branches and sequences alone: each with the bits that it can assign
        and those that it always does, and, once its names are asked for, those that can be
        assigned from it on."""
        raise NotImplementedError


class Assign(Statement):
    """An assignment to one target, or to several in braces."""

    def __init__(self, pieces, right):
        self.pieces, self.right, self.follows = pieces, right, None
        self.can = self.always = union(piece.signal.bits(piece.high, piece.low) for piece in pieces)

    def run(self, run):
        """The value is taken once, at the larger of both lengths; the last piece is lowest."""
        length = sum(piece.length for piece in self.pieces)
        value = self.right.value(run, max(length, self.right.length))
        for piece in reversed(self.pieces):
            run.assign(piece.signal, piece.high, piece.low, value & ones(piece.length))
            value >>= piece.length

    def write(self, writer, margin):
        writer.put(margin + "{" * (len(self.pieces) > 1))
        for piece in self.pieces:
            if piece is not self.pieces[0]:
                writer.put(", ")
            piece.read.write(writer)
        writer.put("}" * (len(self.pieces) > 1) + " = ")
        self.right.write(writer)
        writer.put(";\n")

    def plain(self):
        return self

    def is_lowest(self, piece):
        """Whether the piece has the value's lowest bits."""
        return piece is self.pieces[-1]


class Branch:
    """A condition and two statements, as `plain` gives them."""

    def __init__(self, place, condition, first, second):
        self.place, self.condition, self.first, self.second = place, condition, first, second
        self.can, self.always = first.can | second.can, first.always & second.always
        self.follows = None


class Sequence:
    """Statements one after the other, as `plain` gives them."""

    def __init__(self, statements):
        self.statements = statements
        self.can = union(statement.can for statement in statements)
        self.always = union(statement.always for statement in statements)


class If(Statement):
    """An `if`, which may lack its `else`."""

    def __init__(self, condition, first, second=None):
        self.condition, self.first, self.second, self.place = condition, first, second, None

    def run(self, run):
        truth = self.condition.value(run, self.condition.length) != 0
        run.steps[self.place] = truth
        if truth:
            self.first.run(run)
        elif self.second:
            self.second.run(run)

    def write(self, writer, margin):
        writer.put(margin)
        self.place = writer.put("if (")
        self.condition.write(writer)
        writer.put(")\n")
        self.first.write(writer, margin + "  ")
        if self.second:
            writer.put(margin + "else\n")
            self.second.write(writer, margin + "  ")

    def plain(self):
        second = self.second.plain() if self.second else Sequence([])
        return Branch(self.place, self.condition, self.first.plain(), second)


class Arm:
    """Items of a `case` and their statement; the default has none."""

    def __init__(self, items, body):
        self.items, self.body, self.place = items, body, None

    def write(self, writer, margin):
        writer.put(margin)
        for item in self.items:
            if item is not self.items[0]:
                writer.put(", ")
            place = writer.put("")
            item.write(writer)
            self.place = self.place or place
        writer.put((":" if self.items else "default:") + "\n")
        self.body.write(writer, margin + "  ")


class Case(Statement):
    """A `case` of numbers; `otherwise` is its default, and where there is none its items leave no
    value of the selector out."""

    def __init__(self, selector, arms, otherwise=None):
        self.selector, self.arms, self.otherwise = selector, arms, otherwise
        items = [item for arm in arms for item in arm.items]
        self.longest = max(part.length for part in [selector, *items])

    def run(self, run):
        """The first arm with an item that equals the selector, at the length of the longest."""
        value = self.selector.value(run, self.longest)
        for arm in self.arms:
            truth = any(item.value(run, self.longest) == value for item in arm.items)
            run.steps[arm.place] = truth
            if truth:
                arm.body.run(run)
                return
        self.otherwise.body.run(run)

    def write(self, writer, margin):
        writer.put(margin + "case (")
        self.selector.write(writer)
        writer.put(")\n")
        for arm in self.arms + [self.otherwise] * (self.otherwise is not None):
            arm.write(writer, margin + "  ")
        writer.put(margin + "endcase\n")

    def plain(self):
        """A chain of branches, one for each arm; what is left is the default or the last arm."""
        arms = list(self.arms)
        rest = (self.otherwise or arms.pop()).body.plain()
        for arm in reversed(arms):
            rest = Branch(arm.place, Equal(self.selector, arm.items), arm.body.plain(), rest)
        return rest


class Block(Statement):
    """Statements one after the other."""

    def __init__(self, statements):
        self.statements = statements

    def run(self, run):
        for statement in self.statements:
            statement.run(run)

    def write(self, writer, margin):
        writer.put(margin + "begin\n")
        for statement in self.statements:
            statement.write(writer, margin + "  ")
        writer.put(margin + "end\n")

    def plain(self):
        return Sequence([statement.plain() for statement in self.statements])
