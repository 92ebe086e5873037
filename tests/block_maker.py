"""Draws small blocks `always @*` that read what they have assigned so far, for `tests/earlier.py`:
over values of 1 to 4 bits, with assignments to names, bits, parts and several of them, with
conditions and cases. A block is made from its last statement back, since which reads are settled
hangs on what stands behind them alone.
"""
import itertools
import random

from block_paths import Module, circle, read_for, readings
from blocks import (CONTEXT, KEPT, REDUCED, Arm, Assign, Binary, Block, Case, Choice, If, Join,
                    Number, Picked, Piece, Read, Signal, Unary)

CONDITIONS = ["==", "!=", "<", "<=", ">", ">=", "&&", "||"]
# How often another statement is drawn where one makes a circle, before a simpler one is.
MOST_TRIES = 5


class Maker:
    """Makes blocks, one after the other, as they are drawn from a seed."""

    def __init__(self, seed):
        self.random = random.Random(seed)
        self.inputs, self.registers, self.kind = [], [], None
        # what may be read and what may be assigned
        self.readable, self.targets = [], []
        # the statements so far, the names in these, and the bits that these can assign
        self.body, self.names, self.later = [], [], 0

    def module(self, kind=None):
        """A block that breaks no rule, or one that is likely to break this one."""
        draw = self.random
        self.kind = kind
        self.inputs = [
            Signal(number, name, draw.randint(1, 2), draw.choice("LH"), is_input=True)
            for number, name in enumerate("abc"[:draw.randint(2, 3)])]
        draw.choice(self.inputs).label = "H"
        self.registers = [
            Signal(number, name, draw.randint(1, 4), is_port=number == 3 or draw.random() < 0.7)
            for number, name in enumerate("pqrst"[:draw.randint(3, 5)], 3)]
        self.readable, self.targets = self.inputs + self.registers, self.registers
        self.body, self.names, self.later = [], [], 0
        left_out = self.ending() if kind in (605, 606) else None
        for _ in range(draw.randint(3, 8)):
            make = draw.choice((self.assignment, self.branch, self.case))
            self.put_before(make, self.assignment)
        self.beginning(left_out)
        self.label(Module(self.inputs, self.registers, Block(self.body)))
        return Module(self.inputs, self.registers, Block(self.body))

    def beginning(self, left_out):
        """Gives each `reg` a value, from inputs and what has one before; but not that one."""
        draw = self.random
        waiting = draw.sample(self.registers, len(self.registers))
        while waiting:
            taken = [waiting.pop() for _ in range(min(len(waiting), draw.choice((1, 1, 2))))]
            pieces = [Piece(signal) for signal in taken if signal is not left_out]
            self.readable = self.inputs + waiting
            if pieces:
                self.put_before(lambda: Assign(pieces, self.expression(2)),
                                lambda: Assign(pieces, self.number()))

    def ending(self):
        """A `reg` that is given a value last, for 605 on one path alone, and none before."""
        left_out = self.random.choice(self.registers)
        if self.kind == 605:
            self.targets = [signal for signal in self.registers if signal is not left_out]

        self.put_before(*[lambda: self.given(left_out)] * 2)
        return left_out

    def given(self, left_out):
        """An assignment to that one, for 605 under a condition."""
        last = Assign([Piece(left_out)], self.expression(2))
        return last if self.kind == 606 else If(self.expression(1), Block([last]))

    def put_before(self, make, otherwise):
        """Puts a new statement before the others: one that makes no circle, unless it may."""
        for tries in itertools.count():
            new = make() if tries < MOST_TRIES else otherwise()
            plain = new.plain()
            names = readings(plain, 0, self.later) + self.names
            if self.kind == 607 or not circle(self.registers, names):
                self.body.insert(0, new)
                self.names, self.later = names, self.later | plain.can
                return

    def label(self, module):
        """Labels each `reg` by what is read for it, and some of them as it is drawn."""
        draw = self.random
        chance = draw.choice((0.1, 0.5))
        for _ in module.assigned:
            for signal in module.assigned:
                if any(read.label == "H" for read in read_for(signal, module.readings)):
                    signal.label = "H"
        for signal in module.assigned:
            if draw.random() < chance:
                signal.label = draw.choice("LLH")

    # Expressions.

    def read(self):
        """A name, a bit, a part, or a bit at an index that is a name."""
        draw = self.random
        signal, way = draw.choice(self.readable), draw.random()
        if signal.length == 1 or way < 0.5:
            return Read(signal)
        if way < 0.65:
            return Picked(signal, Read(draw.choice(self.readable)))
        return Read(signal, *self.span(signal))

    def span(self, signal):
        """A high and a low bit of a signal."""
        bits = [self.random.randrange(signal.length) for _ in range(2)]
        return max(bits), min(bits)

    def number(self):
        """A number of 1 to 4 bits."""
        length = self.random.randint(1, 4)
        return Number(length, self.random.randrange(1 << length))

    def expression(self, depth):
        """An expression of so many operators in each other at most."""
        draw = self.random
        way = draw.random() if depth else 0
        if way < 0.3:
            return self.read() if draw.random() < 0.85 else self.number()
        return self.operation(way, lambda: self.expression(depth - 1))

    def operation(self, way, side):
        """An operator, with operands that `side` makes."""
        draw = self.random
        if way < 0.65:
            return Binary(draw.choice(["&", "|", "^", *CONTEXT]), side(), side())
        if way < 0.7:
            return Binary(draw.choice(["<<", ">>"]), side(), side())
        if way < 0.77:
            return Binary(draw.choice(CONDITIONS), side(), side())
        if way < 0.85:
            return Unary(draw.choice([*KEPT, *REDUCED]), side())
        if way < 0.93:
            return Choice(side(), side(), side())
        return Join([side() for _ in range(draw.randint(1, 3))])

    # Statements, in which others stand for so many levels at most.

    def block(self, depth):
        """One or two statements."""
        makers = [self.assignment] * 4 + [self.branch, self.case] * (depth > 0)
        count = self.random.choice((1, 1, 2))
        return Block([self.random.choice(makers)(depth - 1) for _ in range(count)])

    def branch(self, depth=1):
        """An `if`, mostly with its `else`."""
        second = self.block(depth) if self.random.random() < 0.7 else None
        return If(self.expression(1), self.block(depth), second)

    def case(self, depth=1):
        """A `case` with a default, or with an item for each value of its selector."""
        draw = self.random
        selector = self.read() if draw.random() < 0.6 else self.expression(1)
        length, count = selector.length, 1 << min(selector.length, 3)
        is_name = length <= 2 and isinstance(selector, (Read, Picked))
        is_complete = is_name and draw.random() < 0.4
        values = draw.sample(range(count), count if is_complete else min(count, 3))
        items = [Number(draw.choice((length, max(length, 3))), value) for value in values]
        arms = [Arm([item], self.block(depth)) for item in items]
        if len(arms) > 1 and draw.random() < 0.3:
            arms[0].items += arms.pop().items
        return Case(selector, arms, None if is_complete else Arm([], self.block(depth)))

    def assignment(self, _=0):
        """An assignment to a name, a bit, a part, or several of them in braces."""
        draw = self.random
        signals = draw.sample(self.targets, 1 if draw.random() < 0.75 else 2)
        pieces = [self.piece(signal) for signal in signals]
        if len(pieces) == 1 and pieces[0].low and draw.random() < 0.3:
            pieces.append(Piece(signals[0], pieces[0].low - 1, 0))
        right = self.expression(2)
        # a choice by itself is what paths are split by
        if draw.random() < 0.15:
            right = Choice(self.expression(1), right, self.expression(1))
        return Assign(pieces, right)

    def piece(self, signal):
        """A name, or a bit or a part of it."""
        if signal.length == 1 or self.random.random() < 0.6:
            return Piece(signal)
        return Piece(signal, *self.span(signal))
