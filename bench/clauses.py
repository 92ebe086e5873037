#!/usr/bin/env python3
"""Prints clauses in DIMACS form.

    clauses.py pigeons HOLES            one pigeon more than there are holes
    clauses.py random VARIABLES SEED    clauses of three literals, 4.26 for each variable
    clauses.py multiplier BITS          a * b differs from b * a
    clauses.py adder BITS               (a + b) + c differs from a + (b + c)

After the circuits a further number changes that gate, counted from 1, into one of another kind. Then the circuits do differ,
unless the gate leads to no output.
"""
import random
import sys


def pigeons(holes):
    """Each pigeon sits in a hole, and no hole holds two."""
    place = lambda pigeon, hole: pigeon * holes + hole + 1
    clauses = [[place(p, h) for h in range(holes)] for p in range(holes + 1)]
    for hole in range(holes):
        for p in range(holes + 1):
            clauses += [[-place(q, hole), -place(p, hole)] for q in range(p)]
    return clauses


def random_clauses(variables, seed):
    """Clauses of three variables each, drawn alike."""
    draw = random.Random(seed)
    clauses = []
    for _ in range(int(variables * 4.26)):
        chosen = draw.sample(range(1, variables + 1), 3)
        clauses.append([v if draw.random() < 0.5 else -v for v in chosen])
    return clauses


class Circuit:
    """Gates with a variable each, and the clauses that say what they compute."""

    OTHER = {"and": "or", "or": "and", "xor": "or"}

    def __init__(self, changed):
        self.variables = 0
        self.gates = 0
        self.clauses = []
        self.changed = changed

    def inputs(self, count):
        self.variables += count
        return list(range(self.variables - count + 1, self.variables + 1))

    def gate(self, kind, a, b):
        self.gates += 1
        if self.gates == self.changed:
            kind = self.OTHER[kind]
        (out,) = self.inputs(1)
        if kind == "and":
            self.clauses += [[-a, -b, out], [a, -out], [b, -out]]
        elif kind == "or":
            self.clauses += [[a, b, -out], [-a, out], [-b, out]]
        else:
            self.clauses += [[-a, -b, -out], [a, b, -out], [a, -b, out], [-a, b, out]]
        return out

    def add_bits(self, *bits):
        """The sum and the carry out of two or three bits; None is a bit that is not there."""
        a, b, *carry = [bit for bit in bits if bit is not None]
        half, both = self.gate("xor", a, b), self.gate("and", a, b)
        if not carry:
            return half, both
        return self.gate("xor", half, *carry), self.gate("or", both, self.gate("and", half, *carry))

    def add(self, a, b):
        """The sum and the carry out of two numbers, bit by bit from the lowest."""
        total, carry = [], None
        for x, y in zip(a, b, strict=True):
            bit, carry = self.add_bits(x, y, carry)
            total.append(bit)
        return total, carry

    def multiply(self, a, b):
        """The product: for each bit of `b` a row, added to those before it."""
        rows = [[self.gate("and", x, y) for x in a] for y in b]
        low, high, carry = [], rows[0], None
        for row in rows[1:]:
            low.append(high[0])
            high, carry = self.add(high[1:] + [carry], row)
        return low + high + [carry]

    def differ(self, left, right):
        """Some output of the two differs."""
        self.clauses.append([self.gate("xor", x, y) for x, y in zip(left, right, strict=True)])


def multiplier(bits, changed=0):
    circuit = Circuit(changed)
    a, b = circuit.inputs(bits), circuit.inputs(bits)
    circuit.differ(circuit.multiply(a, b), circuit.multiply(b, a))
    return circuit.clauses


def adder(bits, changed=0):
    circuit = Circuit(changed)
    a, b, c = (circuit.inputs(bits) for _ in range(3))
    left, _ = circuit.add(circuit.add(a, b)[0], c)
    right, _ = circuit.add(a, circuit.add(b, c)[0])
    circuit.differ(left, right)
    return circuit.clauses


MAKERS = {"pigeons": pigeons, "random": random_clauses, "multiplier": multiplier, "adder": adder}


def main():
    clauses = MAKERS[sys.argv[1]](*map(int, sys.argv[2:]))
    print("p cnf", max(abs(literal) for clause in clauses for literal in clause), len(clauses))
    for clause in clauses:
        print(*clause, 0)


main()
