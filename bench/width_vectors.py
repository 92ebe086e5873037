#!/usr/bin/env python3
"""Writes the expressions whose values `tests/expressions.py` compares with those of `secv`: every operator at seven lengths and both
signednesses, nested mixes of signed and unsigned operands, and constants.

    width_vectors.py > tests/expressions.txt

The answers are those of Icarus Verilog (`iverilog` and `vvp`), which is to be installed. An expression whose answer has an x is
left out: a division by zero, or a bit outside of its vector. What is asked of such bits and of rules was worked by hand, and each
operator at the edges of the seven lengths is worked out here with whole numbers, without Icarus Verilog. The lines are

    signal NAME LENGTH SIGNEDNESS    a signal, with the value 0
    parameter NAME LENGTH SIGNEDNESS VALUE
    set NAME VALUE                   the signal's value from here on
    typed TARGET VALUE EXPRESSION    the value for a target of so many bits
    constant LENGTH SIGNEDNESS VALUE EXPRESSION
    refused RULE COLUMN EXPRESSION   the rule that the expression breaks, and the column in it

with `signed` or `unsigned` for a signedness; values are as read unsigned.
"""
import os
import random
import subprocess
import sys
import tempfile

LENGTHS = (1, 2, 31, 32, 33, 63, 64)
SIGNEDNESSES = ("unsigned", "signed")
UNARY = "+ - ! ~ & ~& | ~| ^ ~^ ^~".split()
BINARY = "+ - * << >> <<< >>> < <= > >= == != & ^ ~^ ^~ | && ||".split()
DIVISIONS = "/ %".split()
ROUNDS = 3
# typed for targets of so many bits
WORKED = [(16, "8'sh80 >>> 1"), (8, "{8'sh80} >>> 1"), (1, "~4'h0 == 8'hff"), (32, "-7 / 2"), (32, "-7 % 2")]
WORKED_CONSTANTS = ["-32'sd7 / 32'sd2", "-32'sd7 % 32'sd2", "8'h80 / 8'hff", "8'sh80 / 8'shff", "1'b1 ? 4'sb1111 : 8'sd1", "1'b1 ? 4'sb1111 : 8'd1"]
# a bit outside of its signal is 0, where Icarus Verilog gives an x: values of signals, and such bits
OUTSIDE_VALUES = [("v", 15), ("i", 5), ("a2u", 3), ("b2s", 2), ("b31u", 2**31 - 1)]
OUTSIDE = ["v[i]", "a2u[b2s]", "v[b31u]"]
# the rule that each breaks where no length is asked for, and the column where it does
REFUSED = [
    (401, 1, "nothing"), (401, 8, "a31u + nothing"), (401, 1, "p31u[0]"), (401, 11, "(1 / 0) + nothing"), (401, 5, "{2, nothing}"),
    (402, 1, "{40{2'b11}}"), (402, 1, "{a64u, 1'b0}"), (402, 5, "1 + {65{1'b1}}"), (402, 1, "{a64u, 1}"),
    (403, 5, "a2u[2]"), (403, 5, "a2u[-1]"), (403, 1, "a2u[0:1]"), (403, 1, "a2u[2:1]"),
    (404, 2, "{a2u{1'b1}}"), (404, 5, "a2u[a1u:0]"),
    (405, 8, "8'd7 / 0"), (405, 23, "(1 % (2'd2 + 2'd2)) / 0"), (405, 14, "1'd1 / (1'd1 + 1'd1)"),
    (405, 20, "a1u ? 1'b1 : (3 % (0))"), (405, 9, "a2u[1 / 0 + 2]"),
    (406, 6, "a31u / 2"), (406, 9, "(1 / 0) / a31u"), (406, 3, "2 % a31u"),
    (407, 2, "{3, 1'b1}"), (407, 8, "{1'b1, 3}"), (407, 4, "{2{3}}"),
    (408, 2, "{0{1'b1}}"), (408, 3, "{(-1){1'b1}}"),
]
DRAW = random.Random(20051364)


def name(letter, length, signedness):
    return f"{letter}{length}{signedness[0]}"


SIGNALS = [(name(letter, length, signedness), length, signedness) for letter in "ab" for length in LENGTHS for signedness in SIGNEDNESSES]
SIGNALS += [("v", 4, "unsigned"), ("i", 3, "unsigned")]
PARAMETERS = [(f"p{length}{signedness[0]}", length, signedness, DRAW.getrandbits(length) | 1) for length in LENGTHS for signedness in SIGNEDNESSES]


def a_value(length):
    """Half of the values lie at the ends of the range, or are small."""
    most = (1 << length) - 1
    ends = (0, 1, most, most - 1, most >> 1, (most >> 1) + 1, min(most, 5), min(most, length), most - 2)
    return max(0, DRAW.choice(ends)) & most if DRAW.random() < 0.5 else DRAW.getrandbits(length)


def literal(length, signedness, bits=0):
    """A literal of any value in which these bits are set."""
    mark = "'sh" if signedness == "signed" else "'h"
    return f"{length}{mark}{a_value(length) | bits:x}"


def operators(letters):
    """Every operator, both operands of the same length and signedness."""
    for length in LENGTHS:
        for signedness in SIGNEDNESSES:
            left, right = (name(letter, length, signedness) for letter in letters)
            for op in UNARY:
                yield f"{op} {left}"
            for op in BINARY:
                yield f"{left} {op} {right}"


def divisions():
    """Divisions of literals and parameters, by something else than zero at times."""
    for length in LENGTHS:
        for signedness in SIGNEDNESSES:
            for op in DIVISIONS:
                for _ in range(4):
                    yield f"{literal(length, signedness)} {op} {literal(length, signedness)}"
                    yield f"p{length}{signedness[0]} {op} {literal(length, signedness)}"


def operand():
    kind = DRAW.random()
    length, signedness = DRAW.choice(LENGTHS), DRAW.choice(SIGNEDNESSES)
    if kind < 0.6:
        return name(DRAW.choice("ab"), length, signedness)
    if kind < 0.75:
        return literal(length, signedness)
    if kind < 0.85:
        return f"p{length}{signedness[0]}"
    if kind < 0.95:
        high = DRAW.randrange(31)
        return f"{name(DRAW.choice('ab'), 31, signedness)}[{high}:{DRAW.randrange(high + 1)}]"
    return f"{name(DRAW.choice('ab'), 64, signedness)}[{name(DRAW.choice('ab'), 2, DRAW.choice(SIGNEDNESSES))}]"


def constant_operand():
    length, signedness = DRAW.choice(LENGTHS), DRAW.choice(SIGNEDNESSES)
    return literal(length, signedness) if DRAW.random() < 0.7 else f"p{length}{signedness[0]}"


def short_operand():
    """Of at most 10 bits, for a join."""
    choices = (
        name(DRAW.choice("ab"), DRAW.choice((1, 2)), DRAW.choice(SIGNEDNESSES)),
        literal(DRAW.choice((1, 2, 3, 8)), DRAW.choice(SIGNEDNESSES)),
        f"{name(DRAW.choice('ab'), 63, DRAW.choice(SIGNEDNESSES))}[{DRAW.randrange(20, 29)}:20]",
    )
    return DRAW.choice(choices)


def short_join():
    parts = ", ".join(mixed(1, short_operand, joins=False) for _ in range(DRAW.randrange(1, 4)))
    if DRAW.random() < 0.3:
        return f"{{{DRAW.choice((1, 2))} {{{parts}}}}}"
    return f"{{{parts}}}"


def mixed(depth, leaf, joins=True, constants=False):
    """A nested mix: shifts, comparisons, choices, joins and the rest. No divisor in it is 0, also where its value is not taken."""
    if depth == 0:
        return leaf()
    again = lambda: mixed(DRAW.randrange(depth), leaf, joins, constants)
    kind = DRAW.random()
    if kind < 0.25:
        amount = again() if DRAW.random() < 0.5 else str(DRAW.randrange(40))
        return f"({again()} {DRAW.choice(('<<', '>>', '<<<', '>>>'))} {amount})"
    if kind < 0.45:
        return f"({again()} {DRAW.choice(('<', '<=', '>', '>=', '==', '!='))} {again()})"
    if kind < 0.6:
        return f"({again()} ? {again()} : {again()})"
    if kind < 0.7 and joins:
        return short_join()
    if kind < 0.8:
        return f"({DRAW.choice(UNARY)} {again()})"
    if constants and kind < 0.9:
        return f"({again()} {DRAW.choice(DIVISIONS)} {literal(DRAW.choice(LENGTHS), DRAW.choice(SIGNEDNESSES), 1)})"
    return f"({again()} {DRAW.choice(BINARY)} {again()})"


def rounds():
    """For each round the values of the signals, and the expressions with the lengths of their targets."""
    for number in range(ROUNDS):
        values = [(signal, a_value(length)) for signal, length, _ in SIGNALS]
        asked = [(DRAW.choice((1, 8, 32, 64)) if number else 64, text) for text in operators("ab")]
        asked += WORKED if number == 0 else []
        asked += [(DRAW.choice((1, 2, 16, 32, 33, 63, 64)), mixed(DRAW.randrange(2, 5), operand)) for _ in range(400)]
        yield values, asked


def constants():
    yield from WORKED_CONSTANTS
    yield from divisions()
    for _ in range(300):
        yield mixed(DRAW.randrange(1, 4), constant_operand, joins=False, constants=True)


def read(value, length, signedness):
    """The whole number that the bits stand for."""
    return value - (1 << length) if signedness == "signed" and value >> (length - 1) else value


def binary_value(op, a, b, length, signedness):
    """What the operator gives of operands of one length and signedness, b not 0, before it is cut to the length."""
    left, right = read(a, length, signedness), read(b, length, signedness)
    quotient = abs(left) // abs(right) * (1 if (left < 0) == (right < 0) else -1)
    return {"*": left * right, "/": quotient, "%": left - quotient * right, "+": left + right, "-": left - right,
            "<<": a << b if b < 64 else 0, "<<<": a << b if b < 64 else 0, ">>": a >> b, ">>>": left >> b,
            "<": left < right, "<=": left <= right, ">": left > right, ">=": left >= right, "==": a == b, "!=": a != b,
            "&": a & b, "^": a ^ b, "~^": ~(a ^ b), "^~": ~(a ^ b), "|": a | b, "&&": a != 0 and b != 0, "||": a != 0 or b != 0}[op]


def unary_value(op, a, length):
    """What the operator gives of the operand, before it is cut to the length."""
    most, odd = (1 << length) - 1, a.bit_count() % 2
    return {"+": a, "-": -a, "!": a == 0, "~": ~a, "&": a == most, "~&": a != most, "|": a != 0, "~|": a == 0,
            "^": odd, "~^": 1 - odd, "^~": 1 - odd}[op]


def operand_edges(length):
    """Pairs of operands: the lowest number and -1, alternating bits and 3, and a small number beside amounts at and past the length."""
    most, half = (1 << length) - 1, 1 << (length - 1)
    pairs = [(half, most), ((2 << length) // 3 & ~1 | (length == 1), min(3, most)), ((half >> 1) + half & ~1, 1)]
    if length > 30:
        pairs += [(most - 4, length), (most - 4, 64), (7, length - 1)]
    return pairs


def edges():
    """Each operator on literals at the edges of each length: the length, the value and the expression."""
    for length in LENGTHS:
        most = (1 << length) - 1
        for signedness in SIGNEDNESSES:
            mark = f"{length}'{'s' if signedness == 'signed' else ''}h"
            for a, b in operand_edges(length):
                for op in BINARY + DIVISIONS:
                    yield length, int(binary_value(op, a, b, length, signedness)) & most, f"{mark}{a:x} {op} {mark}{b:x}"
            for a in sorted({0, 1, (1 << length) // 3, 1 << (length - 1), most}):
                for op in UNARY:
                    yield length, int(unary_value(op, a, length)) & most, f"{op} {mark}{a:x}"


def declared(signedness, length):
    return f"{'signed ' if signedness == 'signed' else ''}[{length - 1}:0]"


def module(all_rounds, all_constants):
    lines = ["module vectors;"]
    for parameter, length, signedness, value in PARAMETERS:
        lines.append(f"localparam {declared(signedness, length)} {parameter} = {length}'h{value:x};")
    for signal, length, signedness in SIGNALS:
        lines.append(f"reg {declared(signedness, length)} {signal};")
    steps = []
    for at, (values, asked) in enumerate(all_rounds):
        steps += [f"{signal} = 64'h{value:x};" for signal, value in values] + ["#1;"]
        for number, (target, text) in enumerate(asked):
            lines.append(f"wire [{target - 1}:0] y{at}_{number} = {text};")
            steps.append(f'$display("%h", y{at}_{number});')
    for number, text in enumerate(all_constants):
        # the operand of a join stands at its own length; the comparison is signed only where the expression is
        lines.append(f"wire [63:0] c{number} = {{{text}}};")
        lines.append(f"wire s{number} = ((({text}) & 1'sb0) | 1'sb1) < 1'sb0;")
        steps.append(f'$display("%0d %b %h", $bits({text}), s{number}, c{number});')
    return "\n".join(lines + ["initial begin", *steps, "end", "endmodule", ""])


def answers(text):
    """What vvp prints of a module, a line each."""
    with tempfile.TemporaryDirectory() as folder:
        source, program = os.path.join(folder, "vectors.v"), os.path.join(folder, "vectors.vvp")
        with open(source, "w", encoding="ascii") as file:
            file.write(text)
        subprocess.run(["iverilog", "-g2012", "-o", program, source], check=True)
        told = subprocess.run(["vvp", program], check=True, capture_output=True, text=True)
        return told.stdout.splitlines()


def main():
    all_rounds, all_constants = list(rounds()), list(constants())
    told = iter(answers(module(all_rounds, all_constants)))
    out = [f"signal {signal} {length} {signedness}" for signal, length, signedness in SIGNALS]
    out += [f"parameter {parameter} {length} {signedness} {value}" for parameter, length, signedness, value in PARAMETERS]
    for values, asked in all_rounds:
        out += [f"set {signal} {value}" for signal, value in values]
        for target, text in asked:
            answer = next(told)
            if "x" not in answer.lower():
                out.append(f"typed {target} {int(answer, 16)} {text}")
    for text in all_constants:
        length, signedness, answer = next(told).split()
        if "x" not in answer.lower():
            out.append(f"constant {length} {SIGNEDNESSES[int(signedness)]} {int(answer, 16)} {text}")
    out += [f"set {signal} {value}" for signal, value in OUTSIDE_VALUES]
    out += [f"typed 1 0 {text}" for text in OUTSIDE]
    out += [f"refused {rule} {column} {text}" for rule, column, text in REFUSED]
    out += [f"typed {length} {value} {text}" for length, value, text in dict.fromkeys(edges())]
    sys.stdout.write("\n".join(out) + "\n")


if __name__ == "__main__":
    main()
