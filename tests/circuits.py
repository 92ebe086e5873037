#!/usr/bin/env python3
"""Has `./secv check` decide that each operator on words of three bits has the values that are worked out here, with whole numbers: a design shows a secret
where a value differs from a table of all values. With the whole table the design is accepted; with one wrong value it is refused at these very operands.
The last line is 'N passed, M failed'.
"""
from harness import compare, finish, put, run

BITS = 3
ALL = range(2**BITS)


def number(signed, value):
    """What three bits stand for."""
    return value - 2**BITS if signed and value >= 2**(BITS - 1) else value


def shifted(signed, a, b):
    """The bits of a number that is shifted to the right, where its sign is kept if it has one."""
    return number(signed, a) >> b


# An operator, what it makes of two words, and how many bits the value has.
BINARY = [
    ("*", lambda s, a, b: a * b, BITS), ("+", lambda s, a, b: a + b, BITS), ("-", lambda s, a, b: a - b, BITS),
    ("<<", lambda s, a, b: a << b, BITS), ("<<<", lambda s, a, b: a << b, BITS), (">>", lambda s, a, b: a >> b, BITS), (">>>", shifted, BITS),
    ("<", lambda s, a, b: number(s, a) < number(s, b), 1), ("<=", lambda s, a, b: number(s, a) <= number(s, b), 1),
    (">", lambda s, a, b: number(s, a) > number(s, b), 1), (">=", lambda s, a, b: number(s, a) >= number(s, b), 1),
    ("==", lambda s, a, b: a == b, 1), ("!=", lambda s, a, b: a != b, 1), ("&&", lambda s, a, b: a != 0 and b != 0, 1), ("||", lambda s, a, b: a != 0 or b != 0, 1),
    ("&", lambda s, a, b: a & b, BITS), ("^", lambda s, a, b: a ^ b, BITS), ("|", lambda s, a, b: a | b, BITS),
    ("~^", lambda s, a, b: ~(a ^ b), BITS), ("^~", lambda s, a, b: ~(a ^ b), BITS),
]
UNARY = [
    ("+", lambda a: a, BITS), ("-", lambda a: -a, BITS), ("!", lambda a: a == 0, 1), ("~", lambda a: ~a, BITS), ("&", lambda a: a == 7, 1), ("~&", lambda a: a != 7, 1),
    ("|", lambda a: a != 0, 1), ("~|", lambda a: a == 0, 1), ("^", lambda a: bin(a).count("1") % 2, 1), ("~^", lambda a: 1 - bin(a).count("1") % 2, 1),
]
# Other forms over `a` and `b`, their values and how many bits these have. A bit outside of a word is 0.
OTHERS = [
    ("a[b]", lambda a, b: a >> b & 1, 1), ("a[1]", lambda a, b: a >> 1 & 1, 1), ("a[2:1]", lambda a, b: a >> 1, 2), ("{a, b}", lambda a, b: a << BITS | b, 2 * BITS),
    ("{2{a}}", lambda a, b: a << BITS | a, 2 * BITS), ("b ? a : 3'd5", lambda a, b: a if b else 5, BITS), ("a == 5", lambda a, b: a == 5, 1),
    ("{a, 2'b10} >> b", lambda a, b: (a << 2 | 2) >> b, BITS + 2), ("a + b", lambda a, b: a + b, 2 * BITS),
]


def design(expression, signed, bits, values):
    """Shows the secret `h` where the expression has another value than the table says for `a` and `b`."""
    sign = "signed " if signed else ""
    arms = "".join(f"      {2 * BITS}'d{place}: t = {bits}'d{value};\n" for place, value in enumerate(values))
    return (f"module m(input {sign}[{BITS - 1}:0] a, input {sign}[{BITS - 1}:0] b, input {{H}} h, output y);\n"
            f"  reg [{bits - 1}:0] t;\n  wire [{bits - 1}:0] w = {expression};\n"
            f"  always @*\n    case ({{b, a}})\n{arms}    endcase\n  assign y = w == t ? 0 : h;\nendmodule\n")


def decided(folder, expression, signed, bits, value):
    """The whole table is accepted, and one with a wrong value is refused at the operands of that value."""
    values = [int(value(a, b)) % 2**bits for b in ALL for a in ALL]
    what = f"{'signed' if signed else 'unsigned'} {expression}"
    put(folder, "f", design(expression, signed, bits, values))
    compare(what, run(folder, "check f")[0].partition(" ")[0], "accepted")
    place = sum(map(ord, expression)) % len(values)
    values[place] ^= 1
    put(folder, "f", design(expression, signed, bits, values))
    told = run(folder, "check f")[0].split("\n")
    compare(f"{what}, with one wrong value", (told[0].split()[-3:], told[1:]),
            (["y", "from", "h"], [f"in a {place % 2**BITS:x}", f"in b {place >> BITS:x}", "in h 0", ""]))


def circuits(folder):
    for signed in (False, True):
        for operator, value, bits in BINARY:
            decided(folder, f"a {operator} b", signed, bits, lambda a, b, s=signed, it=value: it(s, a, b))
        for operator, value, bits in UNARY:
            decided(folder, f"{operator} a", signed, bits, lambda a, b, it=value: it(a))
    for expression, value, bits in OTHERS:
        decided(folder, expression, False, bits, value)
    decided(folder, "a", True, 2 * BITS, lambda a, b: number(True, a))


if __name__ == "__main__":
    finish([circuits])
