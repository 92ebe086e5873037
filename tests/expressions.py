#!/usr/bin/env python3
"""Compares the values of expressions, and the rules that they break, with those of `expressions.txt`, which `bench/width_vectors.py` made of Icarus
Verilog's answers and says what a line may be. Each stretch of lines over the same values of the signals is one design, whose wires have the expressions,
and `./secv sim` prints their values. The last line is 'N passed, M failed'.
"""
import os

from harness import TOP, compare, finish, put, run


def lines():
    """The words of each line: its kind, and what stands behind that."""
    with open(os.path.join(TOP, "tests", "expressions.txt"), encoding="ascii") as file:
        return [line.rstrip("\n").split(" ", 1) for line in file]


def vector(width, signedness):
    return f"{'signed ' if signedness == 'signed' else ''}[{int(width) - 1}:0]"


def headed(signals, parameters, body):
    """A module whose inputs are the signals, with the parameters."""
    ports = ", ".join(f"input {vector(width, signedness)} {name}" for name, width, signedness in signals)
    given = "".join(f"  localparam {vector(width, signedness)} {name} = 64'd{value};\n" for name, width, signedness, value in parameters)
    return f"module m({ports});\n{given}{body}endmodule\n"


def wired(number, kind, rest):
    """The declarations for an expression, and the values that are wanted of its wires."""
    if kind == "typed":
        target, value, text = rest.split(" ", 2)
        return f"  wire [{int(target) - 1}:0] w{number} = {text};\n", {f"w{number}": int(value)}
    # the bits of a constant that are 0 tell its length, and a comparison with a number below 0 its signedness
    width, signedness, value, text = rest.split(" ", 3)
    name = f"c{number}"
    wanted = {f"v{number}": int(value), f"r{number}": 2 ** int(width) - 1 - int(value), f"s{number}": int(signedness == "signed")}
    return (f"  localparam {name} = {text};\n  wire [63:0] v{number} = {{{name}}}, r{number} = {{~{name}}};\n"
            f"  wire s{number} = -2'sd1 < ({name} & 2'sd0);\n"), wanted


def stretches():
    """The signals, their values, the parameters, and the expressions over these, for each stretch of lines."""
    signals, parameters, values, held = [], [], {}, []
    for kind, rest in lines():
        if kind in ("signal", "parameter", "set") and held:
            yield signals, parameters, values, held
            held = []
        if kind == "signal":
            signals.append(tuple(rest.split(" ")))
            values[signals[-1][0]] = 0
        elif kind == "parameter":
            parameters.append(tuple(rest.split(" ")))
        elif kind == "set":
            name, value = rest.split(" ")
            values[name] = int(value)
        else:
            held.append((kind, rest))
    yield signals, parameters, values, held


def printed(folder, signals, values, text):
    """The values of all signals in the one cycle that is simulated, or what is written in its place."""
    put(folder, "f", text)
    names = [name for name, *_ in signals]
    told, status = run(folder, "sim f", given=f"inputs {' '.join(names)}\n{' '.join(f'{values[name]:x}' for name in names)}\n".encode())
    if status:
        return told
    return {name: int(value, 16) for name, _, value in (word.partition("=") for word in told.split()[1:])}


def expressions(folder):
    for signals, parameters, values, held in stretches():
        body, wanted, shown = "", {}, {}
        for number, (kind, rest) in enumerate(held):
            if kind == "refused":
                broken(folder, signals, parameters, rest)
                continue
            made, wires = wired(number, kind, rest)
            body += made
            wanted.update(wires)
            shown.update(dict.fromkeys(wires, f"{kind} {rest}"))
        got = printed(folder, signals, values, headed(signals, parameters, body))
        for name, value in wanted.items():
            compare(shown[name], got.get(name) if isinstance(got, dict) else got, value)


def broken(folder, signals, parameters, rest):
    """The rule and the column of a refusal, where the expression has a line of its own, and stands where no length is asked for."""
    rule, column, text = rest.split(" ", 2)
    module = headed(signals, parameters, f"  wire w = 1'b0 << (\n{text}\n);\n")
    put(folder, "f", module)
    told, _ = run(folder, "sim f")
    line = module[:module.index(f"\n{text}\n")].count("\n") + 2
    words = told.split()
    compare(f"refused {rest}: {told!r}", (words[:2], words[3:4]), (["refused", rule], [f"{line}:{column}"]))


if __name__ == "__main__":
    finish([expressions])
