#!/usr/bin/env python3
"""Compares whole outputs and statuses of `./secv compare`: two runs that a level cannot tell apart, or tells apart by what was given, by what followed or
by their length; starts of registers, labels that hide a signal in one run alone, stimuli that are wrong, missing or at the limit of their size; and
drawn pairs of runs of designs whose views are worked out here, signal by signal. Each row was worked by hand from docs/formats.md, or by a second
reading of it that shares nothing with the program. The last line is 'N passed, M failed'.
"""
import collections
import os
import random
import re

from as_a_user import MANY
from harness import compare, documented, finish, put, put_zeros, run, status_of
from outputs import COUNTERS, GATE, TURN
from verdicts import CLEARED, DOM, END, HELD, MULTIPLIER, TURNED_LEAK

MOST_STIMULUS = 67108864
PAIRS = 40
# Two runs that differ in the secret `b` alone, and a second one that differs in `a` too.
FIRST, SECOND = "inputs turn a b\n0 1 0\n1 1 1\n", "inputs turn a b\n0 1 1\n1 1 0\n"
OTHER = "inputs turn a b\n0 0 1\n1 1 0\n"
REGISTER = "module m(input clk, input [3:0] d, output reg [3:0] q);\n  always @(posedge clk) q <= d;\n" + END
SECRET_REGISTER = REGISTER.replace("[3:0] q", "[3:0] {H} q")
# `s` picks whether `d`, or `y`, which never changes, is public.
HIDING_INPUT = DOM + "module m(input {H} s, input {D(s)} d, output {H} y);\n  assign y = d;\n" + END
HIDING_OUTPUT = DOM + "module m(input {H} s, output {D(s)} y);\n  assign y = 0;\n" + END
TIMED = MULTIPLIER.replace("{H} busy", "{L} busy")
FOUR = ("lattice point A, B, C, E; A <= B; A <= C; B <= E; C <= E; endlattice\nlabelmap M [1:0] 0: A; 1: B; 2: C; 3: E; endlabelmap\n"
        "module m(input [1:0] s, input {M(s)} x, input {B} b, input {C} c, output {E} y, output {B} z);\n  assign y = x ^ b ^ c;\n  assign z = b;\n" + END)
FOUR_FIRST = "inputs s x b c\n1 0 1 0\n2 1 1 1\n"
COUNTED = "inputs en\n0\n"


def product(operand, cycles=12):
    """A stimulus that starts a product and then waits."""
    return f"inputs go x z\n1 {operand} 3\n" + "0 0 0\n" * (cycles - 1)


# The design, both stimuli, the words behind `compare f A B`, and what is written.
COMPARED = [
    # a label by a value, kept and leaked, at both levels
    (TURN, FIRST, SECOND, "--level L", "equal 2 cycles\n"),
    (TURNED_LEAK, FIRST, SECOND, "--level L", "differ view 0 y\n"),
    (TURN, FIRST, OTHER, "--level L", "differ input 0 a\n"),
    (TURN, OTHER, FIRST, "--level=L --top top", "differ input 0 a\n"),
    (TURN, FIRST, SECOND, "--level H", "differ input 0 b\n"),
    (TURN, FIRST, FIRST, "--level H", "equal 2 cycles\n"),
    (TURN, FIRST, "inputs turn a b\n0 1 1\n1 0 0\n", "--level L", "differ input 1 a\n"),
    (TURN, FIRST, "inputs turn a b\n0 1 1\n0 0 1\n", "--level L", "differ input 1 turn\n"),
    # 1,000 cycles, alike, and told apart in the last
    (TURN, "inputs turn a b\n" + "0 1 0\n1 1 1\n" * 500, "inputs turn a b\n" + "0 1 1\n1 1 0\n" * 500, "--level L", "equal 1000 cycles\n"),
    (TURNED_LEAK, "inputs turn a b\n" + "1 1 1\n" * 999 + "0 1 0\n", "inputs turn a b\n" + "1 1 1\n" * 999 + "0 1 1\n", "--level L", "differ view 999 y\n"),
    # in one cycle what was given comes first, but a view comes before what a later cycle is given
    (TURNED_LEAK, FIRST, OTHER, "--level L", "differ input 0 a\n"),
    (TURNED_LEAK, FIRST, "inputs turn a b\n0 1 1\n0 0 0\n", "--level L", "differ view 0 y\n"),
    # lengths, told after all cycles of the shorter one
    (TURN, FIRST, "inputs turn a b\n0 1 1\n", "--level L", "differ length 1\n"),
    (TURN, "inputs turn a b\n0 1 1\n", FIRST, "--level L", "differ length 1\n"),
    (TURN, FIRST, SECOND + "0 0 0\n", "--level L", "differ length 2\n"),
    (TURN, FIRST, SECOND + "0 0 0", "--level L", "differ length 2\n"),
    (TURNED_LEAK, FIRST, "inputs turn a b\n0 1 1\n", "--level L", "differ view 0 y\n"),
    (TURN, "inputs turn a b\n" + "0 1 1\n" * 1000, "inputs turn a b\n" + "0 1 0\n" * 999, "--level L", "differ length 999\n"),
    (GATE, "inputs a b\n0 1\n", "inputs a b\n0 1\n1 1\n", "--level H", "differ length 1\n"),
    # no cycle in one, or in both: then no register is looked at
    (TURN, "inputs turn a b\n", FIRST, "--level L", "differ length 0\n"),
    (TURN, FIRST, "inputs turn a b", "--level L", "differ length 0\n"),
    (TURN, "inputs turn a b\n", "inputs turn a b", "--level L", "equal 0 cycles\n"),
    (REGISTER, "start q 1\ninputs d\n", "inputs d\n3\n", "--level L", "differ length 0\n"),
    (REGISTER, "start q 1\ninputs d\n", "inputs d\n", "--level L", "equal 0 cycles\n"),
    # starts of registers are given, as inputs are, but only as far as they are seen
    (REGISTER, "start q 1\ninputs d\n3\n", "inputs d\n3\n", "--level L", "differ input 0 q\n"),
    (REGISTER, "start q 1\ninputs d\n3\n4\n", "start q 01\ninputs d\n3\n4\n", "--level L", "equal 2 cycles\n"),
    (REGISTER, "start q 0\ninputs d\n3\n", "inputs d\n3\n", "--level L", "equal 1 cycles\n"),
    (REGISTER, "start q 1\ninputs d\n3\n", "inputs d\n4\n", "--level L", "differ input 0 d\n"),
    (SECRET_REGISTER, "start q 1\ninputs d\n3\n", "inputs d\n3\n", "--level L", "equal 1 cycles\n"),
    (SECRET_REGISTER, "start q 1\ninputs d\n3\n", "inputs d\n3\n", "--level H", "differ input 0 q\n"),
    (HELD, "start owner 1\nstart r 12\ninputs nxt k\n0 1\n0 1\n", "start owner 1\nstart r 34\ninputs nxt k\n0 1\n0 1\n", "--level L", "differ view 1 r\n"),
    (HELD, "start owner 1\nstart r 12\ninputs nxt k\n1 1\n0 1\n", "start owner 1\nstart r 34\ninputs nxt k\n1 1\n0 1\n", "--level L", "equal 2 cycles\n"),
    (CLEARED, "start owner 1\nstart r 12\ninputs nxt k\n0 1\n1 2\n1 3\n", "start owner 1\nstart r 34\ninputs nxt k\n0 2\n1 4\n1 6\n", "--level L", "equal 3 cycles\n"),
    # registers of instances, the first of which in signal order is told
    (COUNTERS, "start u.q 1\n" + COUNTED, "start u.q 2\n" + COUNTED, "--level L", "differ input 0 u.q\n"),
    (COUNTERS, "start v.q 80\n" + COUNTED, COUNTED, "--level L", "differ input 0 v.q\n"),
    (COUNTERS, "start v.q 1\nstart u.q 1\n" + COUNTED, COUNTED, "--level L", "differ input 0 u.q\n"),
    (COUNTERS, "start v.q 1\nstart u.q f\n" + COUNTED, "start u.q 0F\nstart v.q 01\n" + COUNTED, "--level L", "equal 1 cycles\n"),
    (COUNTERS, "start v.q 1\n" + COUNTED, "start u.q 1\ninputs en\n1\n", "--level L", "differ input 0 en\n"),
    (COUNTERS, "start q 1\ninputs en\n0\n1\n", "start q 1\ninputs en\n0\n1\n", "--level L --top cnt", "equal 2 cycles\n"),
    (COUNTERS, "start u.q 10\n" + COUNTED, COUNTED, "--level L", "refused stimulus A 1 value\n"),
    (COUNTERS, COUNTED, "start w.q 1\n" + COUNTED, "--level L", "refused stimulus B 1 name\n"),
    # a label that hides the signal in one run alone, whatever its value is
    (HIDING_INPUT, "inputs s d\n0 1\n", "inputs s d\n1 1\n", "--level L", "differ input 0 d\n"),
    (HIDING_INPUT, "inputs s d\n1 1\n", "inputs s d\n0 1\n", "--level L", "differ input 0 d\n"),
    (HIDING_INPUT, "inputs s d\n1 1\n", "inputs s d\n1 0\n", "--level L", "equal 1 cycles\n"),
    (HIDING_OUTPUT, "inputs s\n0\n", "inputs s\n1\n", "--level L", "differ view 0 y\n"),
    (HIDING_OUTPUT, "inputs s\n1\n", "inputs s\n0\n", "--level L", "differ view 0 y\n"),
    (HIDING_OUTPUT, "inputs s\n1\n1\n0\n", "inputs s\n1\n1\n1\n", "--level L", "differ view 2 y\n"),
    (HIDING_OUTPUT, "inputs s\n1\n", "inputs s\n0\n", "--level H", "differ input 0 s\n"),
    # a lattice of four points
    (FOUR, FOUR_FIRST, "inputs s x b c\n1 0 1 1\n2 0 1 0\n", "--level A", "equal 2 cycles\n"),
    (FOUR, FOUR_FIRST, "inputs s x b c\n1 0 1 1\n2 0 1 0\n", "--level B", "equal 2 cycles\n"),
    (FOUR, FOUR_FIRST, "inputs s x b c\n1 1 1 0\n2 1 0 1\n", "--level B", "differ input 0 x\n"),
    (FOUR, FOUR_FIRST, "inputs s x b c\n1 0 1 1\n2 0 1 0\n", "--level C", "differ input 0 c\n"),
    (FOUR, FOUR_FIRST, "inputs s x b c\n1 1 1 0\n2 1 0 1\n", "--level C", "equal 2 cycles\n"),
    # the time that a product takes: of 1 one step, of 80 eight, of 40 seven
    (TIMED, product("1"), product("80"), "--level L", "differ view 3 busy\n"),
    (TIMED, product("40"), product("80"), "--level L", "differ view 9 busy\n"),
    (TIMED, product("80"), product("ff"), "--level L", "equal 12 cycles\n"),
    (MULTIPLIER, product("1"), product("80"), "--level L", "equal 12 cycles\n"),
    # no inputs, and a text with more paths than `check` takes
    ("module m(output y);\n  assign y = 1;\n" + END, "inputs\n\n\n", "inputs\n\n\n", "--level L", "equal 2 cycles\n"),
    (MANY, "inputs s t\n0 0\n", "inputs s t\n0 1\n", "--level L", "differ input 0 t\n"),
    # a point that is none comes before the stimuli, and what the text breaks before it
    (TURN, "x", "y", "--level X", "refused 707 level\n"),
    (TURN, "x", "y", "--level=", "refused 707 level\n"),
    (TURN, FIRST, SECOND, "--level l", "refused 707 level\n"),
    ("module m(output y); endmodule", FIRST, SECOND, "--level X", "refused 604 undriven 1:17 y\n"),
    (TURN, FIRST, SECOND, "--level X --top n", "refused 310 no-top 1:1\n"),
    ("module m(input a, output y); invariant a; assign y = a; endmodule", FIRST, SECOND, "--level L", "refused 199 not-built 1:1\n"),
    # stimuli that are wrong: A is read first, and whole
    (TURN, "zz\n", "zz\n", "--level L", "refused stimulus A 1 header\n"),
    (TURN, FIRST, "", "--level L", "refused stimulus B 1 header\n"),
    (TURN, FIRST, "inputs turn a b\n0 1 2\n", "--level L", "refused stimulus B 2 value\n"),
    (TURN, "inputs turn a b\n0 1 0\n0 1\n", "x\n", "--level L", "refused stimulus A 3 value\n"),
    (TURN, OTHER + "x", FIRST, "--level L", "refused stimulus A 4 value\n"),
    (TURN, FIRST, OTHER + "0 1 10\n", "--level L", "refused stimulus B 4 value\n"),
    (REGISTER, "start q 1\nstart q 1\ninputs d\n", "inputs d\n", "--level L", "refused stimulus A 2 name\n"),
    (REGISTER, "inputs d\n", "start p 1\ninputs d\n", "--level L", "refused stimulus B 1 name\n"),
    (TURN, FIRST + "0" * 1048577, SECOND, "--level L", "refused stimulus A 4 too-long\n"),
    (TURN, FIRST, SECOND + "0" * 1048577 + "\n", "--level L", "refused stimulus B 4 too-long\n"),
    (TURN, FIRST.replace("\n", "\r\n"), SECOND, "--level L", "refused stimulus A 1 header\n"),
]
# Words that the command does not take, and such as it takes in another order.
WRONG = ["compare", "compare f", "compare f A", "compare f A B", "compare f A B C --level L", "compare f A B --level", "compare f A B --level L --level L",
         "compare f A B --level L --order 1", "compare f A B --level L --json", "compare f A B --level L --top", "compare f A B -h", "compare f A B --level L --help"]
TAKEN = ["compare --level L f A B", "compare f --level=L A B", "compare --top top f A --level L B", "compare --level L -- f A B"]

# A signal in a cycle: its name, whether it is an "input", a "register" or another one, its value, and whether the level L sees it.
Row = collections.namedtuple("Row", "name kind value seen")
# A design: its text, the widths of its inputs and of its registers, the rows of a cycle in signal order from the registers and the inputs, and the next
# registers. Registers start at values that are drawn.
Model = collections.namedtuple("Model", "text inputs registers rows step")


def turned(text, picked, other):
    """A choice by `turn`, whose output has the label of `turn`: of `picked` where it is 1, of `other` where it is 0."""
    def rows(_, turn, a, b):
        ways = {"a": a, "b": b}
        return [Row("turn", "input", turn, True), Row("a", "input", a, True), Row("b", "input", b, False),
                Row("y", "other", ways[picked if turn else other], not turn)]
    return Model(text, {"turn": 1, "a": 1, "b": 1}, {}, rows, lambda *_: ())


def held(text, kept):
    """A register `r` that is public while `owner` is 0, and keeps its value, or is cleared, where nothing is assigned to it."""
    def rows(registers, nxt, k):
        owner, r = registers
        return [Row("nxt", "input", nxt, True), Row("k", "input", k, False), Row("owner", "register", owner, True), Row("r", "register", r, not owner)]

    def step(registers, nxt, k):
        return (nxt, k if nxt else registers[1] if kept else 0)
    return Model(text, {"nxt": 1, "k": 2}, {"owner": 1, "r": 2}, rows, step)


MODELS = [turned(TURN, "b", "a"), turned(TURNED_LEAK, "a", "b"), held(HELD, True), held(CLEARED, False)]


def traced(model, stimulus):
    """The rows of each cycle of a stimulus: the starts, and the inputs of each cycle."""
    registers, cycles = stimulus
    trace = []
    for given in cycles:
        trace.append(model.rows(registers, *given))
        registers = model.step(registers, *given)
    return trace


def differing(one, other, counts):
    """The first signal that counts and that stands in one view alone or with two values."""
    return next((a.name for a, b in zip(one, other) if counts(a) and (a.seen, a.seen and a.value) != (b.seen, b.seen and b.value)), None)


def found(model, first, second):
    """What tells two runs apart at the level L."""
    one, other = traced(model, first), traced(model, second)
    for cycle, (a, b) in enumerate(zip(one, other)):
        given = {"input", "register"} if cycle == 0 else {"input"}
        for word, kinds in (("input", given), ("view", {"input", "register", "other"})):
            name = differing(a, b, lambda row: row.kind in kinds)
            if name:
                return f"differ {word} {cycle} {name}\n"
    shorter = min(len(one), len(other))
    return f"equal {shorter} cycles\n" if len(one) == len(other) else f"differ length {shorter}\n"


def written(model, stimulus):
    """The text of a stimulus."""
    registers, cycles = stimulus
    starts = "".join(f"start {name} {value:x}\n" for name, value in zip(model.registers, registers))
    return starts + f"inputs {' '.join(model.inputs)}\n" + "".join(" ".join(f"{value:x}" for value in given) + "\n" for given in cycles)


def drawn(draw, model):
    """Two stimuli that differ in few values, mostly of what the level L does not see."""
    widths = list(model.inputs.values())
    first = tuple(draw.getrandbits(width) for width in model.registers.values()), [tuple(draw.getrandbits(w) for w in widths) for _ in range(draw.randrange(7))]
    registers = tuple(draw.getrandbits(width) if draw.randrange(3) == 0 else value for width, value in zip(model.registers.values(), first[0]))
    cycles = [(*(draw.getrandbits(w) if draw.randrange(12) == 0 else value for w, value in zip(widths[:-1], given)), draw.getrandbits(widths[-1]))
              for given in first[1]]
    return first, (registers, cycles[:-1] if draw.randrange(6) == 0 else cycles)


def rows(folder):
    for text, first, second, words, wanted in COMPARED:
        put(folder, "f", text)
        put(folder, "A", first)
        put(folder, "B", second)
        compare(f"compare f A B {words}: {text[:80]!r} {first[:60]!r} {second[:60]!r}", run(folder, f"compare f A B {words}"), (wanted, status_of(wanted)))


def pairs(folder):
    """Drawn pairs of runs, and of designs that keep their secrets never two views."""
    draw, told = random.Random(17), collections.Counter()
    for model in MODELS:
        put(folder, "f", model.text)
        for _ in range(PAIRS):
            first, second = drawn(draw, model)
            wanted = found(model, first, second)
            put(folder, "A", written(model, first))
            put(folder, "B", written(model, second))
            compare(f"{written(model, first)!r} and {written(model, second)!r} of {model.text[:80]!r}", run(folder, "compare f A B --level L"), (wanted, status_of(wanted)))
            told[model.text, " ".join(wanted.split()[:2 if wanted.startswith("differ") else 1])] += 1
    compare("what keeps its secrets never shows two views", [told[text, "differ view"] for text in (TURN, CLEARED)], [0, 0])
    compare("each outcome is drawn", [min(told[model.text, kind] for model in MODELS) > 0 for kind in ("equal", "differ input", "differ length")], [True] * 3)
    compare("leaks are drawn", [told[text, "differ view"] > 0 for text in (TURNED_LEAK, HELD)], [True] * 2)


def one_file(folder):
    """A and B by one name, and a design as its own stimulus."""
    put(folder, "A", FIRST)
    for text, level in ((TURN, "L"), (TURNED_LEAK, "L"), (TURNED_LEAK, "H")):
        put(folder, "f", text)
        compare(f"one file: {text[:80]!r}", run(folder, f"compare f A A --level {level}"), ("equal 2 cycles\n", 0))
    compare("the design itself", run(folder, "compare f f A --level L"), ("refused stimulus A 1 header\n", 1))
    compare("the design itself, second", run(folder, "compare f A f --level L"), ("refused stimulus B 1 header\n", 1))
    compare("a stimulus as the design", run(folder, "compare A A A --level L"), ("refused 201 unexpected 1:1\n", 1))


def missing(folder):
    """Files that are not there, in the order in which they are asked for."""
    put(folder, "f", TURN)
    os.mkdir(os.path.join(folder, "d"))
    compare("neither is there", run(folder, "compare f A B --level L"), ("", 4))
    compare("the level comes before them", run(folder, "compare f A B --level X"), ("refused 707 level\n", 1))
    compare("what the text breaks does, too", run(folder, "compare f A B --level L --top n"), ("refused 310 no-top 1:1\n", 1))
    put(folder, "B", SECOND)
    compare("A is missing", run(folder, "compare f A B --level L"), ("", 4))
    compare("A is a folder", run(folder, "compare f d B --level L"), ("", 4))
    put(folder, "A", FIRST)
    os.remove(os.path.join(folder, "B"))
    compare("B is missing", run(folder, "compare f A B --level L"), ("", 4))
    compare("B is a folder", run(folder, "compare f A d --level L"), ("", 4))
    put(folder, "A", "wrong")
    compare("A is read after B is fetched", run(folder, "compare f A B --level L"), ("", 4))
    compare("the text is missing", run(folder, "compare none A B --level L"), ("", 4))
    compare("a name that is empty", run(folder, ["compare", "f", "", "A", "--level", "L"]), ("", 4))


def sizes(folder):
    """Stimuli of as many bytes as may be, and of one more; sizes are asked before A is read."""
    put(folder, "f", TURN)
    for name, size in (("most", MOST_STIMULUS), ("more", MOST_STIMULUS + 1), ("huge", 1 << 33)):
        put_zeros(folder, name, size)
    put(folder, "A", FIRST)
    put(folder, "w", "wrong")
    for words, wanted in (("A most", "refused stimulus B 1 too-long\n"), ("most A", "refused stimulus A 1 too-long\n"), ("most most", "refused stimulus A 1 too-long\n"),
                          ("A more", "refused 711 stimulus-file B\n"), ("more A", "refused 711 stimulus-file A\n"), ("more more", "refused 711 stimulus-file A\n"),
                          ("w more", "refused 711 stimulus-file B\n"), ("more none", "refused 711 stimulus-file A\n"), ("huge A", "refused 711 stimulus-file A\n"),
                          ("A huge", "refused 711 stimulus-file B\n"), ("most more", "refused 711 stimulus-file B\n")):
        compare(f"compare f {words}", run(folder, f"compare f {words} --level L"), (wanted, 1))
    compare("none comes before a file that is too large", run(folder, "compare f none more --level L"), ("", 4))
    compare("the level comes before sizes", run(folder, "compare f more more --level X"), ("refused 707 level\n", 1))


def most_bytes(folder):
    """Cycles that fill as many bytes as may be, and a line feed more; they are of 4,000 secret inputs, so that few cycles do."""
    count = 4000
    names = [f"a{i}" for i in range(count)]
    put(folder, "f", "module m(" + "".join(f"input {{H}} {name}, " for name in names) + "output y); assign y = 1; endmodule\n")
    header, line = f"inputs {' '.join(names)}\n", " ".join(["0" * 16] * count) + "\n"
    lines, rest = divmod(MOST_STIMULUS - len(header), len(line))
    digits, more = divmod(rest - (count - 1), count)
    last = " ".join("0" * (digits + (i < more)) for i in range(count))
    full = header + line * lines + last
    put(folder, "A", full)
    put(folder, "B", full.replace("\n" + "0" * 16, "\n" + "0" * 15 + "1"))
    put(folder, "C", full + "\n")
    compare("the stimulus is as large as may be", len(full), MOST_STIMULUS)
    compare("two of them", run(folder, "compare f A B --level L"), (f"equal {lines + 1} cycles\n", 0))
    compare("at the level of the secrets", run(folder, "compare f A B --level H"), ("differ input 0 a0\n", 1))
    compare("the second has a byte more", run(folder, "compare f A C --level L"), ("refused 711 stimulus-file B\n", 1))
    compare("the first has a byte more", run(folder, "compare f C A --level L"), ("refused 711 stimulus-file A\n", 1))


def words(folder):
    put(folder, "f", TURN)
    put(folder, "A", FIRST)
    put(folder, "B", SECOND)
    for line in WRONG:
        compare(line, run(folder, line), ("usage words\n", 2))
    for line in TAKEN:
        compare(line, run(folder, line), ("equal 2 cycles\n", 0))
    with open("/dev/full", "wb") as full:
        compare("a full device", run(folder, "compare f A B --level L", stdout=full)[1], 5)
        put(folder, "B", OTHER)
        compare("a full device, of a difference", run(folder, "compare f A B --level L", stdout=full)[1], 5)


def examples(folder):
    """The example of docs/formats.md: a design that leaks, two stimuli, and what is written; the mended design, and the other second stimulus."""
    text = documented("Comparisons")
    design, first, second, told, third = re.findall(r"^```(?:verilog)?\n(.*?)^```$", text, re.M | re.S)
    put(folder, "leak", design)
    put(folder, "mended", design.replace("turn ? a : b", "turn ? b : a"))
    for name, stimulus in (("A", first), ("B", second), ("C", third)):
        put(folder, name, stimulus)
    compare("the example", run(folder, "compare leak A B --level L"), (told, 1))
    for line, wanted in (("compare mended A B --level L", "equal 2 cycles"), ("compare mended A C --level L", "differ input 0 a")):
        compare(f"the example: {line}", run(folder, line), (f"{wanted}\n", status_of(wanted)))
        compare(f"it tells of {line}", f"`{wanted}`" in text, True)


if __name__ == "__main__":
    finish([rows, pairs, one_file, missing, sizes, most_bytes, words, examples])
