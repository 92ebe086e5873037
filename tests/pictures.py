#!/usr/bin/env python3
"""Tries tools/wave, tools/flows and bench/plot.py. A VCD that is made of a run is read back by a reader of its own, written from IEEE 1364-2005, clause 18, and gives the
trace again, with hierarchy and widths; so do two runs in one, with their marker. Traces that are wrong are refused, at their lines. A graph has the edges that
`./secv list` tells, and labels, shapes and colours that were worked by hand. The picture of docs/guide/ has the nodes and edges of its graph; where Graphviz is
installed, it is drawn anew, else that is told as not run.. The last line is 'N passed, M failed'.
"""
import colorsys
import os
import re
import shutil
import subprocess
import sys
import xml.etree.ElementTree as ElementTree

from harness import MOST_SECONDS, SECV, TOP, call, compare, documented, finish, leave_out, put, run
from comparisons import FOUR, HIDING_OUTPUT
from outputs import COUNTERS, GATE, LISTS, TURN
from verdicts import lanes

WAVE, FLOWS = os.path.join(TOP, "tools", "wave"), os.path.join(TOP, "tools", "flows")
# Parameters by name and by order, with and without a header, and what may look like a declaration or an instance.
PARAMETERS = """`timescale 1ns/1ps
// module other(input [3:0] d); endmodule
module part #(parameter W = 2, V = W + 1, parameter [3:0] S = 9, T = 3, parameter X = 20) (input clk, input [W-1:0] d, output reg [V-1:0] q, p, output [S:0] s);
  localparam D = 2 * W, E = D > 6 ? D - 1 : 6;
  parameter F = 30;
  wire [D-1:0] e = d;
  wire signed [E<<1:0] f = {d, d};
  wire [T:0] t = d;
  wire [X:0] x = d;
  assign s = f;
  always @(posedge clk) begin : block
    if (d[0]) q <= d; else begin case (d) 1: q <= (d); default: if (e[0]) q <= 0; endcase end
    p <= e;
  end
endmodule
module old(input a, output z);
  parameter N = 3, M = N;
  /* reg [9:0] w; */
  wire [M:0] w = a;
  assign z = w;
endmodule
module top(input clk, input [7:0] d, output [4'd3 + 8'h2:0] {L} y, z);
  assign y = d, z = ~d;
  part u(.clk(clk), .d(d));
  part #(5) v(.clk(clk), .d(d));
  part #(.S(3), .V(4)) w(.clk(clk), .d(d));
  old #(4) g(.a(d[0])), h(.a(d[1]));
  old #(4, 1) i(.a(d[2]));
  old #(.M(7)) j(.a(d[3]));
endmodule
"""
PART = {"d": 2, "q": 3, "p": 3, "s": 10, "e": 4, "f": 13, "t": 4, "x": 21}
PARAMETER_WIDTHS = {
    "d": 8, "y": 6, "z": 6, **{f"u.{name}": width for name, width in PART.items()},
    **{f"v.{name}": width for name, width in {**PART, "d": 5, "q": 6, "p": 6, "e": 10, "f": 19}.items()},
    **{f"w.{name}": width for name, width in {**PART, "q": 4, "p": 4, "s": 4}.items()},
    **{f"{name}.{inner}": width for name, w in (("g", 5), ("h", 5), ("i", 2), ("j", 8)) for inner, width in (("a", 1), ("z", 1), ("w", w))},
}
MULTIPLIER = {"rst": 1, "request": 1, "take": 1, "x": 8, "z": 8, "ready": 1, "busy": 1, "done": 1, "product": 16, "left": 8, "shifted": 16}
LANE = {"turn": 1, "req": 1, "bin": 1, "d": 8, "g": 1, "lo": 8, "hi": 8, "bout": 1}
LANE_WIDTHS = {"turn": 1, **{f"{name}{i}": width for i in range(12) for name, width in (("r", 1), ("d", 8), ("g", 1), ("l", 8), ("h", 8))},
               **{f"b{i}": 1 for i in range(12)}, **{f"u{i}.{name}": width for i in range(12) for name, width in LANE.items()}}
# A design whose bound the reader of declarations does not work out: it is 7.
UNTOLD = "module m #(parameter W = -4 + 12) (input [W-1:0] a, output [{W}-1:0] b, output y);\n  assign b = a, y = 0;\nendmodule\n"
# Instances that stand in one another, close to as deep as they may.
DEPTH = 1000
NESTED = "".join(f"module m{i}(input a, output y); m{i + 1} u(a, y); endmodule\n" for i in range(DEPTH)) + f"module m{DEPTH}(input a, output y); assign y = ~a; endmodule\n"
OWNER = "module m(input nxt, input [7:0] k, output [7:0] r);\n  assign r = k;\nendmodule\n"

# Traces of OWNER that are wrong, and where and why they are refused.
WRONG = [
    ("", "1 of t: the trace has no cycle"),
    ("rounds 0\n", "1 of t: the trace has no cycle"),
    ("0 nxt=1", "1 of t: it has no end, so the trace is cut off"),
    ("0 nxt=1\n1 nxt=0\n2 nx", "3 of t: it has no end, so the trace is cut off"),
    ("\n", "1 of t: it does not begin with the number of its cycle, 0"),
    ("1 nxt=1\n", "1 of t: it does not begin with the number of its cycle, 0"),
    ("00 nxt=1\n", "1 of t: it does not begin with the number of its cycle, 0"),
    (" 0 nxt=1\n", "1 of t: it does not begin with the number of its cycle, 0"),
    ("0 nxt=1\n0 nxt=1\n", "2 of t: it does not begin with the number of its cycle, 1"),
    ("0 nxt=1\n2 nxt=1\n", "2 of t: it does not begin with the number of its cycle, 1"),
    ("0 nxt=1\nrounds 01\n", "2 of t: it does not begin with the number of its cycle, 1"),
    ("inputs nxt k\n1 5\n", "1 of t: it does not begin with the number of its cycle, 0"),
    ("0 nxt=1\nrounds 1\n1 nxt=1\n", "3 of t: nothing stands behind the rounds"),
    ("0 nxt=1\nrounds 1\nrounds 1\n", "3 of t: nothing stands behind the rounds"),
    ("0 nxt=1\nrefused stimulus input 3 value\n", "2 of t: the simulation ended here: refused stimulus input 3 value"),
    ("refused 604 undriven 1:17 y\n", "1 of t: the simulation ended here: refused 604 undriven 1:17 y"),
    ("0 nxt=1 k=2 nxt=1\n", "1 of t: nxt stands there twice"),
    ("0 nxt=1\n1 nxt=2\n", "2 of t: nxt=2 needs more than the 1 bits that the design declares"),
    ("0 nxt=1 k=ff\n1 k=100\n", "2 of t: k=100 needs more than the 8 bits that the design declares"),
    *((f"0 nxt=1\n1 {word}\n", f"2 of t: {ascii(word)} is no NAME=VALUE") for word in (
        "nxt", "nxt=", "=1", "nxt=01", "k=F", "k=0x1", "k=g", "k=x", ".k=1", "k.=1", "k..k=1", "1k=1", "$k=1", "k-1=1", "k==1", "nxt=1=1", "k=-1", "k=1\r",
        "k=11111111111111111", "k=1\t", "\xe9=1", "k=\xb2", "k=1\x00")),
    ("0 nxt=1 \n", "1 of t: '' is no NAME=VALUE"),
    ("0  nxt=1\n", "1 of t: '' is no NAME=VALUE"),
]


class Vcd:
    """A file of clause 18, read whole: `variables` are the width and the type of each by its path, and `steps` the values at each time, None for x."""

    UNITS = {number + unit for number in ("1", "10", "100") for unit in ("s", "ms", "us", "ns", "ps", "fs")}

    def __init__(self, text):
        self.words = text.split()
        self.variables, self.codes, self.scopes, self.has_scale, self.dumped = {}, {}, [], False, False
        while (word := self.words.pop(0)) != "$enddefinitions":
            getattr(self, "read_" + word.removeprefix("$"))(self.words_to_end())
        assert not self.scopes and self.has_scale and self.words_to_end() == []
        self.times, self.steps, self.now = [], [], dict.fromkeys(self.variables)
        while self.words:
            self.read_change(self.words.pop(0))
        assert self.dumped
        self.keep_until(self.times[-1])

    def words_to_end(self):
        end = self.words.index("$end")
        taken, self.words[:end + 1] = self.words[:end], []
        return taken

    def read_comment(self, _):
        pass

    def read_timescale(self, words):
        assert "".join(words) in self.UNITS and not self.has_scale
        self.has_scale = True

    def read_scope(self, words):
        kind, name = words
        assert kind == "module"
        self.scopes.append(name)

    def read_upscope(self, words):
        assert not words
        self.scopes.pop()

    def read_var(self, words):
        kind, size, code, name, *bounds = words
        assert kind in ("wire", "reg") and code not in self.codes and all(33 <= ord(each) <= 126 for each in code)
        assert bounds == ([] if size == "1" else [f"[{int(size) - 1}:0]"])
        path = ".".join([*self.scopes, name])
        assert path not in self.variables and self.scopes
        self.variables[path], self.codes[code] = (int(size), kind), path

    def read_change(self, word):
        if word[0] == "#":
            time = int(word[1:])
            assert not self.times and time == 0 or time > self.times[-1]
            if self.times:
                self.keep_until(time)
            self.times.append(time)
        elif word == "$dumpvars":
            assert self.times == [0] and not self.dumped
            count = 0
            while (inner := self.words.pop(0)) != "$end":
                self.read_change(inner)
                count += 1
            assert count == len(self.variables)
            self.dumped = True
        elif word[0] in "bB":
            self.change(word[1:].lower(), self.words.pop(0), False)
        else:
            self.change(word[0].lower(), word[1:], True)

    def change(self, digits, code, is_scalar):
        path = self.codes[code]
        width = self.variables[path][0]
        assert re.fullmatch("[01x]+", digits) and len(digits) <= width and is_scalar == (width == 1)
        # what is left out on the left is x behind an x, and else 0
        digits = digits.rjust(width, "x" if digits[0] == "x" else "0")
        assert "x" not in digits or set(digits) == {"x"}
        self.now[path] = None if "x" in digits else int(digits, 2)

    def keep_until(self, time):
        self.steps += [dict(self.now) for _ in range(len(self.steps), time)]


def trace_of(vcd, scope):
    """The trace that stands below a scope, hidden signals left out."""
    lines = []
    for cycle, values in enumerate(vcd.steps):
        shown = [f" {path.removeprefix(scope)}={value:x}" for path, value in values.items() if path.startswith(scope) and value is not None]
        lines.append(f"{cycle}{''.join(shown)}\n")
    return "".join(lines)


def tool(folder, words, given="", stdout=subprocess.PIPE):
    """What one of the tools writes, what it says to a person, and its status."""
    answer = call(folder, words, given.encode("latin-1"), program=sys.executable, stdout=stdout)
    return (answer.stdout or b"").decode("latin-1"), answer.stderr.decode("latin-1"), answer.returncode


def simulated(folder, design, stimulus, words=""):
    """The trace of a design on a stimulus."""
    put(folder, "f", design)
    return run(folder, f"sim f {words}", given=stimulus.encode())[0]


def example(name):
    return stored("examples", name)


def stored(*path):
    with open(os.path.join(TOP, *path), encoding="utf-8") as file:
        return file.read()


def read_back(what, written):
    """What stands in a VCD that was written, or nothing where it is none."""
    try:
        return Vcd(written)
    except (AssertionError, AttributeError, IndexError, KeyError, ValueError) as why:
        compare(f"{what}: it is no VCD", repr(why), "")
        return None


# The design, its top, the stimulus, the words of sim, how wide its signals are, and those that are declared as `reg`.
WAVES = [
    (example("owner.v"), "m", example("owner.stim"), "", {"nxt": 1, "k": 8, "owner": 1, "r": 8}, "owner r"),
    (example("owner.v"), "m", example("owner.stim"), "--level L", {"nxt": 1, "owner": 1, "r": 8}, "owner r"),
    (example("owner.v"), "m", example("owner.stim"), "--order 7", {"nxt": 1, "k": 8, "owner": 1, "r": 8}, "owner r"),
    (example("multiplier_leak.v"), "multiplier_leak", example("multiplier_long.stim"), "", MULTIPLIER, "busy done product left shifted"),
    (example("tags.v"), "tags", "inputs rst dom req fill addr probe\n1 0 0 0 0 0\n0 0 1 1 5a 0\n0 0 1 0 5a 1\n0 1 1 1 ff 2\n0 1 1 0 ff 3\n", "",
     {"rst": 1, "dom": 1, "req": 1, "fill": 1, "addr": 8, "probe": 2, "hit": 1, "way": 2, "shown": 8, **{f"t{i}": 8 for i in range(4)},
      **dict.fromkeys(["v0", "v1", "n", "v2", "v3", "k"], 1)}, "hit way shown t0 t1 t2 t3 v0 v1 n v2 v3 k"),
    (COUNTERS, "top", "start u.q f\nstart v.q f\ninputs en\n1\n0\n1\n1\n1\n", "", {"en": 1, "a": 4, "b": 8, "u.en": 1, "u.q": 4, "v.en": 1, "v.q": 8}, "u.q v.q"),
    (COUNTERS, "cnt", "inputs en\n1\n1\n1\n1\n1\n", "--top cnt", {"en": 1, "q": 2}, "q"),
    (GATE, "m", "inputs a b\n1 1\n", "", {"a": 1, "b": 1, "y": 1}, ""),
    # no change for long, and the last cycle is one of these
    (GATE, "m", "inputs a b\n" + "0 1\n" * 200 + "1 1\n" * 1000, "", {"a": 1, "b": 1, "y": 1}, ""),
    (FOUR, "m", "inputs s x b c\n0 1 1 1\n1 1 0 1\n2 0 1 1\n3 1 1 0\n", "--level B", {"s": 2, "x": 1, "b": 1, "z": 1}, ""),
    (PARAMETERS, "top", "inputs d\nff\n0\na5\n", "", PARAMETER_WIDTHS, "u.q u.p v.q v.p w.q w.p"),
    (lanes(12), "top", "inputs turn" + "".join(f" r{i} d{i}" for i in range(12)) + "\n0" + " 1 ff" * 12 + "\n1" + " 0 5a" * 12 + "\n0" + " 1 0" * 12 + "\n", "",
     LANE_WIDTHS, " ".join(f"u{i}.{name}" for i in range(12) for name in ("g", "lo", "hi"))),
    (NESTED, "m0", "inputs a\n1\n0\n", "", {"u." * depth + name: 1 for depth in range(DEPTH + 1) for name in "ay"}, ""),
    ("module m(input [63:0] a, output signed [63:0] $y, output [0:0] _z0$);\n".replace("$y", "y$") + "  assign y$ = ~a, _z0$ = a;\nendmodule\n", "m",
     "inputs a\n0\nffffffffffffffff\n123456789abcdef0\n", "", {"a": 64, "y$": 64, "_z0$": 1}, ""),
]


def waves(folder):
    """A run is read back: its values, its hierarchy and its widths."""
    for design, top, stimulus, words, widths, registers in WAVES:
        trace = simulated(folder, design, stimulus, words)
        cycles = re.sub(r"rounds \d+\n$", "", trace)
        compare(f"{top} is simulated", cycles.count("\n"), len(re.findall(r"^(?!start|inputs)", stimulus.rstrip("\n"), re.M)))
        put(folder, "t", trace)
        also = ["--top", top] if "--top" in words else []
        written, said, status = tool(folder, [WAVE, *also, "f", "t"])
        compare(f"{top} {words}: written", (said, status), ("", 0))
        vcd = read_back(top, written)
        if vcd:
            compare(f"{top} {words}: the trace", trace_of(vcd, f"{top}."), cycles)
            compare(f"{top} {words}: widths and types", vcd.variables, {
                f"{top}.{path}": (width, "reg" if path in registers.split() else "wire") for path, width in widths.items()})
        for line in ([WAVE, *also, "f"], [WAVE, "f", "-", *also]):
            compare(f"{top} {words}: from standard input", tool(folder, line, trace), (written, "", 0))


def pairs(folder):
    """Two runs in one, and the cycles in which they differ."""
    short, long = example("multiplier_short.stim"), example("multiplier_long.stim")
    # a product with 5 is done in cycle 5, and one with b5 in cycle 10; the secret operand itself differs in cycle 1
    for design, words, stimuli, wanted in (
            (example("multiplier_leak.v"), "--level L", (short, long), "0000011111000"),
            (example("multiplier_leak.v"), "", (short, long), "0111111111111"),
            (example("multiplier_mended.v"), "--level L", (short, long), "0000000000000"),
            (example("multiplier_leak.v"), "", (short, short), "0000000000000"),
            (example("owner.v"), "--level L", ("inputs nxt k\n1 5a\n1 3c\n0 ff\n0 0\n", "inputs nxt k\n1 5a\n1 3d\n0 ff\n0 0\n"), "0001"),
            # hidden in one run alone, whatever its value is
            (HIDING_OUTPUT, "--level L", ("inputs s\n0\n1\n0\n1\n", "inputs s\n0\n0\n1\n1\n"), "0110"),
            # a run that has ended shows nothing
            (GATE, "", ("inputs a b\n1 1\n0 0\n", "inputs a b\n1 1\n0 0\n0 0\n1 1\n"), "0011"),
            (GATE, "", ("inputs a b\n1 1\n0 0\n0 1\n", "inputs a b\n0 1\n"), "111"),
            (COUNTERS, "", ("start u.q 1\ninputs en\n0\n0\n", "inputs en\n0\n0\n"), "11"),
            (COUNTERS, "--order 3", ("inputs en\n0\n1\n0\n", "inputs en\n0\n0\n0\n"), "011")):
        traces = [re.sub(r"rounds \d+\n$", "", simulated(folder, design, stimulus, words)) for stimulus in stimuli]
        put(folder, "s", traces[0])
        put(folder, "t", traces[1])
        lines = [trace.splitlines(True) for trace in traces]
        by_lines = "".join(str(int(lines[0][i:i + 1] != lines[1][i:i + 1])) for i in range(max(map(len, lines))))
        compare(f"{words} {stimuli}: the marker is worked out", by_lines, wanted)
        written, said, status = tool(folder, [WAVE, "f", "s", "t"])
        compare(f"{words} {stimuli}: written", (said, status), ("", 0))
        vcd = read_back("two runs", written)
        if vcd:
            top = re.findall(r"^module (\w+)", design, re.M)[-1]
            compare(f"{words} {stimuli}: scopes", {path.split(".")[1] for path in vcd.variables}, {"differs", "A", "B"})
            compare(f"{words} {stimuli}: differs", "".join(str(values[f"{top}.differs"]) for values in vcd.steps), wanted)
            compare(f"{words} {stimuli}: its width", vcd.variables[f"{top}.differs"], (1, "wire"))
            for scope, those in zip("AB", lines):
                rest = "".join(f"{cycle}\n" for cycle in range(len(those), len(wanted)))
                compare(f"{words} {stimuli}: {scope}", trace_of(vcd, f"{top}.{scope}."), "".join(those) + rest)
        for line, given in (([WAVE, "f", "-", "t"], traces[0]), ([WAVE, "f", "s", "-"], traces[1])):
            compare(f"{words} {stimuli}: one from standard input", tool(folder, line, given), (written, "", 0))
    put(folder, "f", HIDING_OUTPUT)
    put(folder, "s", "0\n1\n2\n")
    vcd = read_back("nothing shown", tool(folder, [WAVE, "f", "s", "s"])[0])
    compare("two runs that show nothing", vcd and (vcd.variables, trace_of(vcd, "m.")), ({"m.differs": (1, "wire")}, "0 differs=0\n1 differs=0\n2 differs=0\n"))


def untold(folder):
    """Widths that the design does not tell, which is said."""
    trace = simulated(folder, UNTOLD.replace("{W}", "W"), "inputs a\n5\n1\n")
    compare("it is simulated", trace, "0 a=5 b=5 y=0\n1 a=1 b=1 y=0\n")
    for design, top, names, widths in (
            (UNTOLD.replace("{W}", "W"), "m", ["a 3", "b 3"], (3, 3, 1)), (UNTOLD.replace("{W}", "4'd8"), "m", ["a 3"], (3, 8, 1)),
            (UNTOLD.replace("{W}", "(2 * 6 - 5)"), "m", ["a 3"], (3, 7, 1)), (UNTOLD.replace("{W}", "{4'd8, 4'd1}"), "m", ["a 3", "b 3"], (3, 3, 1)),
            # a sign that counts: -7 + 10
            (UNTOLD.replace("{W}", "(4'sd9 + 10)"), "m", ["a 3", "b 3"], (3, 3, 1)),
            (UNTOLD.replace("{W}", "W").replace("-4 + 12", "16 >> 1"), "m", [], (8, 8, 1)),
            # what is no such design
            (GATE, "m", [], None), (GATE + GATE.replace(" m(", " n("), "top", ["a 3", "b 3", "y 1"], (3, 3, 1)), ("", "top", ["a 3", "b 3", "y 1"], (3, 3, 1)),
            ("\x00 module m(((]})[" + "(" * 100, "m", ["a 3", "b 3", "y 1"], (3, 3, 1)), ("module #(parameter #(].](", "top", ["a 3", "b 3", "y 1"], (3, 3, 1))):
        put(folder, "g", design)
        put(folder, "t", trace)
        written, said, status = tool(folder, [WAVE, "g", "t"])
        if widths is None:
            compare("another design", (written, said, status), ("", "wave: line 1 of t: a=5 needs more than the 1 bits that the design declares\n", 1))
            continue
        told = "".join(f"wave: g does not tell the width of {name}, whose values take {width}\n" for name, width in (each.split() for each in names))
        compare(f"{design[:70]!r}: said", (said, status), (told, 0))
        vcd = read_back("untold", written)
        compare(f"{design[:70]!r}: widths", vcd and [(path, width) for path, (width, _) in vcd.variables.items()],
                list(zip([f"{top}.{name}" for name in "aby"], widths)))
        compare(f"{design[:70]!r}: the trace", vcd and trace_of(vcd, f"{top}."), trace)


def wrong(folder):
    """Traces that are wrong, words that are, and files that fail."""
    put(folder, "f", OWNER)
    put(folder, "s", "0 nxt=1 k=2 r=2\n1 nxt=0 k=0 r=0\n")
    for trace, why in WRONG:
        put(folder, "t", trace)
        compare(f"{trace!r}", tool(folder, [WAVE, "f", "t"]), ("", f"wave: line {why}\n", 1))
    compare("a wrong trace as standard input", tool(folder, [WAVE, "f"], trace), ("", f"wave: line {why}\n".replace("of t:", "of standard input:"), 1))
    for words in (["s", "t"], ["t", "s"]):
        compare(f"a wrong trace and one that is not: {words}", tool(folder, [WAVE, "f", *words]), ("", f"wave: line {why}\n", 1))
    put(folder, "t", "0\n1\n")
    compare("nothing is shown", tool(folder, [WAVE, "f", "t"]), ("", "wave: t: no cycle shows a signal\n", 1))
    run_of = simulated(folder, example("owner.v"), "inputs nxt k\n1 5a\n1 100\n")
    compare("a stimulus that is wrong", tool(folder, [WAVE, "f"], run_of),
            ("", "wave: line 2 of standard input: the simulation ended here: refused stimulus input 3 value\n", 1))
    for words in ([], ["--top"], ["--to", "m", "f", "s"], ["--level", "L", "f", "s"], ["f", "s", "s", "s"], ["f", "-", "-"], ["-", "-"], ["-"], ["-x", "f", "s"]):
        told = tool(folder, [WAVE, *words])
        compare(f"wave {words}", (told[0], told[2], told[1].startswith("usage: tools/wave ")), ("", 2, True))
    for words in (["none", "s"], ["f", "none"], ["f", "s", "none"], [".", "s"], ["f", "."]):
        told = tool(folder, [WAVE, *words])
        compare(f"wave {words}", (told[0], told[2], told[1].startswith("wave: a file could not be read: "), told[1].count("\n")), ("", 2, True, 1))
    with open("/dev/full", "wb") as full:
        told = tool(folder, [WAVE, "f", "s"], stdout=full)
        compare("wave: a full device", told[1:], ("wave: the output could not be written: No space left on device\n", 2))
    for name in (WAVE, FLOWS):
        told = tool(folder, [name, "--help"])
        compare(f"{name}: help", (told == tool(folder, [name, "-h", "f"]), told[1:], " proves nothing" in told[0], "Status 0: written; 1: " in told[0]),
                (True, ("", 0), True, True))


def graph_of(text):
    """The graph that a text in DOT has: its nodes with their attributes, its edges with theirs, and its frames. A line that is none of these is an error."""
    nodes, edges, frames, depth = {}, {}, [], 0
    for line in text.splitlines():
        line = line.strip()
        node, edge = re.fullmatch(r'"([^"]+)" \[(.*)\];', line), re.fullmatch(r'"([^"]+)" -> "([^"]+)" \[(.*)\];', line)
        begun = re.fullmatch(r'(?:digraph "[^"]+"|subgraph "cluster_([^"]+)") \{', line)
        if edge or node:
            *ends, its = (edge or node).groups()
            attributes = {name: plain or quoted for name, plain, quoted in re.findall(r'(\w+)=(?:(\w+)|"([^"]*)")(?:, |$)', its)}
            if node:
                assert ends[0] not in nodes
                nodes[ends[0]] = attributes
            else:
                edges.setdefault(tuple(ends), []).append(attributes)
        elif begun:
            depth += 1
            frames += [begun[1]] if begun[1] else []
        elif line == "}":
            depth -= 1
        else:
            assert re.fullmatch(r'rankdir=LR;|node \[style=filled\];|label="[^"]+";', line), line
    assert depth == 0
    return nodes, edges, frames


def edges_told(listed):
    """The edges that a list tells, each with how its target's label is taken and the numbers of its obligations."""
    edges = {}
    for line in listed.splitlines():
        words = line.split(" ")
        how = "selector" if words[3] == "selector" else words[2]
        for read in words[words.index("reads", 3) + 1:]:
            edges.setdefault((read, words[1], how), []).append(words[0])
    return {edge: " ".join(numbers) for edge, numbers in edges.items()}


# Designs, and by hand the label of each signal that an obligation names, and the registers. Labels of one name have one colour.
SELECTED = LISTS[0][0]
GRAPHS = [
    (example("owner.v"), {"nxt": "L", "k": "H", "owner": "L", "r": "Dom(owner)"}, "owner r"),
    (example("turn.v"), {"turn": "L", "a": "L", "b": "H", "y": "Dom(turn)"}, ""),
    (example("pipeline.v"), {"valid": "L", "enable": "L", "key": "H", "done": "L", "result": "H", "stage1": "L", "stage2": "L", "lane1": "H", "lane2": "H", "mixed": "H"},
     "done result stage1 stage2 lane1 lane2"),
    (example("tags.v"), {"rst": "L", "dom": "L", "req": "Dom(dom)", "fill": "Dom(dom)", "addr": "Dom(dom)", "probe": "L", "hit": "Dom(dom)", "way": "Dom(dom)",
                         "shown": "Par(probe)", "t0": "L", "t1": "L", "t2": "H", "t3": "H", "v0": "L", "v1": "L", "n": "L", "v2": "H", "v3": "H", "k": "H"},
     "t0 t1 t2 t3 v0 v1 n v2 v3 k"),
    (SELECTED, {"i": "H", "s": "H", "q": "D(s)"}, "s q"),
    # no obligation is on `s`, whose label flows to each that it selects
    (FOUR, {"x": "M(s)", "b": "B", "c": "C", "y": "E", "z": "B"}, ""),
    (FOUR.replace("point A, B, C, E", "point E, C, B, A").replace("output {B} z", "output z").replace("z = b", "z = s"),
     {"s": "A", "x": "M(s)", "b": "B", "c": "C", "y": "E", "z": "A"}, ""),
    (lanes(2), {"turn": "L", **{name + i: label for i in "01" for name, label in (
        ("r", "L"), ("d", "Dom(turn)"), ("g", "L"), ("l", "L"), ("h", "H"), ("b", "L"))}, **{f"u{i}.{name}": label for i in "01" for name, label in (
            ("turn", "L"), ("req", "L"), ("bin", "L"), ("d", f"Dom(u{i}.turn)"), ("g", "L"), ("lo", "L"), ("hi", "H"), ("bout", "L"))}},
     "u0.g u0.lo u0.hi u1.g u1.lo u1.hi"),
]
# Worked by hand: who is read for whom, whether the target's label is that of the next cycle, and the obligations.
BY_HAND = [
    (example("owner.v"), {("nxt", "owner"): ("dashed", "1"), ("nxt", "r"): ("dashed", "2 3"), ("k", "r"): ("dashed", "2"), ("r", "r"): ("dashed", "3")}),
    (TURN, {("turn", "y"): (None, "1 2"), ("b", "y"): (None, "1"), ("a", "y"): (None, "2")}),
]


def flows(folder):
    """The edges are those of the list; labels, shapes and colours are those of the declarations."""
    for design, labels, registers in GRAPHS:
        put(folder, "f", design)
        text, said, status = tool(folder, [FLOWS, "f"])
        nodes, edges, frames = graph_of(text)
        compare(f"{design[:60]!r}: drawn", status, 0)
        compare(f"{design[:60]!r}: labels", {name: its["label"] for name, its in nodes.items()}, {name: f"{name}\\n{label}" for name, label in labels.items()})
        compare(f"{design[:60]!r}: boxes", {name for name, its in nodes.items() if its["shape"] == "box"}, set(registers.split()))
        colours = {(label.partition("(")[0], nodes[name]["fillcolor"]) for name, label in labels.items() if name in nodes}
        names = {label.partition("(")[0] for label in labels.values()}
        compare(f"{design[:60]!r}: a colour for each point and map", (len(colours), len({colour for _, colour in colours})), (len(names), len(names)))
        drawn = {(*ends, its.get("arrowhead") == "odiamond" and "selector" or its.get("style") == "dashed" and "next" or "now"): its["tooltip"]
                 for ends, those in edges.items() for its in those}
        compare(f"{design[:60]!r}: edges", drawn, edges_told(run(folder, "list f")[0]))
        compare(f"{design[:60]!r}: no edge twice", sum(map(len, edges.values())), len(drawn))
        compare(f"{design[:60]!r}: frames", frames, list(dict.fromkeys(name.partition(".")[0] for name in labels if "." in name)))
    for design, wanted in BY_HAND:
        put(folder, "f", design)
        edges = graph_of(tool(folder, [FLOWS, "--secv", SECV, "f"])[0])[1]
        compare(f"{design[:60]!r}: edges by hand", {ends: (its[0].get("style"), its[0]["tooltip"]) for ends, its in edges.items()}, wanted)
    put(folder, "f", COUNTERS)
    nodes, edges, _ = graph_of(tool(folder, [FLOWS, "--top", "cnt", "f"])[0])
    compare("another top", (sorted(nodes), sorted(edges)), (["en", "q"], [("en", "q"), ("q", "q")]))
    put(folder, "f", NESTED)
    nodes, edges, frames = graph_of(tool(folder, [FLOWS, "f"])[0])
    compare("nested instances", (len(nodes), len(edges), len(frames), ("u.a", "u.u.a") in edges), (2 * DEPTH + 2, 2 * DEPTH + 1, DEPTH, True))
    put(folder, "f", "module m; endmodule")
    compare("no obligation", tool(folder, [FLOWS, "f"])[::2], ('digraph "m" {\n  rankdir=LR;\n  node [style=filled];\n}\n', 0))


def no_flows(folder):
    """Designs, programs, words and files that give no graph."""
    for design, words, told in (("module m(output y); endmodule", [], "1: refused 604 undriven 1:17 y"), (GATE, ["--top", "n"], "1: refused 310 no-top 1:1"),
                                ("m", [], "1: refused 201 unexpected 1:1")):
        put(folder, "f", design)
        written, said, status = tool(folder, [FLOWS, *words, "f"])
        compare(f"{design!r} {words}", (written, said.splitlines()[-1], status), ("", f"flows: {SECV} list ended with status {told}", 1))
    put(folder, "f", GATE)
    compare("another program", tool(folder, [FLOWS, "--secv", "/bin/echo", "f"]), ("", "flows: this is no line of secv list: 'list -- f'\n", 1))
    compare("a program that fails", tool(folder, [FLOWS, "--secv", "/bin/false", "f"]), ("", "flows: /bin/false list ended with status 1: it says nothing more\n", 1))
    for words in (["none"], ["."], ["--secv", "./none", "f"], ["--secv", "./f", "f"]):
        told = tool(folder, [FLOWS, *words])
        compare(f"flows {words}", (told[0], told[2], told[1].startswith("flows: a file could not be read, or the program not be run: ")), ("", 2, True))
    for words in ([], ["f", "f"], ["--sec", SECV, "f"], ["--level", "L", "f"], ["--top"]):
        told = tool(folder, [FLOWS, *words])
        compare(f"flows {words}", (told[0], told[2], told[1].startswith("usage: tools/flows ")), ("", 2, True))
    with open("/dev/full", "wb") as full:
        told = tool(folder, [FLOWS, "f"], stdout=full)
        compare("flows: a full device", told[1:], ("flows: the output could not be written: No space left on device\n", 2))


def documented_ones(folder):
    """The pictures that docs/pictures.md shows."""
    shown = {kind: text for kind, text in re.findall(r"^```(\w+)\n(.*?)^```$", documented("Pictures", "pictures.md"), re.M | re.S)}
    trace = simulated(folder, example("owner.v"), example("owner.stim"), "--level L")
    compare("docs/pictures.md shows a wave", tool(folder, [WAVE, "f"], trace), (shown.get("vcd"), "", 0))
    compare("docs/pictures.md shows a graph", tool(folder, [FLOWS, "f"])[::2], (shown.get("dot"), 0))


def drawn_in(svg):
    """The name, the nodes and the edges that a picture of a graph has: of a node its words, whether it is a box, and its colour; of an edge whether it is
    dashed, whether its head is empty, and its tooltip."""
    space = {"s": "http://www.w3.org/2000/svg"}
    graph, nodes, edges = ElementTree.fromstring(svg).find("s:g", space), {}, []
    for part in graph.findall("s:g", space):
        name = part.find("s:title", space).text
        if part.get("class") == "node":
            shape = part.find("s:polygon", space)
            words = "\\n".join(word.text for word in part.findall("s:text", space))
            nodes[name] = (words, shape is not None, (part.find("s:ellipse", space) if shape is None else shape).get("fill"))
        elif part.get("class") == "edge":
            line, head = (part.find(f".//s:{kind}", space) for kind in ("path", "polygon"))
            edges.append((name, line.get("stroke-dasharray") is not None, head.get("fill") == "none",
                          part.find(".//s:a", space).get("{http://www.w3.org/1999/xlink}title")))
    return graph.find("s:title", space).text, nodes, sorted(edges)


def to_be_drawn(dot):
    """What a picture has to have of a graph in DOT."""
    nodes, edges, _ = graph_of(dot)
    colours = {name: "#" + "".join(f"{int(255 * part):02x}" for part in colorsys.hsv_to_rgb(*map(float, its["fillcolor"].split()))) for name, its in nodes.items()}
    return (re.match('digraph "([^"]+)"', dot)[1], {name: (its["label"], its["shape"] == "box", colours[name]) for name, its in nodes.items()},
            sorted((f"{read}->{target}", its.get("style") == "dashed", its.get("arrowhead") == "odiamond", its["tooltip"])
                   for (read, target), those in edges.items() for its in those))


def drawn_one(folder):
    """The picture that the guide shows is that of the command beside it."""
    text = stored("docs", "guide", "refusals.md")
    design, picture = re.search(r"`tools/flows (\S+) \| dot -Tsvg >(\S+)`", text).groups()
    compare("the guide shows it", f"](../{os.path.relpath(picture, 'docs')})" in text, True)
    dot, _, status = tool(folder, [FLOWS, os.path.join(TOP, design)])
    compare(f"{design}: drawn", status, 0)
    compare(f"{picture} is that of {design}", drawn_in(stored(picture)), to_be_drawn(dot))
    if shutil.which("dot"):
        svg = subprocess.run(["dot", "-Tsvg"], input=dot.encode(), stdout=subprocess.PIPE, timeout=MOST_SECONDS, check=False).stdout.decode()
        compare(f"{design}: drawn anew", drawn_in(svg), to_be_drawn(dot))
    else:
        leave_out(f"{design} is drawn anew", "Graphviz is not installed")


def plots(folder):
    """bench/plot.py draws what is kept of `check` by verdict.sh: a dot for each run, and a row for each case."""
    kept = [line.split("\t") for line in stored("bench", "results", "runs.tsv").splitlines()]
    compare("a run has five parts", {len(row) for row in kept}, {5})
    values = [(case, float(re.search(r"\bcheck=(\S+)", figures)[1])) for _, _, script, case, figures in kept if script == "verdict"]
    svg, _, status = tool(folder, [os.path.join(TOP, "bench", "plot.py"), "verdict", "check"])
    compare("plot.py draws", status, 0)
    drawing = ElementTree.fromstring(svg)
    titles = [dot[0].text.partition(" on ")[0] for dot in drawing.iter("{http://www.w3.org/2000/svg}circle")]
    compare("a dot a run", sorted(map(float, titles)), sorted(value for _, value in values))
    labels = {label.text for label in drawing.iter("{http://www.w3.org/2000/svg}text")}
    compare("a row a case", {case for case, _ in values} - labels, set())


if __name__ == "__main__":
    finish([waves, pairs, untold, wrong, flows, no_flows, documented_ones, drawn_one, plots])
