#!/usr/bin/env python3
"""Blocks that read what they have assigned so far, through the program: fixed ones, whose answers
were worked by hand, and random ones, whose answers `tests/blocks.py` and `tests/block_paths.py` work
out from the language alone: `sim` over all values of the inputs, `list` and `check` whole. What
these say of a random block is held against all its runs as well: a signal hangs on nothing but what
its list names, what is accepted tells nothing secret, and values that are told with a refused flow
take its path. The last line is 'N passed, M failed'.
"""
import functools
import itertools
import re
import subprocess

from block_maker import Maker
from block_paths import NAMES, read_for, shown
from blocks import Run
from harness import MOST_SECONDS, SECV, compare, finish, put, run, status_of
from harness import limits as bounds

SEED = 20261130
# So many blocks for each rule that they break, and for none.
BLOCKS = {None: 120, 605: 8, 606: 14, 607: 10}
# No more obligations than so many.
MOST_LINES = 64
# So many MB of memory for a check whose obligations take more.
MOST_MEMORY = 48
LINE = re.compile(r"\d+ (\w+) now((?: [+-]\d+:\d+)*) =\d+:\d+ reads((?: \w+)*)")
SUM = """module m(input [2:0] a, output reg [5:0] s);
  always @* begin
    s = a;
    s = s + a;
    s = s + a;
    s = s + 6'd1;
    s = s + a;
    s = s - 6'd2;
    s = s + s;
    s = s + a;
  end
endmodule
"""
SWAP = """module m(input [1:0] a, input [1:0] {H} h, output reg [1:0] x, output reg [1:0] {H} y);
  reg [1:0] t;
  always @* begin
    x = h; y = a;
    t = x; x = y; y = t;
    t = 2'd0;
  end
endmodule
"""
BITWISE = """module m(input a, input {H} h, input c,
  output reg {H} x, output reg {H} y, output reg [1:0] {H} v);
  always @* begin
    v[0] = h; x = v[0];
    v[1] = c; y = v[1]; v[0] = a;
  end
endmodule
"""
SELECTOR = """module m(input [1:0] a, output reg [1:0] t, output reg y);
  always @* begin
    y = 1'd0;
    t = a;
    case (t)
      2'd0: t = 2'd1;
      2'd1: y = 1'd1;
      default: begin y = t[0]; t = 2'd0; end
    endcase
  end
endmodule
"""
PLACES = """module m(input [1:0] a, input [3:0] {H} b, input c,
  output reg [2:0] {H} x, output reg y);
  reg [3:0] {H} v;
  reg [1:0] i;
  always @* begin
    i = a + 2'd1;
    v = b;
    x = {v[i], v[2:1]};
    y = 1'd0;
    if (i[1]) y = c;
    i = a; v = b;
  end
endmodule
"""
ROUND = """module m(input a, input {H} h, output reg x, output reg {H} y);
  always @* begin
    x = a;
    y = x;
    x = y & a;
    y = h;
  end
endmodule
"""
SPLIT = """module m(input c, input a, input {H} h, output reg {H} y);
  reg t;
  always @* begin
    t = c ? h : a;
    y = t;
    t = 1'd0;
  end
endmodule
"""
# Fixed blocks, each with a stimulus, its trace and its list.
FIXED = [
    # a sum of eight statements: 9 a - 2
    (SUM, "inputs a\n0\n5\n7\n", "0 a=0 s=3e\n1 a=5 s=2b\n2 a=7 s=3d\n", "1 s now =10:5 reads a\n"),
    # values change places through a third one, which is given another value behind
    (SWAP, "inputs a h\n1 2\n", "0 a=1 h=2 x=1 y=2 t=0\n",
     "1 x now =5:12 reads a\n2 y now =5:19 reads h\n3 t now =6:5 reads\n"),
    # of one name a bit is read so far, and one as it ends
    (BITWISE, "inputs a h c\n0 1 1\n1 0 0\n",
     "0 a=0 h=1 c=1 x=1 y=1 v=2\n1 a=1 h=0 c=0 x=0 y=0 v=1\n",
     "1 x now =4:15 reads h\n2 y now =5:15 reads v\n3 v now =5:25 reads a h c\n"),
    # arms that give their selector another value: which arm is taken goes by the value before
    (SELECTOR, "inputs a\n0\n1\n2\n3\n",
     "0 a=0 t=1 y=0\n1 a=1 t=1 y=1\n2 a=2 t=0 y=0\n3 a=3 t=0 y=1\n",
     "1 t now +6:7 =6:13 reads a\n2 t now -6:7 +7:7 =4:5 reads a\n"
     "3 t now -6:7 -7:7 =8:32 reads a\n4 y now +6:7 =3:5 reads a\n"
     "5 y now -6:7 +7:7 =7:13 reads a\n6 y now -6:7 -7:7 =8:22 reads a\n"),
    # a value that is put into a condition, an index, and for a part
    (PLACES, "inputs a b c\n3 a 1\n1 6 1\n2 8 1\n",
     "0 a=3 b=a c=1 x=1 y=0 v=a i=3\n1 a=1 b=6 c=1 x=7 y=1 v=6 i=1\n"
     "2 a=2 b=8 c=1 x=4 y=1 v=8 i=2\n",
     "1 x now =8:5 reads a b\n2 y now +10:5 =10:15 reads a c\n3 y now -10:5 =9:5 reads a\n"
     "4 v now =11:12 reads b\n5 i now =11:5 reads a\n"),
    # two names that read each other's earlier values
    (ROUND, "inputs a h\n1 0\n0 1\n", "0 a=1 h=0 x=1 y=0\n1 a=0 h=1 x=0 y=1\n",
     "1 x now =5:5 reads a\n2 y now =6:5 reads h\n"),
    # a name by itself that was one of two values: a path for each
    (SPLIT, "inputs c a h\n0 1 0\n1 0 1\n", "0 c=0 a=1 h=0 y=1 t=0\n1 c=1 a=0 h=1 y=1 t=0\n",
     "1 y now +4:11 =5:5 reads c h\n2 y now -4:11 =5:5 reads c a\n3 t now =6:5 reads\n"),
]
# The same with something changed: what, by what, and what `check` prints of it, or its first line
# where several values may be told.
CHANGED = [
    (SUM, "", "", "accepted 1 obligations\n"),
    (SUM, "input [2:0]", "input [2:0] {H}", "refused flow 1 s from a\n"),
    (SWAP, "", "", "accepted 3 obligations\n"),
    (SWAP, "{H} y", "y", "refused flow 2 y from h\n"),
    (BITWISE, "", "", "accepted 3 obligations\n"),
    (BITWISE, "{H} x", "x", "refused flow 1 x from h\n"),
    (BITWISE, "{H} y", "y", "refused flow 2 y from v\n"),
    (SELECTOR, "", "", "accepted 6 obligations\n"),
    (SELECTOR, "[1:0] a", "[1:0] {H} a", "refused flow 1 t from a\nin a 0\n"),
    (SELECTOR, "[1:0] a, output reg [1:0]", "[1:0] {H} a, output reg [1:0] {H}",
     "refused flow 4 y from a\nin a 0\n"),
    (PLACES, "", "", "accepted 5 obligations\n"),
    (PLACES, "{H} x", "x", "refused flow 1 x from b\n"),
    (PLACES, "[1:0] a", "[1:0] {H} a", "refused flow 2 y from a\n"),
    (PLACES, "2'd1;", "2'd1 + b;", "refused flow 2 y from b\n"),
    (ROUND, "", "", "accepted 2 obligations\n"),
    (ROUND, "    y = h;\n", "", "refused 607 loop 1:61 y\n"),
    (SPLIT, "", "", "accepted 3 obligations\n"),
    (SPLIT, "{H} y", "y", "refused flow 1 y from h\nin c 1\nin a 0\nin h 0\n"),
]


def made(maker):
    """The random blocks, each with the rule that it breaks, and its place and signal."""
    for kind, count in BLOCKS.items():
        while count:
            module = maker.module(kind)
            broken = module.broken()
            if (broken[0] if broken else None) == kind and (broken or module.lines(MOST_LINES)):
                count -= 1
                yield module, broken


@functools.cache
def program():
    """The program itself: the launcher would look at the sources at each run."""
    words = [SECV, "--path"]
    return subprocess.run(words, stdout=subprocess.PIPE, text=True, check=True).stdout.strip()


def told(folder, words, given=""):
    """What the program writes, and its status."""
    answer = subprocess.run([program(), *words.split()], cwd=folder, input=given, text=True,
                            timeout=MOST_SECONDS, stdout=subprocess.PIPE,
                            stderr=subprocess.DEVNULL, check=False)
    return answer.stdout, answer.returncode


# What is right.


def run_with(module, values):
    """A run of the block with these values of the inputs."""
    begin = {**dict.fromkeys(module.assigned, 0), **dict(zip(module.inputs, values))}
    one = Run(begin)
    module.body.run(one)
    return one


def all_runs(module):
    """A run for each list of values of the inputs."""
    ranges = (range(1 << signal.length) for signal in module.inputs)
    return [run_with(module, values) for values in itertools.product(*ranges)]


def stimulus(module, runs):
    """A stimulus of a cycle for each run."""
    lines = [["inputs", *(signal.name for signal in module.inputs)]]
    lines += [[f"{one.values[signal]:x}" for signal in module.inputs] for one in runs]
    return "".join(" ".join(line) + "\n" for line in lines)


def trace(module, runs):
    """The trace of that."""
    lines = ([str(cycle), *(f"{signal.name}={one.values[signal]:x}" for signal in module.signals)]
             for cycle, one in enumerate(runs))
    return "".join(" ".join(line) + "\n" for line in lines)


def verdict(module, runs, lines):
    """The first line of what `check` prints: an obligation fails where a run takes its path, its
    target is public, and one of its reads is secret."""
    for number, (_, target, path) in enumerate(lines, 1):
        secret = [signal.name for signal in module.signals
                  if signal.all & path.read and signal.label == "H"]
        if target.label == "L" and secret and any(path.is_taken(one.steps) for one in runs):
            return f"refused flow {number} {target.name} from {secret[0]}"
    return f"accepted {len(lines)} obligations"


# Whether what the program says can be so, of all runs.


class Line:
    """A line of what `list` printed: a path, with what is read on it."""

    def __init__(self, module, words):
        named = {signal.name: signal for signal in module.signals}
        target, steps, reads = words
        self.target, self.reads = named.get(target), [named[name] for name in reads.split()]
        self.steps = {tuple(int(number) for number in step[1:].split(":")): step[0] == "+"
                      for step in steps.split()}

    def is_taken(self, one):
        """Whether a run takes this path."""
        return self.steps.items() <= one.steps.items()


def hangs(target, lines, runs):
    """Whether each run takes exactly one path of the target, and any two runs with equal values of
    what the path of one of them names both take it, and give the target the same value."""
    taken = [[line for line in lines if line.is_taken(one)] for one in runs]
    if any(len(paths) != 1 for paths in taken):
        return False
    for line in lines:
        ends = {}
        for one, (path,) in zip(runs, taken):
            read = tuple(one.values[signal] for signal in line.reads)
            ends.setdefault(read, set()).add((path, one.values[target]))
        if any(len(end) > 1 for end in ends.values() if any(path is line for path, _ in end)):
            return False
    return True


def keeps_secrets(module, runs):
    """Whether any two runs with equal public inputs have equal public signals."""
    inputs = [signal for signal in module.inputs if signal.label == "L"]
    signals = [signal for signal in module.signals if signal.label == "L"]
    seen = {}
    for one in runs:
        given = tuple(one.values[signal] for signal in inputs)
        seen.setdefault(given, set()).add(tuple(one.values[signal] for signal in signals))
    return all(len(views) == 1 for views in seen.values())


def shows(module, line, source, values):
    """Whether values of the inputs show the flow that is told: they take its path, whose target is
    public and whose read is secret."""
    wanted = "".join(f"in {signal.name} [0-9a-f]\n" for signal in module.inputs)
    if not re.fullmatch(wanted, values):
        return False
    one = run_with(module, [int(row[-1], 16) for row in values.splitlines()])
    secret = [signal.name for signal in line.reads if signal.label == "H"]
    return line.target.label == "L" and source in secret and line.is_taken(one)


# The groups.


def fixed_blocks(folder):
    """The fixed blocks."""
    for text, given, traced, lines in FIXED:
        put(folder, "f", text)
        compare(f"sim {text}", told(folder, "sim f", given), (traced, 0))
        compare(f"list {text}", told(folder, "list f"), (lines, 0))
    for text, old, new, wanted in CHANGED:
        put(folder, "f", text.replace(old, new, 1) if old else text)
        answer, status = told(folder, "check f")
        if "\nin " not in wanted:
            answer = answer.partition("\n")[0] + "\n"
        what = f"check {text}: {new!r} for {old!r}"
        compare(what, (answer, status), (wanted, status_of(wanted)))


def doubled(more):
    """A target into which 65,533 nodes are put for `x`, which is doubled 14 times, and these."""
    return f"""module m(input [7:0] a, b, c, output reg [7:0] y);
  reg [7:0] x, w;
  always @* begin
    w = {more}; x = a;
    {"x = x + x; " * 14}
    y = x + w; x = 0; w = 0;
  end
endmodule
"""


def nested(count):
    """A condition that nests two levels for each of so many sums, and two more."""
    return f"""module m(input [7:0] a, output reg y);
  reg [7:0] x;
  always @* begin
    x = a;
    {"x = x + a; " * count}
    if (x) y = 1; else y = 0;
    x = 0;
  end
endmodule
"""


def guarded(count):
    """So many paths and one more, each behind a condition into which 65,533 nodes are put."""
    items = " ".join(f"{item}: y = a;" for item in range(count - 1))
    return f"""module m(input [7:0] s, input a, output reg [7:0] x, output reg y);
  always @* begin
    x = a;
    {"x = x + x; " * 14}
    if (x == 1) y = 1; else case (s) {items} default: y = 0; endcase
    x = 0;
  end
endmodule
"""


def one_at_a_time(folder):
    """No more than one of a target's obligations is in memory: all of these take some 100 MB."""
    put(folder, "f", guarded(24))
    got = run(folder, "check f", bounds=bounds(MOST_MEMORY))
    compare(f"check {guarded(24)[:300]}, in {MOST_MEMORY} MB", got, ("accepted 26 obligations\n", 0))


def limits(folder):
    """65,536 nodes that are put into one path and one more, and a condition that nests 4,096 levels
    once all is put in and one that nests more."""
    rows = [(doubled("b & c"), ("accepted 3 obligations\n", 0)),
            (doubled("~(b & c)"), ("refused 712 obligation-size y\n", 1)),
            (nested(2047), ("accepted 3 obligations\n", 0)), (nested(2048), ("", 6))]
    for text, wanted in rows:
        put(folder, "f", text)
        compare(f"check {text[:300]}", told(folder, "check f"), wanted)


def same(what, module, got, wanted):
    """Compares, and shows the block where that fails."""
    if got != wanted:
        print(module.text)
    compare(what, got, wanted)


def random_blocks(folder):
    """Random blocks that break no rule, and some that do."""
    for number, (module, broken) in enumerate(made(Maker(SEED))):
        put(folder, "f", module.text)
        if broken:
            refused(folder, number, module, *broken)
        else:
            runs = all_runs(module)
            simulated(folder, number, module, runs)
            lines = listed(folder, number, module, runs)
            checked(folder, number, module, runs, lines)


def refused(folder, number, module, rule, place, signal):
    """What is told of a block that breaks a rule; of 607 any circle that begins at the signal."""
    front = f"refused {rule} {NAMES[rule]} {shown(place)} "
    answer, status = told(folder, "check f")
    names = answer.removeprefix(front).removesuffix("\n").split(" ")
    is_right = module.is_circle(names) if rule == 607 else len(names) == 1
    got = (answer.startswith(front), names[0], is_right, status)
    same(f"block {number}: check, {front}", module, got, (True, signal.name, True, 1))
    same(f"block {number}: list", module, told(folder, "list f"), (answer, 1))


def simulated(folder, number, module, runs):
    """The trace of all runs."""
    answer = told(folder, "sim f", stimulus(module, runs))
    same(f"block {number}: sim", module, answer, (trace(module, runs), 0))


def listed(folder, number, module, runs):
    """What is listed, which is the list and holds of all runs."""
    answer, status = told(folder, "list f")
    wanted = "".join(f"{line}\n" for line, _, _ in module.lines(MOST_LINES))
    same(f"block {number}: list", module, (answer, status), (wanted, 0))
    lines = [Line(module, words) for words in LINE.findall(answer)]
    for target in module.assigned:
        ours = [line for line in lines if line.target is target]
        what = f"block {number}: {target.name} hangs on what its list names"
        same(what, module, hangs(target, ours, runs), True)
    return lines


def checked(folder, number, module, runs, lines):
    """The verdict, which is the right one and holds of all runs."""
    answer, status = told(folder, "check f")
    wanted = verdict(module, runs, module.lines(MOST_LINES))
    first, _, values = answer.partition("\n")
    same(f"block {number}: check", module, (first, status), (wanted, status_of(wanted)))
    flow = re.fullmatch(r"refused flow (\d+) \w+ from (\w+)", first)
    if flow and lines:
        line = lines[min(int(flow[1]), len(lines)) - 1]
        same(f"block {number}: its values", module, shows(module, line, flow[2], values), True)
    elif not flow:
        got = (values, keeps_secrets(module, runs))
        same(f"block {number}: any two runs", module, got, ("", True))
    public = [signal for signal in module.assigned if signal.label == "L"]
    read = set().union(*(read_for(signal, module.readings) for signal in public))
    if all(signal.label == "L" for signal in read):
        same(f"block {number}: no secret is read", module, flow is None, True)


if __name__ == "__main__":
    finish([fixed_blocks, limits, one_at_a_time, random_blocks])
