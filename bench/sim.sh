#!/bin/sh
# Times `secv sim` on a million cycles of three inverters, on 100,000 cycles of a datapath of 200 signals of 64 bits, and on 2,000
# cycles of 1,024 instances, beside vvp, which reads the same stimulus by `$fscanf` and prints the same lines by `$display`, and beside
# Verilator's program where it is installed. That the other lines are secv's byte for byte is seen first, and ends the script where it
# is not so. Prints a table of cycles, bytes printed, processor time, time and greatest memory; then the memory of a million cycles
# against that of a thousand (asked: at most 1.1); last, secv's processor time in all against vvp's (asked: at most 0.5). All print to
# the null device where they are timed. The time of secv includes reading and admitting the design, which iverilog and Verilator do
# before; theirs is not counted. Time and memory are those that GNU time tells (`/usr/bin/time`). The variable SECV may name another
# program to measure.
set -eu
if ! [ -x /usr/bin/time ]; then
    echo "sim.sh: GNU time is missing; on Debian and Ubuntu it is the package 'time'" >&2
    exit 1
fi
if ! command -v iverilog >/dev/null || ! command -v vvp >/dev/null; then
    echo "sim.sh: Icarus Verilog is missing; on Debian and Ubuntu it is the package 'iverilog'" >&2
    exit 1
fi
top=$(CDPATH='' cd -- "$(dirname -- "$0")/.." && pwd -P)
work=$(mktemp -d)
trap 'rm -rf "$work"' EXIT
program=${SECV:-$("$top/secv" --path)}
PYTHONPATH="$top/bench" python3 - "$program" "$work" <<'PY'
import collections, os, random, shutil, subprocess, sys

from results import note

secv, work = sys.argv[1], sys.argv[2]
Told = collections.namedtuple("Told", "processor seconds memory")
# A design with what a test bench needs of it: whether it has a clock, its inputs with their widths, and its signals but the clock in
# the order of a trace; those of `registers` start at 0.
Design = collections.namedtuple("Design", "name cycles text clocked inputs signals registers")


def inverters():
    """Three inverters, in the reverse of the order in which the value passes them."""
    text = "module m(input a, output y);\n  wire p, q;\n  assign y = ~q;\n  assign q = ~p;\n  assign p = ~a;\nendmodule\n"
    return Design("inverters", 1000000, text, False, [("a", 1)], ["a", "y", "p", "q"], [])


def datapath():
    """98 registers of 64 bits with a wire each, beside two inputs, an output and a wire."""
    names, steps = ["a", "b", "y", "sum"], ["^ b", "& sum", "+ (b >> 3)", "| (sum << 2)", "- b", "* 64'd5"]
    lines = ["module m(input clk, input [63:0] a, input [63:0] b, output [63:0] y);", "  wire [63:0] sum = a + b;"]
    for i in range(98):
        before = f"r{i - 1}" if i else "a"
        lines.append(f"  reg [63:0] r{i}; wire [63:0] w{i} = ({before} + {f'w{i - 1}' if i % 8 else 'sum'}) {steps[i % len(steps)]};")
        lines.append(f"  always @(posedge clk) if (b[{i % 64}]) r{i} <= w{i}; else r{i} <= r{i} + 64'd1;")
        names += [f"r{i}", f"w{i}"]
    text = "\n".join([*lines, "  assign y = w97;", "endmodule"]) + "\n"
    return Design("datapath", 100000, text, True, [("a", 64), ("b", 64)], names, [f"r{i}" for i in range(98)])


def hierarchy():
    """1,024 instances, the top among them: a chain of registers, each a stage of its own."""
    count = 1023
    lines = ["module stage #(parameter STEP = 1) (input clk, input [15:0] a, output reg [15:0] q);",
             "  always @(posedge clk) q <= (a ^ q) + STEP;", "endmodule", "module m(input clk, input [15:0] a, output [15:0] y);"]
    for i in range(count):
        lines.append(f"  wire [15:0] w{i}; stage #({i % 7}) u{i}(.clk(clk), .a({f'w{i - 1}' if i else 'a'}), .q(w{i}));")
    text = "\n".join([*lines, f"  assign y = w{count - 1};", "endmodule"]) + "\n"
    names = ["a", "y", *[f"w{i}" for i in range(count)], *[f"u{i}.{port}" for i in range(count) for port in "aq"]]
    return Design("hierarchy", 2000, text, True, [("a", 16)], names, [f"u{i}.q" for i in range(count)])


def stimulus(design, cycles, path):
    """Writes so many cycles of drawn values."""
    draw = random.Random(cycles)
    with open(path, "w", encoding="ascii") as file:
        file.write("inputs " + " ".join(name for name, _ in design.inputs) + "\n")
        for _ in range(cycles):
            file.write(" ".join(f"{draw.getrandbits(width):x}" for _, width in design.inputs) + "\n")


def ports(design, kind):
    """The inputs as declarations of this kind."""
    return "".join(f"{kind} [{width - 1}:0] {name}; " for name, width in design.inputs)


def linked(design):
    """The design's own instance in a bench, its inputs linked by name, and its registers at 0."""
    names = [name for name, _ in design.inputs] + ["clk"] * design.clocked
    starts = " ".join(f"dut.{name} = 0;" for name in design.registers)
    return f"m dut({', '.join(f'.{name}({name})' for name in names)});\ninitial begin {starts} end\n"


def shown(design):
    """Calls that print the line of a cycle, a hundred signals each, since iverilog reads no longer words than 16 kB."""
    lasts, calls = range(0, len(design.signals), 100), []
    for first in lasts:
        names = design.signals[first:first + 100]
        form = ("" if first else "%0d") + "".join(f" {name}=%0h" for name in names)
        values = ["cycle"] * (first == 0) + [f"dut.{name}" for name in names]
        calls.append(f'${"display" if first == lasts[-1] else "write"}("{form}", {", ".join(values)}); ')
    return "".join(calls)


def vvp(design, given):
    """The words of vvp for a bench that reads the stimulus and prints the trace."""
    names = ", ".join(name for name, _ in design.inputs)
    edge = "clk = 1; #1 clk = 0; " if design.clocked else ""
    bench = f"""module bench; reg clk; {ports(design, 'reg')}integer file, read, cycle; {linked(design)}
reg [8191:0] header;
initial begin clk = 0; cycle = 0; file = $fopen("{given}", "r"); read = $fgets(header, file);
while ($fscanf(file, "{' '.join('%h' for _ in design.inputs)}\\n", {names}) == {len(design.inputs)}) begin
#1 {shown(design)}{edge}#1 cycle = cycle + 1; end
$finish(0); end endmodule
"""
    source, built = os.path.join(work, "bench.v"), os.path.join(work, f"{design.name}.vvp")
    with open(source, "w", encoding="ascii") as file:
        file.write(design.text + bench)
    subprocess.run(["iverilog", "-g2005", "-o", built, "-s", "bench", source], check=True)
    return ["vvp", "-n", built]


def verilator(design, given):
    """The words of Verilator's program for such a bench, in which C++ reads the stimulus and drives inputs and clock."""
    folder = os.path.join(work, f"verilated_{design.name}")
    os.makedirs(folder)
    names = [name for name, _ in design.inputs]
    bench = f"""module bench(clk, show, {', '.join(names)}); input clk, show; {ports(design, 'input')}
integer cycle; initial cycle = 0; {linked(design)}
always @(posedge show) begin {shown(design)}cycle <= cycle + 1; end endmodule
"""
    gets = " && ".join(f'std::fscanf(file, "%lx", &{name}) == 1' for name in names)
    main = f"""#include "Vbench.h"
#include <cstdio>
int main() {{ Vbench dut; unsigned long {', '.join(names)}; dut.clk = 0; dut.show = 0; dut.eval();
std::FILE* file = std::fopen("{given}", "r"); if (!file) return 1; for (int c = 0; c != '\\n' && c != EOF;) c = std::fgetc(file);
while ({gets}) {{ {' '.join(f'dut.{name} = {name};' for name in names)} dut.eval(); dut.show = 1; dut.eval(); dut.show = 0;
dut.clk = 1; dut.eval(); dut.clk = 0; dut.eval(); }} dut.final(); }}
"""
    for name, what in (("bench.v", design.text + bench), ("main.cpp", main)):
        with open(os.path.join(folder, name), "w", encoding="ascii") as file:
            file.write(what)
    subprocess.run(["verilator", "--cc", "--exe", "--build", "-Wno-fatal", "-O3", "-CFLAGS", "-O2", "--top-module", "bench", "bench.v",
                    "main.cpp"], cwd=folder, check=True, stdout=subprocess.DEVNULL, stderr=subprocess.DEVNULL)
    return [os.path.join(folder, "obj_dir", "Vbench")]


def run(words, given):
    """The least times of three runs, or of one that takes over 5 seconds, and the greatest resident memory, in MB."""
    told, all_of_them = os.path.join(work, "told"), []
    while len(all_of_them) < 3 and not (all_of_them and all_of_them[-1].seconds > 5):
        with open(given, "rb") as file:
            subprocess.run(["/usr/bin/time", "-f", "%U %S %e %M", "-o", told, *words], stdin=file, stdout=subprocess.DEVNULL, check=True)
        with open(told, encoding="ascii") as file:
            user, system, seconds, memory = map(float, file.read().split())
        all_of_them.append(Told(user + system, seconds, memory / 1024))
    processor, seconds, memory = zip(*all_of_them)
    return Told(min(processor), min(seconds), max(memory))


def printed(first, second, given):
    """How many bytes both print, which must be the same ones."""
    with open(given, "rb") as one, open(given, "rb") as other:
        pair = [subprocess.Popen(words, stdin=file, stdout=subprocess.PIPE) for words, file in ((first, one), (second, other))]
        size, pieces = 0, [b"-"]
        while pieces[0]:
            pieces = [program.stdout.read(1 << 20) for program in pair]
            if pieces[0] != pieces[1]:
                at = size + len(os.path.commonprefix(pieces))
                sys.exit(f"{first[0]} and {second[0]} print the same {at} bytes, and then {pieces[0][at - size:][:60]!r} and {pieces[1][at - size:][:60]!r}")
            size += len(pieces[0])
        if any(program.wait() for program in pair):
            sys.exit(f"{first[0]} or {second[0]} ended with another status than 0")
    return size


def row(name, told, beside=None):
    ratio = f"   secv: {beside.processor / told.processor:.3f} of its time, {beside.memory / told.memory:.3f} of its memory" if beside else ""
    print(f"{name:>10} {told.processor:>10.2f} {told.seconds:>9.2f} {told.memory:>7.1f}{ratio}", flush=True)


def growth(design, file, whole):
    """The memory of all the design's cycles against that of a thousand."""
    few = os.path.join(work, "few")
    stimulus(design, 1000, few)
    return whole.memory / run([secv, "sim", file], few).memory


ours, theirs, grown = 0, 0, 0
for design in (inverters(), datapath(), hierarchy()):
    file, given = os.path.join(work, f"{design.name}.v"), os.path.join(work, "stimulus")
    with open(file, "w", encoding="ascii") as out:
        out.write(design.text)
    stimulus(design, design.cycles, given)
    words = [secv, "sim", file]
    others = [("vvp", vvp(design, given))]
    if shutil.which("verilator"):
        others.append(("Verilator", verilator(design, given)))
    sizes = [printed(words, other, given) for _, other in others]
    print(f"{design.name}: {design.cycles} cycles of {len(design.signals)} signals, {sizes[0]} bytes printed")
    print(f"{'':>10} {'processor':>10} {'seconds':>9} {'MB':>7}")
    told = run(words, given)
    row("secv", told)
    before = theirs
    for name, other in others:
        beside = run(other, given)
        row(name, beside, told)
        theirs += beside.processor * (name == "vvp")
    ours += told.processor
    note("sim", design.name, processor=f"{told.processor:.2f}", seconds=f"{told.seconds:.2f}", MB=f"{told.memory:.1f}", vvp=f"{theirs - before:.2f}")
    if design.cycles == 1000000:
        grown = growth(design, file, told)
print(f"memory of 1,000,000 cycles against that of 1,000: {grown:.3f}")
print(f"time in all against vvp's: {ours / theirs:.3f}")
PY
