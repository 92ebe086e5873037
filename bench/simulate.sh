#!/bin/sh
# Admits designs at the limits and runs one of 4,096 signals. First it prints, for three kinds of designs (a chain of wires, one block
# that assigns every signal in nested branches, one block of many statements), the processor time of admission at 1/4, 1/2 and the
# whole of the limit, the ratio of the last two (asked: at most 2.3), and that of the whole against a whole run of iverilog on the
# same text (asked: at most a quarter). Admission is what `secv sim` of a level that is not there (707) takes more than `sim` of the
# same text where its last name is refused (401). Then it prints a table of the cycles in a second on a design of 4,096 signals: a row
# each for the simulator's core, vvp and Verilator's program, where they are installed, with the ratio of the core's cycles to these
# (asked: at least 3 to vvp's). All signals are secret, so `sim --level L` prints the number of a cycle alone; a run without cycles is
# taken off. Last come the greatest ratio of admission and the ratio to vvp. The variable SECV may name another program to measure.
set -eu
top=$(CDPATH='' cd -- "$(dirname -- "$0")/.." && pwd -P)
work=$(mktemp -d)
trap 'rm -rf "$work"' EXIT
program=${SECV:-$("$top/secv" --path)}
PYTHONPATH="$top/bench" python3 - "$program" "$work" <<'PY'
import os, resource, shutil, subprocess, sys, time

from results import note

program, work = sys.argv[1], sys.argv[2]
SIGNALS = 4096


def chain(size):
    """Each wire reads the one before it and some others."""
    count = size - 2
    yield "module m(input [31:0] a, output [31:0] y);\n"
    for i in range(count):
        before = [f"w{i - k}" for k in (1, 2, 3) if i >= k] or ["a"]
        yield f"  wire [31:0] w{i}; assign w{i} = a + {' ^ '.join(before)};\n"
    yield f"  assign y = w{count - 1};\nendmodule\n"


def branches(size):
    """One block that gives each signal a value, and then another in each branch of a nest of eight."""
    count = size - 2
    names = [f"r{i}" for i in range(count)]
    yield "module m(input [7:0] a, output [7:0] y);\n  reg [7:0] " + ", ".join(names) + ";\n  always @* begin\n"
    yield "".join(f"{name} = a;\n" for name in names)
    share = count // 8 + 1
    for depth in range(8):
        inner = names[depth * share:(depth + 1) * share]
        yield f"if (a[{depth}]) begin\n" + "".join(f"{name} = a + {depth};\n" for name in inner)
        yield "end else begin\n" + "".join(f"{name} = a - {depth};\n" for name in inner)
    yield "end " * 8 + f"end\n  assign y = r{count - 1};\nendmodule\n"


def statements(size):
    """One block of many statements over two signals: a hundred thousand at the whole of the limit."""
    yield "module m(input a, b, output y);\n  reg p, q;\n  always @* begin\n"
    for i in range(size * 100000 // SIGNALS):
        yield ("p=a;\n", "q=b;\n", "p=b;\n", "q=a;\n")[i % 4]
    yield "end\n  assign y = p ^ q;\nendmodule\n"


def datapath(size):
    """Registers with a wire each, which reads the wire before it and the register; all but the clock are secret."""
    count = (size - 4) // 2
    yield "module m(input clk, input [31:0] {H} a, output [31:0] {H} y, z);\n"
    for i in range(count):
        before = f"w{i - 1}" if i % 16 else "a"
        yield f"  reg [31:0] {{H}} r{i}; wire [31:0] {{H}} w{i}; assign w{i} = (r{i} + {before}) ^ (r{(i * 7) % count} & a);\n"
        yield f"  always @(posedge clk) r{i} <= w{i} + 32'd{i};\n"
    yield f"  assign y = w{count - 1}; assign z = w0;\nendmodule\n"


def timed(words, text=None):
    """The least time of three runs, or of one that takes over 5 seconds, and what the last printed."""
    best, said = None, ""
    for _ in range(3):
        start = time.perf_counter()
        done = subprocess.run(words, input=text, capture_output=True, text=True)
        took = time.perf_counter() - start
        if done.returncode:
            sys.exit(f"{words} ended with {done.returncode}: {done.stderr[-400:]}")
        best, said = took if best is None else min(best, took), done.stdout
        if best > 5:
            break
    return best, said


def spent(name, text, words, refusal, given=""):
    """The least processor seconds of five runs of `secv sim`, or of one that takes over 5, each of which ends with this refusal, or with none."""
    path = os.path.join(work, name)
    with open(path, "w") as file:
        file.write(text)
    best = None
    for _ in range(5):
        before = resource.getrusage(resource.RUSAGE_CHILDREN)
        done = subprocess.run([program, "sim", path, *words], input=given, capture_output=True, text=True)
        after = resource.getrusage(resource.RUSAGE_CHILDREN)
        if done.returncode != (1 if refusal else 0) or refusal not in done.stdout:
            sys.exit(f"sim {path} ended with {done.returncode}: {done.stdout[-400:]}")
        took = after.ru_utime + after.ru_stime - before.ru_utime - before.ru_stime
        best = took if best is None else min(best, took)
        if best > 5:
            break
    return best


def admission(text):
    """The processor seconds of admission: up to a level that is not there, less those up to the last name, where that is refused."""
    front, _, _ = text.rpartition("assign y = ")
    whole = spent("whole.v", text, ["--level", "none"], "refused 707")
    return max(whole - spent("front.v", f"{front}assign y = nothing;\nendmodule\n", [], "refused 401"), 1e-6)


def admissions():
    print(f"{'admission, s':<12}{'1/4':>9}{'1/2':>9}{'whole':>9}{'ratio':>8}{'iverilog':>10}{'of it':>8}")
    worst = 0.0
    for kind in (chain, branches, statements):
        texts = ["".join(kind(SIGNALS // part)) for part in (4, 2, 1)]
        times = [admission(text) for text in texts]
        ratio = times[2] / max(times[1], 1e-6)
        worst = max(worst, ratio)
        beside = ""
        if shutil.which("iverilog"):
            with open(os.path.join(work, "design.v"), "w") as file:
                file.write(texts[2])
            whole, _ = timed(["iverilog", "-t", "null", os.path.join(work, "design.v")])
            beside = f"{whole:10.3f}{times[2] / whole:8.3f}"
        print(f"{kind.__name__:<12}" + "".join(f"{it:9.4f}" for it in times) + f"{ratio:8.2f}" + beside)
        note("simulate", f"admission of {kind.__name__}", seconds=f"{times[2]:.4f}")
    return worst


TESTBENCH = """module bench; reg clk; reg [31:0] a; wire [31:0] y; reg [31:0] all; integer i; m dut(.clk(clk), .a(a), .y(y));
initial begin clk = 0; a = 1; all = 0;
%s
for (i = 0; i < %d; i = i + 1) begin a = a * 1664525 + 1; #1 all = all ^ y; clk = 1; #1 clk = 0; end
$display("%%0d", all); end endmodule
"""

HARNESS = """#include "Vm.h"
#include <cstdint>
#include <cstdio>
int main() { Vm dut; uint32_t a = 1, all = 0; dut.clk = 0;
for (int i = 0; i < %d; i++) { a = a * 1664525 + 1; dut.a = a; dut.eval(); all ^= dut.y; dut.clk = 1; dut.eval(); dut.clk = 0; }
std::printf("%%u\\n", all); }
"""


def cycles_of_vvp(text, cycles):
    with open(os.path.join(work, "bench.v"), "w") as file:
        start = "".join(f"dut.r{i} = 0;\n" for i in range((SIGNALS - 4) // 2))
        file.write(text + TESTBENCH % (start, cycles))
    subprocess.run(["iverilog", "-o", os.path.join(work, "bench.vvp"), "-s", "bench", os.path.join(work, "bench.v")], check=True)
    took, _ = timed(["vvp", "-n", os.path.join(work, "bench.vvp")])
    return cycles / took


def cycles_of_verilator(text, cycles):
    folder = os.path.join(work, "verilated")
    os.makedirs(folder, exist_ok=True)
    for name, what in (("m.v", text), ("main.cpp", HARNESS % cycles)):
        with open(os.path.join(folder, name), "w") as file:
            file.write(what)
    subprocess.run(["verilator", "--cc", "--exe", "--build", "-Wno-fatal", "-O3", "--top-module", "m", "m.v", "main.cpp"],
                   cwd=folder, check=True, stdout=subprocess.DEVNULL, stderr=subprocess.DEVNULL)
    took, _ = timed([os.path.join(folder, "obj_dir", "Vm")])
    return cycles / took


def running():
    text = "".join(datapath(SIGNALS))
    cycles = 20000
    given = "inputs a\n" + "".join(f"{(i * 2654435761 + 1) % 2**32:x}\n" for i in range(cycles))
    took = spent("core.v", text, ["--level", "L"], "", given) - spent("core.v", text, ["--level", "L"], "", "inputs a\n")
    ours = cycles / max(took, 1e-6)
    rows, text = [("secv", ours)], text.replace(" {H}", "")
    if shutil.which("vvp"):
        rows.append(("vvp", cycles_of_vvp(text, 2000)))
    if shutil.which("verilator"):
        rows.append(("Verilator", cycles_of_verilator(text, 20000)))
    print(f"\n{'4,096 signals':<14}{'cycles/s':>12}{'secv to it':>12}")
    for name, rate in rows:
        print(f"{name:<14}{rate:>12.0f}{ours / rate:>12.2f}")
    note("simulate", f"{SIGNALS} signals", **{f"{name}_cycles_a_second": f"{rate:.0f}" for name, rate in rows})
    return next((ours / rate for name, rate in rows if name == "vvp"), None)


worst = admissions()
beside = running()
print(f"greatest ratio of admission {worst:.2f}" + (f"; {beside:.2f} times vvp's cycles" if beside else ""))
PY
