#!/bin/sh
# Times what `secv` does with a text before its obligations are asked, as `secv sim` on an empty stimulus: reading, elaboration and admission. Of
# texts of 1/8, 1/4, 1/2 and the whole of the size limit, in five mixtures: expressions, nested statements,
# declarations, instances, and hierarchies at the limits of instances and signals. Prints a table of times and greatest memory, with
# the ratio of the last two times (asked: at most 2.2); then iverilog and yosys on the whole text where they are installed, and secv's
# time and memory against theirs (asked: at most a tenth of their time, a fifth of iverilog's memory; of hierarchies a quarter of
# iverilog's time); last, the greatest ratio of the last two times. Memory is the greatest resident size that GNU time tells
# (`/usr/bin/time`).
set -eu
if ! [ -x /usr/bin/time ]; then
    echo "front.sh: GNU time is missing; on Debian and Ubuntu it is the package 'time'" >&2
    exit 1
fi
top=$(CDPATH='' cd -- "$(dirname -- "$0")/.." && pwd -P)
work=$(mktemp -d)
trap 'rm -rf "$work"' EXIT
program=$("$top/secv" --path)
PYTHONPATH="$top/bench" python3 - "$program" "$work" <<'PY'
import os, random, re, shutil, subprocess, sys, time

from results import note

secv, work = sys.argv[1], sys.argv[2]
LIMIT = 1048576
OPERATORS = ["+", "-", "&", "|", "^", "==", "<", "<<", "&&", "*"]


def expression(draw, names, tokens):
    """Some tokens of an expression over the names, with groups, joins and choices."""
    parts = [draw.choice(names)]
    while len(parts) < tokens:
        kind = draw.randrange(8)
        name = draw.choice(names)
        if kind == 0:
            parts.append(f"{draw.choice(OPERATORS)} ({name} ? ~{draw.choice(names)} : 4'd{draw.randrange(16)})")
        elif kind == 1:
            parts.append(f"{draw.choice(OPERATORS)} {{{name}, {draw.choice(names)}[{draw.randrange(4)}]}}")
        else:
            parts.append(f"{draw.choice(OPERATORS)} {name}")
    return " ".join(parts)


def expressions(draw, size):
    """One module of assigns with long right sides."""
    names = [f"a{i}" for i in range(16)]
    yield "module m(" + ", ".join(f"input [7:0] {n}" for n in names) + ");\n"
    made = 0
    while made < size:
        line = f"  wire [7:0] w{made}; assign w{made} = {expression(draw, names, 100)};\n"
        made += len(line)
        yield line
    yield "endmodule\n"


def statement(draw, names, depth):
    """A nest of blocks, ifs and cases."""
    if depth == 0:
        return f"r{draw.randrange(4)} = {expression(draw, names, 4)};"
    kind = draw.randrange(3)
    inner = statement(draw, names, depth - 1)
    if kind == 0:
        return f"begin {inner} r0 = {draw.choice(names)}; end"
    if kind == 1:
        return f"if ({expression(draw, names, 3)}) {inner} else r1 = {draw.choice(names)};"
    return f"case ({draw.choice(names)}) 8'd{draw.randrange(256)}, 8'd1: {inner} default: r2 = {draw.choice(names)}; endcase"


def statements(draw, size):
    """One module of blocks with nested statements."""
    names = [f"a{i}" for i in range(8)]
    yield "module m(" + ", ".join(f"input [7:0] {n}" for n in names) + ");\n  reg [7:0] r0, r1, r2, r3;\n"
    made = 0
    while made < size:
        line = f"  always @* {statement(draw, names, 20)}\n"
        made += len(line)
        yield line
    yield "endmodule\n"


def declarations(draw, size):
    """Modules of ports, parameters and signals with ranges."""
    made, count = 0, 0
    while made < size:
        lines = [f"module m{count} #(parameter [7:0] W = {draw.randrange(200)}, N = 3) (input signed [7:0] a, b, output reg [7:0] y);\n"]
        for i in range(40):
            lines.append(f"  localparam [3:0] P{i} = {draw.randrange(16)}, Q{i} = P{i} + 1;\n")
            lines.append(f"  wire signed [{draw.randrange(63)}:0] w{i} = a, v{i} = b;\n  reg [7:0] r{i}, s{i};\n")
        lines.append("endmodule\n")
        made += sum(map(len, lines))
        count += 1
        yield from lines


def instances(draw, size):
    """Modules that stand in one another, with overrides and links."""
    yield "module adder #(parameter N = 1) (input [7:0] a, b, output [7:0] y); assign y = a + b; endmodule\nmodule m(input [7:0] a, b);\n"
    made, count = 0, 0
    while made < size:
        line = f"  wire [7:0] w{count}; adder #(.N({draw.randrange(9)})) u{count}(.a(a), .b({expression(draw, ['a', 'b'], 3)}), .y(w{count}));\n"
        made += len(line)
        count += 1
        yield line
    yield "endmodule\n"


def hierarchies(draw, size):
    """Instances of one module, as many for the size as the limits allow for a megabyte: 1,024 with the top, and 4,096 signals."""
    count = size * 1023 // LIMIT
    yield "module adder #(parameter N = 1) (input [7:0] a, b, output [7:0] y); assign y = a + b + N; endmodule\n"
    yield "module m(input [7:0] a, b);\n"
    made = 0
    for i in range(count):
        names = ["a", "b", *[f"w{k}" for k in range(max(0, i - 8), i)]]
        tokens = max(3, (size * (i + 1) // count - made) // 8)
        line = f"  wire [7:0] w{i}; adder #(.N({draw.randrange(9)})) u{i}(.a({draw.choice(names)}), .b({expression(draw, names, min(tokens, 200))}), .y(w{i}));\n"
        made += len(line)
        yield line
    yield "endmodule\n"


def text(mixture, size):
    """The mixture's text of the size: whole lines, and blanks at the end."""
    room = size - 4096
    whole = "".join(mixture(random.Random(size), room))
    while len(whole) > size:
        room -= len(whole) - size + 1024
        whole = "".join(mixture(random.Random(size), room))
    return whole + " " * (size - len(whole))


def run(words, statuses):
    """The least time of fifteen runs, or of one that takes over 5 seconds, and the greatest resident memory, in MB."""
    best, most = None, 0
    told = os.path.join(work, "told")
    for _ in range(15):
        if best is not None and best > 5:
            break
        start = time.perf_counter()
        child = subprocess.run(["/usr/bin/time", "-v", "-o", told, *words], stdin=subprocess.DEVNULL, stdout=subprocess.DEVNULL, stderr=subprocess.DEVNULL)
        took = time.perf_counter() - start
        if child.returncode not in statuses:
            sys.exit(f"{words} ended with {child.returncode}")
        with open(told) as file:
            memory = int(re.search(r"Maximum resident set size \(kbytes\): (\d+)", file.read()).group(1))
        best = took if best is None else min(best, took)
        most = max(most, memory / 1024)
    return best, most


def others(mixture, file):
    """The other tools' names and words: for hierarchies they elaborate too."""
    passes = "; hierarchy -top m; proc; flatten" if mixture is hierarchies else ""
    return [("iverilog", ["iverilog", "-t", "null", "-o", "/dev/null", file]), ("yosys", ["yosys", "-q", "-p", f"read_verilog {file}{passes}"])]


worst = 0
for mixture in (expressions, statements, declarations, instances, hierarchies):
    print(f"{mixture.__name__}\n{'bytes':>10} {'seconds':>9} {'MB':>7} {'ratio':>6}")
    before = None
    for part in (8, 4, 2, 1):
        size = LIMIT // part
        file = os.path.join(work, f"{mixture.__name__}{part}.v")
        with open(file, "w") as out:
            out.write(text(mixture, size))
        seconds, memory = run([secv, "sim", file], (0, 1))
        ratio = "" if before is None else f"{seconds / before:.2f}"
        print(f"{size:>10} {seconds:>9.4f} {memory:>7.1f} {ratio:>6}")
        note("front", f"{mixture.__name__} 1/{part}", seconds=f"{seconds:.4f}", MB=f"{memory:.1f}")
        last = None if before is None else seconds / before
        before = seconds
    worst = max(worst, last)
    for name, words in others(mixture, file):
        if shutil.which(name):
            other_seconds, other_memory = run(words, range(0, 256))
            print(f"{name:>10} {other_seconds:>9.4f} {other_memory:>7.1f}   secv: {seconds / other_seconds:.3f} of its time, {memory / other_memory:.3f} of its memory")
print(f"{worst:.2f}")
PY
