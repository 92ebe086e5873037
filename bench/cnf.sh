#!/bin/sh
# Times `secv cnf` on obligations of 1/8, 1/4, 1/2 and the whole of a size, in three shapes: 128 multiplications and shifts of 64 bits one
# after the other, a cone of 4,088 signals of 64 bits, and 64 targets of one `case` of 256 arms. Prints a table of variables, clauses,
# bytes printed, times, variables and clauses a second and greatest memory, with the ratio of each time to the one before (asked: at most 2.2);
# then the greatest ratio of the last two times, the least number of clauses a second at the whole size (asked: above 3 million), and the most
# bytes of memory for a clause (asked: at most 64). cnf.md has figures that were read. Where yosys is installed, a line each tells how many clauses
# it makes of the same condition at 1/8 of the size, without labels, and in what time, of which it spends at most a second on meeting them.
# Memory is the greatest resident size that GNU time tells (`/usr/bin/time`), less that of the smallest design. The variable SECV may name
# another program to measure.
set -eu
if ! [ -x /usr/bin/time ]; then
    echo "cnf.sh: GNU time is missing; on Debian and Ubuntu it is the package 'time'" >&2
    exit 1
fi
top=$(CDPATH='' cd -- "$(dirname -- "$0")/.." && pwd -P)
work=$(mktemp -d)
trap 'rm -rf "$work"' EXIT
program=${SECV:-$("$top/secv" --path)}
PYTHONPATH="$top/bench" python3 - "$program" "$work" <<'PY'
import os, re, shutil, subprocess, sys, time

from results import note

secv, work = sys.argv[1], sys.argv[2]
HEAD = "module m(output reg y, input [63:0] a, input [63:0] b, input {H} h);\n"
TAIL = "  always @* if (%s) y = h; else y = 0;\nendmodule\n"


def products(part):
    """128 multiplications over so many, each shifted by what it was made from."""
    count = 128 // part
    lines = ["  wire [63:0] p0 = a;\n"]
    lines += [f"  wire [63:0] p{k} = (p{k - 1} * b) << p{k - 1};\n" for k in range(1, count + 1)]
    return "".join([HEAD, *lines, TAIL % f"p{count}"])


def signals(part):
    """4,088 signals over so many, each the sum of the one before and an input."""
    count = 4088 // part
    lines = ["  wire [63:0] s0 = a;\n"]
    lines += [f"  wire [63:0] s{k} = s{k - 1} + b;\n" for k in range(1, count)]
    return "".join([HEAD, *lines, TAIL % f"s{count - 1}"])


def arms(part):
    """64 targets over so many of one `case` of 256 arms."""
    count = 64 // part
    names = ", ".join(f"t{k}" for k in range(count))
    body = "".join(f"    {i}: begin " + "".join(f"t{k} = b[{(i + k) % 64}]; " for k in range(count)) + "end\n" for i in range(256))
    condition = " ^ ".join(f"t{k}" for k in range(count))
    return "".join([HEAD, f"  reg {names};\n  always @* case (a[7:0])\n", body, "  endcase\n", TAIL % condition])


def run(file):
    """The least time of three runs and the greatest resident memory, in bytes."""
    best, most = None, 0
    told = os.path.join(work, "told")
    for _ in range(3):
        start = time.perf_counter()
        child = subprocess.run(["/usr/bin/time", "-v", "-o", told, secv, "cnf", file, "1"], stdout=subprocess.DEVNULL, stderr=subprocess.DEVNULL)
        took = time.perf_counter() - start
        if child.returncode != 0:
            sys.exit(f"secv cnf {file} 1 ended with {child.returncode}")
        with open(told) as text:
            memory = int(re.search(r"Maximum resident set size \(kbytes\): (\d+)", text.read()).group(1)) * 1024
        best = took if best is None else min(best, took)
        most = max(most, memory)
    return best, most


def sizes(file):
    """Variables, clauses and bytes that are printed."""
    with subprocess.Popen([secv, "cnf", file, "1"], stdout=subprocess.PIPE, stderr=subprocess.DEVNULL) as child:
        words = child.stdout.readline().split()
        count = len(b" ".join(words)) + 1 + sum(len(piece) for piece in iter(lambda: child.stdout.read(1 << 20), b""))
    return int(words[2]), int(words[3]), count


def write(name, text):
    file = os.path.join(work, name)
    with open(file, "w") as out:
        out.write(text)
    return file


def beside_yosys(name, text):
    """What yosys makes of a design's condition, in a line."""
    write("plain.v", text.replace(" {H}", ""))
    steps = "read_verilog plain.v; proc; sat -set y 1 -set h 1 -timeout 1 -dump_cnf plain.cnf"
    start = time.perf_counter()
    subprocess.run(["yosys", "-q", "-p", steps], cwd=work, stdout=subprocess.DEVNULL, stderr=subprocess.DEVNULL)
    took = time.perf_counter() - start
    with open(os.path.join(work, "plain.cnf")) as file:
        head = next(line.split() for line in file if line.startswith("p cnf"))
    print(f"yosys, {name} 1/8: {head[2]} variables, {head[3]} clauses, {took:.2f} s")


_, base = run(write("base.v", HEAD + TAIL % "a"))
print(f"{'shape':10} {'part':>4} {'variables':>10} {'clauses':>10} {'MB':>7} {'seconds':>8} {'variables/s':>11} {'clauses/s':>11} {'memory MB':>10} {'ratio':>6}")
ratio, speed, held = 0.0, None, 0.0
for name, make in (("products", products), ("signals", signals), ("case", arms)):
    before = None
    for part in (8, 4, 2, 1):
        file = write(f"{name}{part}.v", make(part))
        variables, clauses, count = sizes(file)
        took, memory = run(file)
        grew = took / before if before else 0.0
        if part <= 2:
            ratio = max(ratio, grew)
        if part == 1:
            speed = clauses / took if speed is None else min(speed, clauses / took)
            held = max(held, (memory - base) / clauses)
        shown = f"{grew:6.2f}" if before else "     -"
        print(f"{name:10} {'1/' + str(part):>4} {variables:10} {clauses:10} {count / 1e6:7.1f} {took:8.3f} {variables / took:11.0f} {clauses / took:11.0f} {memory / 1e6:10.1f} {shown}", flush=True)
        note("cnf", f"{name} 1/{part}", variables=variables, clauses=clauses, printed=f"{count / 1e6:.1f}", seconds=f"{took:.3f}", MB=f"{memory / 1e6:.1f}")
        before = took
print(f"greatest ratio of the last two times: {ratio:.2f}")
print(f"least clauses a second at the whole size: {speed:.0f}")
print(f"most bytes of memory for a clause: {held:.1f}")
if shutil.which("yosys"):
    for name, make in (("products", products), ("signals", signals), ("case", arms)):
        beside_yosys(name, make(8))
PY
