#!/bin/sh
# Times `secv check`, `secv check --proof` and `secv verify`: on the pairs of examples/, of each design that leaks and of its mend; on designs that are
# accepted, as the store of tags of examples/, caches of 2, 4, 8 and 16 ways for each of two domains, a cache of 64 lines (`cache.py`) and a pipeline of eight
# stages (`pipeline.py`); on conditions that always hold, of sums of 4 and 6 bits and of products of 3 and 4 bits; and on the longest chain of `else`.
# Prints a row of a table for each, with its obligations, its answer, times, greatest memory, the bytes of its certificate and, where minisat is installed,
# its time on the clauses of all obligations of a design that has at most 100, as `secv cnf` prints them. At the end it writes the rows into verdict.md, with
# the load of the machine, with how much longer `check` takes of caches of twice as many ways, and with how many times the time of `check` that of `verify`
# and that of `check --proof` are at most. Times are those of the processor. Memory is the greatest resident size that GNU time tells (`/usr/bin/time`).
# The variable SECV may name another program to measure, of which nothing is written into verdict.md.
set -eu
if ! [ -x /usr/bin/time ]; then
    echo "verdict.sh: GNU time is missing; on Debian and Ubuntu it is the package 'time'" >&2
    exit 1
fi
top=$(CDPATH='' cd -- "$(dirname -- "$0")/.." && pwd -P)
work=$(mktemp -d)
trap 'rm -rf "$work"' EXIT
program=${SECV:-$("$top/secv" --path)}
PYTHONPATH="$top/bench" python3 - "$program" "$top" "$work" "${SECV+other}" <<'PY'
import collections, datetime, os, re, shutil, subprocess, sys, textwrap

from results import note

secv, top, work, other = sys.argv[1:5]
MOST_SOLVED, LONG, COLUMNS = 100, 5, 120
CHAIN = "4,096 paths of one signal"
MINISAT = ["minisat", "-verb=0"]
has_minisat = shutil.which("minisat") is not None
# What was measured of a design; of one that is refused there are no certificate and no times with one.
Row = collections.namedtuple("Row", "design text obligations answer check stored verify memory size solved")


def example(name):
    with open(os.path.join(top, "examples", name), encoding="utf-8") as file:
        return file.read()


def pairs():
    """Each mended design of examples/ behind the one that leaks."""
    names = sorted(os.listdir(os.path.join(top, "examples")))
    for name in [name.removesuffix("_mended.v") for name in names if name.endswith("_mended.v")]:
        yield f"{name}_leak.v" if f"{name}_leak.v" in names else f"{name}.v"
        yield f"{name}_mended.v"


def generated(script):
    """What a generator beside this prints."""
    return subprocess.run([sys.executable, os.path.join(top, "bench", script)], stdout=subprocess.PIPE, text=True, check=True).stdout


def looked_up(domain, ways):
    """The look-up of a domain: a chain over its ways."""
    return "        " + "        else ".join(
        f"if (v{domain}_{i} && t{domain}_{i} == addr) begin hit = 1; data = w{domain}_{i}; end\n" for i in range(ways))


def filled(domain, ways):
    """The ways of a domain are filled in turns."""
    arms = "".join(f"          {i}: begin t{domain}_{i} <= addr; w{domain}_{i} <= given; v{domain}_{i} <= 1; end\n" for i in range(ways))
    cleared = " ".join(f"v{domain}_{i} <= 0;" for i in range(ways))
    return (f"  always @(posedge clk)\n    if (rst) begin {cleared} n{domain} <= 0; end\n    else if (dom == {domain}) begin\n"
            f"      if (req && fill && !hit) begin\n        n{domain} <= n{domain} + 1;\n        case (n{domain})\n{arms}        endcase\n      end\n    end\n")


def cache(ways):
    """A cache of so many ways for each of a public and a secret domain, which look up and fill in turns."""
    registers = "".join(f"  reg [15:0] {label} {', '.join(f't{domain}_{i}' for i in range(ways))};\n"
                        f"  reg [7:0] {label} {', '.join(f'w{domain}_{i}' for i in range(ways))};\n"
                        f"  reg {label} {', '.join(f'v{domain}_{i}' for i in range(ways))};\n"
                        f"  reg [{ways.bit_length() - 2}:0] {label} n{domain};\n" for domain, label in ((0, ""), (1, "{H}")))
    return ("labelmap Dom [0:0] 0: L; default: H; endlabelmap\n"
            "module cache(input clk, input rst, input dom, input {Dom(dom)} req, fill, input [15:0] {Dom(dom)} addr,\n"
            "  input [7:0] {Dom(dom)} given, output reg {Dom(dom)} hit, output reg [7:0] {Dom(dom)} data);\n" + registers
            + "  always @* begin\n    hit = 0; data = 0;\n    if (req) begin\n      if (dom == 0) begin\n" + looked_up(0, ways)
            + "      end else begin\n" + looked_up(1, ways) + "      end\n    end\n  end\n" + filled(0, ways) + filled(1, ways) + "endmodule\n")


def always(bits, condition):
    """A secret behind a condition that never fails."""
    return f"module m(input [{bits - 1}:0] a, b, c, input {{H}} h, output y);\n  assign y = {condition} ? 0 : h;\nendmodule\n"


def chain():
    """Cases in the last arms of one another, a chain of `else` that has 4,096 paths, the most of a signal."""
    sizes = [65] * 63 + [64]
    lines = []
    for depth, arms in enumerate(sizes):
        lines += [f"case (s{depth})", *(f"{key}: y = {key % 2};" for key in range(arms - 1)), "default:"]
    selectors = ", ".join(f"s{depth}" for depth in range(len(sizes)))
    return f"module m(input [7:0] {selectors}, input a, output reg y);\n  always @*\n" + "\n".join([*lines, "y = a;", *["endcase"] * len(sizes)]) + "\nendmodule\n"


def timed(words, statuses):
    """The least processor time of three runs, or of one that takes long, and what was written."""
    best, written = None, os.path.join(work, "written")
    for _ in range(3):
        if best is not None and best > LONG:
            break
        with open(written, "wb") as out:
            child = subprocess.Popen(words, stdin=subprocess.DEVNULL, stdout=out, stderr=subprocess.DEVNULL)
            _, status, used = os.wait4(child.pid, 0)
        child.returncode = os.waitstatus_to_exitcode(status)
        if child.returncode not in statuses:
            sys.exit(f"{words} ended with {child.returncode}")
        took = used.ru_utime + used.ru_stime
        best = took if best is None else min(best, took)
    with open(written, encoding="ascii") as file:
        return best, file.read()


def memory_of(words):
    """The greatest resident memory, in MB."""
    told = os.path.join(work, "told")
    subprocess.run(["/usr/bin/time", "-f", "%M", "-o", told, *words], stdin=subprocess.DEVNULL, stdout=subprocess.DEVNULL, stderr=subprocess.DEVNULL, check=False)
    with open(told, encoding="ascii") as file:
        return int(file.read().split()[-1]) / 1024


def solved(file, count):
    """The time of minisat on the clauses of all obligations, started once for each."""
    clauses, sum_of_times = os.path.join(work, "clauses"), 0.0
    for number in range(1, count + 1):
        with open(clauses, "wb") as out:
            subprocess.run([secv, "cnf", file, str(number)], stdout=out, check=True)
        sum_of_times += timed([*MINISAT, clauses], (10, 20))[0]
    return sum_of_times


def measured(design, text, is_certified):
    """The row of a design. No certificate is made of one on which that takes a great while."""
    file, proof = os.path.join(work, "design.v"), os.path.join(work, "proof")
    with open(file, "w", encoding="ascii") as out:
        out.write(text)
    runs = [[secv, "check", file], [secv, "check", file, "--proof", proof], [secv, "verify", file, proof]]
    check, said = timed(runs[0], (0, 1))
    answer, stored, verify, size = said.splitlines()[0], None, None, None
    count = timed([secv, "list", file], (0,))[1].count("\n")
    if answer == f"accepted {count} obligations":
        answer = "accepted"
    elif not answer.startswith("refused flow "):
        sys.exit(f"{design}: check says {said!r}, and list tells {count} obligations")
    if answer == "accepted" and is_certified:
        stored, verify = (timed(words, (0,)) for words in runs[1:])
        if [stored[1], verify[1]] != [said, said]:
            sys.exit(f"{design}: check says {said!r}, with --proof {stored[1]!r}, and verify {verify[1]!r}")
        stored, verify, size = stored[0], verify[0], os.path.getsize(proof)
    memory = max(memory_of(words) for words in (runs if size else runs[:1]))
    return Row(design, text, count, answer, check, stored, verify, memory, size, solved(file, count) if has_minisat and count <= MOST_SOLVED else None)


def line_of(row):
    cells = [row.design, f"{row.obligations:,}", row.answer, *("-" if time is None else f"{time:.4f}" for time in (row.check, row.stored, row.verify)),
             f"{row.memory:,.1f}", "-" if row.size is None else f"{row.size:,}", *["-" if row.solved is None else f"{row.solved:.3f}"] * has_minisat]
    return f"| {' | '.join(cells)} |"


def noted(row):
    """Keeps a row, in the digits of its line."""
    told = [None if cell == "-" else cell.strip("`").replace(",", "") for cell in line_of(row).strip("| ").split(" | ")]
    names = ("check", "proof", "verify", "MB", "bytes", *["minisat"] * has_minisat)
    note("verdict", row.design.replace("`", ""), **dict(zip(names, told[3:])))


def load():
    return f"{os.getloadavg()[0]:.1f}"


def largest(rows, times):
    """The most that a ratio comes to, and of which design."""
    most = max((row for row in rows if row.size), key=times)
    return f"{times(most):.1f} ({most.design})"


def page(rows, loads):
    ways = {row.design: row.check for row in rows if row.design.startswith("a cache of 2 x ")}
    steps = [f"{after / before:.2f}" for before, after in zip(list(ways.values()), list(ways.values())[1:])]
    solver = " minisat was started once for each obligation, of designs that have at most 100 of them." * has_minisat
    said = [f"Written by `bench/verdict.sh`, none of it by hand, on {datetime.date.today()}: processor time in seconds, the least of three runs, or of one that "
            f"takes over {LONG}, and the greatest resident memory in MB.{solver} The machine has {os.cpu_count()} processors; its load was {loads[0]} when this "
            f"began and {loads[1]} when it ended, of which this itself is 1: other work beside it makes times longer.",
            f"Of caches of twice as many ways `check` takes {', '.join(steps)} times as long. The time of `verify` is at most "
            f"{largest(rows, lambda row: row.verify / row.check)} times that of `check`, and that of `check --proof` at most "
            f"{largest(rows, lambda row: row.stored / row.check)} times; without `--proof` an obligation that labels alone decide makes no clause.",
            "The last row is the longest chain of `else`, of which `check` holds all paths, and the conditions of one at a time. Its certificate would take the "
            "clauses of all 4,096 obligations, and is not made."]
    first, second, last = (textwrap.fill(text, COLUMNS, break_long_words=False, break_on_hyphens=False) for text in said)
    return "\n".join(["# What a verdict costs", "", first, "", *HEAD, *map(line_of, rows), "", second, "", last, ""])


HEAD = ["| Design | Obligations | Answer | `check` | `check --proof` | `verify` | MB | Certificate, bytes |" + " minisat |" * has_minisat,
        "|---|--:|---|--:|--:|--:|--:|--:|" + "--:|" * has_minisat]
designs = [(f"`examples/{name}`", example(name)) for name in [*pairs(), "tags.v"]]
designs += [(f"a cache of 2 x {ways} ways", cache(ways)) for ways in (2, 4, 8, 16)]
designs += [(f"{name} (`{script}`)", generated(script)) for name, script in (("a cache of 64 lines", "cache.py"), ("a pipeline of eight stages", "pipeline.py"))]
designs += [(f"sums of {bits} bits", always(bits, "(a + b) + c == a + (b + c)")) for bits in (4, 6)]
designs += [(f"products of {bits} bits", always(bits, "a * b == b * a")) for bits in (3, 4)]
designs.append((CHAIN, chain()))
began, rows = load(), []
print("\n".join(HEAD), flush=True)
for design, text in designs:
    rows.append(measured(design, text, design != CHAIN))
    print(line_of(rows[-1]), flush=True)
    noted(rows[-1])
text = page(rows, (began, load()))
print(text[text.index("|\n\n") + 2:], end="")
if not other:
    with open(os.path.join(top, "bench", "verdict.md"), "w", encoding="ascii") as file:
        file.write(text)
PY
