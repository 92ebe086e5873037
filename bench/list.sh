#!/bin/sh
# Times `secv list` on texts of 1/8, 1/4, 1/2 and the whole of a limit, in nine shapes. In four of them no block reads what it has assigned
# so far: 4,096 paths of one target, 4,096 paths of one target with 65,520 assignments on each, 65,520 obligations of 4,095 targets of one
# block, and 65,536 obligations of 16 targets whose paths have over a hundred conditions each. In five one does: 4,096 signals in one chain
# of such reads, which is followed from its end; the same where it is followed from each of them; 4,096 paths into whose conditions up to
# twelve right sides are put; 1 MB of assignments to 64 signals, all of which are followed back to the first; and a right side that is
# doubled until 65,536 nodes are put in. Prints a table of obligations, bytes printed, times and greatest memory, with the ratio of each
# time to the one before (asked: at most 2.3); then the greatest ratio of the last two times, the greatest time (asked: below 2 seconds)
# and the greatest memory (asked: below 300 MB). For the five the table has admission as well, which is all that `sim` does of a design
# before it refuses a level that is not there (707); and their last line, which is one of its own, holds for both (asked: below 3 seconds).
# Last stands how long one node more than 65,536 takes, which is to be refused (712).
# Memory is the greatest resident size that GNU time tells (`/usr/bin/time`). The variable SECV may name another program to measure.
set -eu
if ! [ -x /usr/bin/time ]; then
    echo "list.sh: GNU time is missing; on Debian and Ubuntu it is the package 'time'" >&2
    exit 1
fi
top=$(CDPATH='' cd -- "$(dirname -- "$0")/.." && pwd -P)
work=$(mktemp -d)
trap 'rm -rf "$work"' EXIT
program=${SECV:-$("$top/secv" --path)}
PYTHONPATH="$top/bench" python3 - "$program" "$work" <<'PY'
import os, re, subprocess, sys, time

from results import note

secv, work = sys.argv[1], sys.argv[2]


def tree(level, depth, leaf):
    """A full tree of `if`s over the bits of `a` from a level down to a depth."""
    if level == depth:
        return leaf()
    return f"if (a[{level}]) {tree(level + 1, depth, leaf)} else {tree(level + 1, depth, leaf)}"


def paths(part):
    """One target with 4,096 paths over so many: 12 conditions each, and an `if` more for each halving."""
    halvings = part.bit_length() - 1
    body = tree(halvings, 12, lambda: "y = b;")
    for level in reversed(range(halvings)):
        body = f"if (a[{level}]) {body} else y = 0;"
    return f"module m(input [11:0] a, input [7:0] b, output reg [7:0] y);\n  always @* {body}\nendmodule\n"


def assignments(part):
    """One target with 4,096 paths over so many, each with the same 65,520 assignments over so many: no path may keep a list of them."""
    ifs = "".join(f"if (a[{k}]) y[{k + 1}]=b;" for k in range(13 - part.bit_length()))
    body = "y[0]=c;" * (65_520 // part)
    return f"module m(input [11:0] a, input b, input c, output reg [12:0] y);\n  always @* begin y=0;{ifs}{body} end\nendmodule\n"


def targets(part):
    """One block that assigns 4,095 targets over so many, on 16 paths each, in an order that differs from arm to arm."""
    count = 4096 // part - 1
    arms = iter(range(16))

    def leaf():
        step = 2 * next(arms) + 1
        order = sorted(range(count), key=lambda i: i * step % count)
        return "begin " + "".join(f"t{i}=0;" for i in order) + " end\n"

    names = ", ".join(f"t{i}" for i in range(count))
    return f"module m(input [3:0] a);\n  reg {names};\n  always @* {tree(0, 4, leaf)}endmodule\n"


def cases(part):
    """16 targets over so many, each with 256 arms of 16 arms."""
    inner = "case(b)" + "".join(f"{i}:y=c;" for i in range(16)) + "endcase\n"
    lines = ["module m(input [7:0] a, input [3:0] b, input [7:0] c);\n"]
    for k in range(16 // part):
        arms = "".join(f"{i}:{inner}" for i in range(256)).replace("y=", f"y{k}=")
        lines.append(f"  reg [7:0] y{k};\n  always @* case(a)\n{arms}endcase\n")
    return "".join([*lines, "endmodule\n"])


def block(ports, names, statements):
    """A module with one block over so many `reg`s."""
    return f"module m({ports});\n  reg {', '.join(names)};\n  always @* begin\n{''.join(statements)}end\nendmodule\n"


def chain(part):
    """4,096 signals over so many: each is given the one before, and all are given 0 behind that, so that each read is of a value so far."""
    names = [f"t{i}" for i in range(4096 // part - 2)]
    passed = [f"{name}={before};\n" for name, before in zip(names, ["a", *names])]
    return block("input a, output reg y", names, [*passed, f"y={names[-1]};\n", *(f"{name}=0;\n" for name in names)])


def shifts(part):
    """4,096 signals over so many: each is given the one before, and then, the last one first, once more."""
    names = [f"t{i}" for i in range(4096 // part - 1)]
    passed = [f"{name}={before};\n" for name, before in zip(names, ["a", *names])]
    return block("input a", names, passed + passed[::-1])


def conditions(part):
    """One target with 4,096 paths over so many: 12 conditions on a value that is made anew behind each, and one fewer for each halving."""
    ifs = "".join(f"if (x[{k}]) y[{k}]=c; x=x+b;\n" for k in range(13 - part.bit_length()))
    return block("input [11:0] a, input [11:0] b, input c, output reg [11:0] y", ["[11:0] x"], [f"x=a; y=0;\n{ifs}x=0;\n"])


def rounds(part):
    """1 MB over so many: 64 signals, each of which is given the one before, round after round, the last one first."""
    names = [f"t{i}" for i in range(64)]
    begin = [f"{name}=a;" for name in names]
    last = "".join(f"{name}={before};" for name, before in zip(names[::-1], [*names[-2::-1], "a"])) + "\n"
    turn = last.replace("t0=a;", "t0=t63;")
    front = len(block("input a", names, [*begin, last]))
    return block("input a", names, [*begin, *[turn] * ((1_048_576 // part - front) // len(turn)), last])


def doublings(part, more="b&c"):
    """One target into which 65,536 nodes over so many are put: three nodes for `w`, and four times as many as `x` has leaves, less three."""
    doubled = "x=x+x;" * (15 - part.bit_length())
    return block("input [7:0] a, input [7:0] b, input [7:0] c, output reg [7:0] y", ["[7:0] x, w"],
                 [f"w={more}; x=a;\n{doubled}\ny=x+w; x=0; w=0;\n"])


def run(words, file, refusal=None):
    """The least time of five runs, or of one that takes over 5 seconds, and the greatest resident memory, in MB; all end with this refusal."""
    best, most = None, 0
    told = os.path.join(work, "told")
    command = ["/usr/bin/time", "-v", "-o", told, secv, words[0], file, *words[1:]]
    kept = subprocess.PIPE if refusal else subprocess.DEVNULL
    for _ in range(5):
        if best is not None and best > 5:
            break
        start = time.perf_counter()
        child = subprocess.run(command, stdin=subprocess.DEVNULL, stdout=kept, stderr=subprocess.DEVNULL)
        took = time.perf_counter() - start
        if child.returncode != (1 if refusal else 0) or child.stdout != (f"{refusal}\n".encode() if refusal else None):
            sys.exit(f"secv {' '.join(words)} {file} ended with {child.returncode} and {child.stdout!r}")
        with open(told) as text:
            memory = int(re.search(r"Maximum resident set size \(kbytes\): (\d+)", text.read()).group(1))
        best = took if best is None else min(best, took)
        most = max(most, memory / 1024)
    return best, most


def printed(file):
    """How many lines and bytes are printed."""
    child = subprocess.Popen([secv, "list", file], stdout=subprocess.PIPE)
    lines, size = 0, 0
    for line in child.stdout:
        lines += 1
        size += len(line)
    child.wait()
    return lines, size


def put(shape, part, *more):
    """A file that holds the text of a shape."""
    file = os.path.join(work, f"{shape.__name__}{part}.v")
    with open(file, "w") as out:
        out.write(shape(part, *more))
    return file


ADMISSION, LIST = (["sim", "--level", "none"], "refused 707 level"), (["list"],)


def measure(shapes, commands):
    """Prints the tables of these shapes, and then the greatest of the last ratios, of the times and of the memory, over all commands."""
    ratios, slowest, largest = 0, 0, 0
    for shape in shapes:
        print(f"{shape.__name__}\n{'lines':>8} {'bytes':>10}" + f" {'seconds':>9} {'MB':>7} {'ratio':>6}" * len(commands))
        before = [None] * len(commands)
        for part in (8, 4, 2, 1):
            file = put(shape, part)
            lines, size = printed(file)
            row, last = f"{lines:>8} {size:>10}", []
            for at, command in enumerate(commands):
                seconds, memory = run(command[0], file, *command[1:])
                ratio = seconds / before[at] if before[at] else 0
                row += f" {seconds:>9.4f} {memory:>7.1f} {f'{ratio:.2f}' if ratio else '':>6}"
                note("list", f"{shape.__name__} 1/{part} {command[0]}", lines=lines, seconds=f"{seconds:.4f}", MB=f"{memory:.1f}")
                before[at], slowest, largest = seconds, max(slowest, seconds), max(largest, memory)
                last.append(ratio)
            print(row, flush=True)
        ratios = max(ratios, *last)
    print(f"ratio {ratios:.2f}, {slowest:.2f} s, {largest:.0f} MB")


measure((paths, assignments, targets, cases), [LIST])
print("\nReads of what was assigned so far: admission, and then the list")
measure((chain, shifts, conditions, rounds, doublings), [ADMISSION, LIST])
seconds, memory = run(["list"], put(doublings, 1, "~(b&c)"), "refused 712 obligation-size y")
print(f"65,537 nodes: {seconds:.4f} s, {memory:.0f} MB")
PY
