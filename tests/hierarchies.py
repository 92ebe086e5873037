#!/usr/bin/env python3
"""Checks hierarchies at the limits of elaboration through ./secv: signals, instances, points and rows of maps at the limit and one past
it, modules nested and chained, and a hierarchy whose whole size no machine could hold; and blocks of 4,096 signals and of 100,000 statements, with
a latch and without one; and encodings at the limit of variables, of the longest chain of `else`, and of as many labels as fit; all but two chains
with 1 MB of stack. Each wanted line, with the number of obligations where nothing is broken, is worked out here from docs/language.md. The last line is 'N passed, M failed'.
"""
import resource
import subprocess

from harness import SECV, compare, finish, limits, put, run

MOST_SECONDS = 10
MOST_MEGABYTES = 256
# Of a stack: less than most systems give a program, and what most give, which a chain of `else` through 64 levels of cases needs.
LITTLE_STACK, STACK = 1024, 8192


def processor_seconds():
    """What the programs that have ended have used of the processor, however much other work shares it."""
    used = resource.getrusage(resource.RUSAGE_CHILDREN)
    return used.ru_utime + used.ru_stime


def accepted(count):
    return f"accepted {count} obligations"


def check(what, text, wanted, folder, words=(), stack=LITTLE_STACK):
    """Whether the program's line for the text is the wanted one, in little processor time and memory, with so many KB of stack."""
    put(folder, "text.v", text)
    before = processor_seconds()
    answer = run(folder, ["check", "text.v", *words], bounds=limits(MOST_MEGABYTES, stack), seconds=10 * MOST_SECONDS)
    compare(what, (*answer, late(before)), (f"{wanted}\n", 1 if wanted.startswith("refused ") else 0, ""))


def late(before):
    """What is said of a run that began when so much of the processor was used, where it took more than it may."""
    took = processor_seconds() - before
    return "" if took < MOST_SECONDS else f"after {took:.1f} s of the processor"


def signals(folder):
    """4,096 signals and one more, in one module and over instances: the one more is told at its name. Each signal but the inputs has an obligation."""
    for count in (4096, 4097):
        wires = count - 2
        lines = ["module m(input [1:0] a, output [1:0] y);", "  assign y = a;"]
        lines += [f"  wire [1:0] w{i} = {'a' if i == 0 else f'w{i - 1}'};" for i in range(wires)]
        wanted = accepted(1 + wires) if count == 4096 else f"refused 315 too-many {2 + wires}:14"
        check(f"{count} signals of one module", "\n".join([*lines, "endmodule"]) + "\n", wanted, folder)
    for wires in (1022, 1023):
        # four instances, each with its port and its wires, and the input of the top
        lines = ["module s(input a);", *[f"  wire w{i} = a;" for i in range(wires)], "endmodule", "module m(input a);"]
        lines += [f"  s u{i}(.a(a));" for i in range(4)]
        wanted = accepted(4 * (1 + wires)) if wires == 1022 else f"refused 315 too-many {1 + wires}:8"
        check(f"{4 * (1 + wires) + 1} signals in instances", "\n".join([*lines, "endmodule"]) + "\n", wanted, folder)
    # both links are taken at the 8 bits of the ports, of which the second or both are too many: at 4 bits the divisor would be 0
    for wires, place in ((4094, 37), (4095, 22)):
        for divisor, wanted in (("4'd15 + 4'd1", f"refused 315 too-many 1:{place}"), ("8'd255 + 8'd1", f"refused 405 zero-divisor {wires + 3}:28")):
            lines = ["module s(input [7:0] p, input [7:0] q); endmodule", "module m(input a);", *[f"  wire w{i};" for i in range(wires)]]
            lines += [f"  s u(4'd1, 4'd3 / ({divisor}));", "endmodule"]
            check(f"a link to a port behind {wires + 1} signals, by {divisor}", "\n".join(lines) + "\n", wanted, folder)


def instances(folder):
    """1,024 instances, the top among them, and one more: it is told at its module's name. The link to each but the top has an obligation."""
    for count in (1024, 1025):
        lines = ["module s(input a); endmodule", "module m(input a);", *[f"  s u{i}(.a(a));" for i in range(count - 1)], "endmodule"]
        wanted = accepted(count - 1) if count == 1024 else f"refused 315 too-many {count + 1}:3"
        check(f"{count} instances side by side", "\n".join(lines) + "\n", wanted, folder)
        # of one item, so each instance's place is that of the item's module
        names = ", ".join(f"u{i}(a)" for i in range(count - 1))
        text = f"module s(input a); endmodule\nmodule m(input a);\n  s {names};\nendmodule\n"
        check(f"{count} instances of one list", text, accepted(count - 1) if count == 1024 else "refused 315 too-many 3:3", folder)
    for count in (64, 1024, 1025):
        lines = [f"module m{i}(input a); {f'm{i + 1} u(.a(a));' if i + 1 < count else ''} endmodule" for i in range(count)]
        wanted = accepted(count - 1) if count <= 1024 else f"refused 315 too-many {count - 1}:{len(f'module m{count - 2}(input a); ') + 1}"
        check(f"{count} modules, each in the one before", "\n".join(lines) + "\n", wanted, folder)
    # through a thousand levels to a register, whose clock is the top's: an obligation for each input but the top's, each output and the register
    lines = [f"module m{i}(input c, input a, output y); m{i + 1} u(.c(c), .a(a), .y(y)); endmodule" for i in range(999)]
    lines += ["module m999(input c, input a, output y); reg r; always @(posedge c) r <= a; assign y = r; endmodule"]
    check("a clock through 1,000 levels", "\n".join(lines) + "\n", accepted(999 + 1000 + 1), folder)
    # a tree: 31 in the top, and 32 in each of these, are 1 + 31 + 31 * 32 = 1,024
    for more in (0, 1):
        lines = ["module s(input a); endmodule", "module r(input a);", *[f"  s u{i}(.a(a));" for i in range(32)], "endmodule"]
        lines += ["module m(input a);", *[f"  r u{i}(.a(a));" for i in range(31)], *["  s v(.a(a));"] * more, "endmodule"]
        wanted = f"refused 315 too-many {2 + 32 + 1 + 1 + 31 + 1}:3" if more else accepted(1023)
        check(f"a tree of {1024 + more} instances", "\n".join(lines) + "\n", wanted, folder)


def astronomical(folder):
    """Twelve modules, each of which holds the next one a thousand times, are refused at the 1,025th instance at once."""
    levels, width = 12, 1000
    lines, first = [], {}
    for i in range(levels):
        lines.append(f"module m{i};")
        if i + 1 < levels:
            first[i] = len(lines) + 1
            lines += [f"  m{i + 1} u{k}();" for k in range(width)]
        lines.append("endmodule")
    # the first of each level, then the innermost ones: a thousand, the next module around them, and the rest of the count inside it
    outer = levels - 1
    left = 1025 - outer - width - 1
    wanted = f"refused 315 too-many {first[levels - 2] + left - 1}:3"
    check("a thousand of each of twelve modules", "\n".join(lines) + "\n", wanted, folder)
    ring = [f"module m{i}; m{(i + 1) % 64} u(); endmodule" for i in range(64)]
    check("a ring of 64 modules", "\n".join(ring) + "\n", "refused 314 recursive 64:13 m0", folder, ("--top", "m0"))
    check("a ring of 64 modules without a top", "\n".join(ring) + "\n", "refused 310 no-top 1:1", folder)


def labels(folder):
    """32 and 33 points, in a chain; a map with a row for each of 256 keys, one without a row, and one with a row more."""
    for count in (32, 33):
        points = ", ".join(f"P{i}" for i in range(count))
        pairs = " ".join(f"P{i} <= P{i + 1};" for i in range(count - 1))
        text = f"lattice point {points}; {pairs} endlattice\nmodule m(input {{P0}} a, output {{P31}} y); assign y = a & a; endmodule\n"
        check(f"{count} points", text, accepted(1) if count == 32 else "refused 301 lattice-size 1:1", folder)
    for keys, wanted in ((range(256), accepted(1)), (range(255), "refused 308 map-hole 1:10 D"), ([*range(256), 7], "refused 307 map-row 1:10 D"),
                         ([*range(255), 256], "refused 307 map-row 1:10 D")):
        rows = " ".join(f"{key}: {'H' if key % 2 else 'L'};" for key in keys)
        text = f"labelmap D [7:0] {rows} endlabelmap\nmodule m(input [7:0] s, input {{D(s)}} a, output {{H}} y); assign y = a; endmodule\n"
        check(f"a map of {len(keys)} rows, the last of {list(keys)[-1]}", text, wanted, folder)


def nest(folder):
    """A block that assigns 4,094 signals, each once on every path through a nest of eight branches: the first arm of a branch assigns all that
    are left, and the second one 512 of them before the next branch. With one of these assignments left out its signal is a latch. A signal of the
    Nth 512 has a path for each of the first N arms of the branches up to its own, and one for the second arm of that."""
    names = [f"r{i}" for i in range(4094)]

    def text(left_out):
        arms = []
        for depth in range(8):
            left = names[512 * depth:]
            for opening, those in ((f"if (a[{depth}]) begin", left), ("end else begin", left[:512])):
                arms += [f"{opening}\n", *(f"{name}=a;\n" for name in those if left_out != (depth, opening[:2], name))]
        head = f"module m(input [7:0] a, output [7:0] y);\n  reg [7:0] {', '.join(names)};\n  always @* begin\n"
        return head + "".join(arms) + "end " * 8 + "end\n  assign y = r0;\nendmodule\n"

    paths = sum(number // 512 + 2 for number in range(len(names)))
    check("4,096 signals and a nest of branches", text(None), accepted(paths + 1), folder)
    for left_out in ((0, "if", "r0"), (3, "if", "r4093"), (7, "en", "r3584")):
        check(f"these without an assignment at {left_out}", text(left_out), f"refused 605 latch 3:3 {left_out[2]}", folder)


def statements(folder):
    """A block of 100,000 assignments to 4,093 signals, in two arms that assign the last signal once each; without that in the second it is a latch.
    Each signal has a path for each arm, which ends in its last assignment there."""
    names = ", ".join(f"r{i}" for i in range(4093))
    arm = "".join(f"r{i % 4092}=a;\n" for i in range(49999))
    for last, wanted in (("r4092=b;\n", accepted(2 * 4093 + 1)), ("", "refused 605 latch 3:3 r4092")):
        head = f"module m(input a, b, output y);\n  reg {names};\n  always @* if (a) begin\n"
        text = head + arm + "r4092=a;\nend else begin\n" + arm + last + "end\n  assign y = r0;\nendmodule\n"
        check(f"{text.count(';') - 3} statements", text, wanted, folder)


def clauses(what, text, wanted, folder, number=1):
    """Whether the first line of an obligation's clauses is the wanted one and as many lines follow as it tells, in little processor time."""
    path = put(folder, "text.v", text)
    before = processor_seconds()
    with subprocess.Popen([SECV, "cnf", path, str(number)], stdin=subprocess.DEVNULL, stdout=subprocess.PIPE, stderr=subprocess.DEVNULL) as program:
        first = program.stdout.readline().decode()
        rest = sum(piece.count(b"\n") for piece in iter(lambda: program.stdout.read(1 << 20), b""))
    told = int(first.split()[3]) if first.startswith("p cnf ") else 0
    got = first[:len(wanted)], rest, program.returncode, late(before)
    compare(f"{what}: {first!r}", got, (wanted, told, 0 if told else 1, ""))


def encodings(folder):
    """The clauses of an obligation with 4,194,304 variables, and those of one with one more: 1 that is true, 64 bits of `a`, 22,240 gates for each
    of 188 products of 64 bits (64 * 65 / 2 for the rows, 5 * 64 for each of 63 sums), 64 for each of 204 words by `^`, one for each of 62 or 63
    bits by `^`, and one for the label of `h`, which does not flow to that of `y`."""
    assert 1 + 64 + 188 * (64 * 65 // 2 + 63 * 5 * 64) + 204 * 64 + 62 + 1 == 4194304
    words = [f"  wire [63:0] p{i} = " + ("a" if i == 0 else f"p{i - 1} * p{i - 1}" if i <= 188 else f"p{i - 1} ^ a") + ";\n" for i in range(393)]
    for bits, wanted in ((62, "p cnf 4194304 "), (63, "refused 709 encoding 1\n")):
        lines = [f"  wire x{i} = " + ("p392[0]" if i == 0 else f"x{i - 1} ^ a[0]") + ";\n" for i in range(bits + 1)]
        text = ("module m(output reg y, input [63:0] a, input {H} h);\n" + "".join(words + lines) + f"  always @* if (x{bits}) y = h; else y = 0;\nendmodule\n")
        clauses(f"{bits} bits by ^", text, wanted, folder)
    # `check` and `verify` make the clauses of no such obligation either: two of `y`, and one for each wire; the certificate is one by its text alone
    count = 2 + len(words) + len(lines)
    logs = "".join(f"o {number} 1\n0 1 0\n" for number in range(1, count + 1))
    put(folder, "proof", f"secv-proof 1\nobligations {count}\n{logs}end\n")
    for asked in ("check text.v", "verify text.v proof"):
        compare(f"{asked} of too large an encoding", run(folder, asked, seconds=100), ("refused 709 encoding 1\n", 1))


def nested_cases(sizes):
    """Cases with so many arms, each in the last arm of the one before it: a chain of `else` with a path for each arm but for those that hold a case."""
    lines = []
    for depth, arms in enumerate(sizes):
        lines += [f"case (s{depth})", *(f"{key}: y = {key % 2};" for key in range(arms - 1)), "default:"]
    selectors = ", ".join(f"s{depth}" for depth in range(len(sizes)))
    return f"module m(input [7:0] {selectors}, input a, output reg y);\n  always @*\n" + "\n".join([*lines, "y = a;", *["endcase"] * len(sizes)]) + "\nendmodule\n"


def chains(folder):
    """64 cases in one another, with as many paths as a signal may have, and with one more. The last path has 4,095 conditions as false, each of which says
    that 8 bits, continued with 24 false ones, are a number below 256. So it has the variable 1, those of 64 selectors, and for each condition 32
    gates `^` and 31 of the chain: of 4 clauses each, 2 where both bits are numbers, and 3. Then come a unit for each condition and for the violation."""
    most = [65] * 63 + [64]
    assert sum(arms - 1 for arms in most) + 1 == 4096
    variables, lines = 1 + 64 * 8 + 4095 * (32 + 31), 1 + 4095 * (8 * 4 + 24 * 2 + 31 * 3) + 4095 + 1
    clauses("the longest chain of else", nested_cases(most), f"p cnf {variables} {lines}\n", folder, 4096)
    # `check` holds all paths of a signal with their conditions, which grow with the square of the chain
    check("a chain of 512 else in 64 levels", nested_cases([9] * 64), accepted(513), folder)
    one_more = nested_cases([65] * 64)
    clauses("a chain with one more else", one_more, "refused 702 paths y\n", folder)
    check("a chain with one more else", one_more, "refused 702 paths y", folder, stack=STACK)
    check("64 levels of 256 arms", nested_cases([256] * 64), "refused 702 paths y", folder, stack=STACK)
    clauses("64 levels of 256 arms", nested_cases([256] * 64), "refused 702 paths y\n", folder)


def reads_of(counts, label):
    """A signal that is 1 where so many conditions hold, each of which reads so many inputs; their labels hang on a table of 256 rows."""
    rows = " ".join(f"{key}: {'H' if key % 2 else 'L'};" for key in range(256))
    inputs = [f"d{i}" for i in range(sum(counts))]
    conditions = [" ^ ".join(inputs[sum(counts[:i]):sum(counts[:i + 1])]) for i in range(len(counts))]
    return (f"labelmap D [7:0] {rows} endlabelmap\nmodule m(input [7:0] s, input {{D(s)}} {', '.join(inputs)}, output reg {{{label}}} y);\n"
            "  always @* begin\n    y = 0;\n" + "".join(f"    if ({condition})\n" for condition in conditions) + "      y = 1;\n  end\nendmodule\n")


def reads(folder):
    """As many reads with such labels as the variables allow, one gate more, and as many as the signals allow. A label has 256 chains of 7 gates, and a
    chain for each of two points, which has 254 gates in all; each gate has 3 clauses. The variables before are 1, 8 of `s` and one for each input, and
    a condition on k inputs has k - 1 gates `^`. The label `H` of `y` has none, and where it is that of the inputs each read has a gate for the
    violation, and the chain of these one less. A path holds all conditions, and each other one ends in the first that is false."""
    label, fit = 256 * 7 + 254, [256] * 7 + [128] * 2
    assert 1 + 8 + 2048 + (2048 - 9) + 2048 * label == 4194304
    clauses("2,048 reads", reads_of(fit, "H"), f"p cnf 4194304 {1 + 4 * (2048 - 9) + 3 * 2048 * label + 9 + 1}\n", folder)
    check("2,048 reads", reads_of(fit, "H"), accepted(10), folder)
    variables = 1 + 8 + 64 + (64 - 1) + 65 * label + 64 + 63
    clauses("64 reads", reads_of([64], "D(s)"), f"p cnf {variables} {1 + 4 * (64 - 1) + 3 * (65 * label + 64 + 63) + 1 + 1}\n", folder)
    check("64 reads", reads_of([64], "D(s)"), accepted(2), folder)
    for what, counts in (("2,048 reads and a gate more", [256] * 8), ("4,094 reads", [512] * 7 + [510])):
        clauses(what, reads_of(counts, "H"), "refused 709 encoding 1\n", folder)
        check(what, reads_of(counts, "H"), "refused 709 encoding 1", folder)


if __name__ == "__main__":
    finish([signals, instances, astronomical, labels, nest, statements, encodings, chains, reads])
