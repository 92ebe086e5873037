#!/usr/bin/env python3
"""Compares whole outputs and statuses of `./secv check` and `./secv verify`: designs that are accepted, that leak, or that spend a budget; certificates
made by hand, damaged ones, and those that `check --proof` stores; and files that cannot be read or stored. Each row was worked by hand from
docs/formats.md, docs/encoding.md and docs/language.md, or by a second reading of these that shares nothing with the program. Where more than one list of values
falsifies an obligation, the values that are printed are tried here. The last line is 'N passed, M failed'.
"""
import hashlib
import os

from as_a_user import LARGE, MANY, text_of_targets
from harness import compare, finish, held, put, put_zeros, run, status_of, told
from outputs import COUNTERS, GATE, TURN

MOST_PROOF = 268435456
END = "endmodule\n"
DOM = "labelmap D [0:0] 0: L; default: H; endlabelmap\n"
TWO = "labelmap T [0:0] [0:0] 0, 0: L; default: H; endlabelmap\n"
FOUR = "lattice point P, Q, R, T; P <= Q; P <= R; Q <= T; R <= T; endlattice\n"
MISSING, FOLDER = "No such file or directory (os error 2)", "Is a directory (os error 21)"

TURNED_LEAK = TURN.replace("b : a", "a : b")
HELD = (DOM + "module m(input clk, input nxt, input [7:0] {H} k, output reg owner, output reg [7:0] {D(owner)} r);\n"
        "  always @(posedge clk) begin\n    owner <= nxt;\n    if (nxt) r <= k;\n  end\n" + END)
CLEARED = HELD.replace("r <= k;", "r <= k; else r <= 0;")
BOTH = "module m(input {H} h, input a, output reg y);\n  always @* begin\n    y = a;\n    if (h) y = a;\n  end\n" + END
COMPLETE = ("module m(input [1:0] s, output reg [1:0] y);\n  always @*\n    case (s)\n      0: y = 3;\n      1: y = 2;\n      2: y = 1;\n"
            "      3: y = 0;\n    endcase\n" + END)
# Two sums of three bits, one from the left and one from the right: unit resolution alone does not see that they are equal.
SUMS = "module m(input a, input b, input c, input l, input {H} h, output y);\n  assign y = ((a ^ b) ^ c) == ((c ^ b) ^ a) ? l : h;\n" + END
SUMS_AND_LEAK = SUMS.replace("output y);", "output y, z);\n  assign z = h;")
TWO_SUMS = SUMS.replace("output y);", "output y, z);\n  assign z = ((a ^ b) ^ c) == ((c ^ b) ^ a) ? l : h;")
MULTIPLIER = """module mul(input clk, input go, input [7:0] {H} x, input [7:0] {H} z, output reg {H} busy, output reg [15:0] {H} p);
  reg [7:0] {H} m;
  reg [15:0] {H} s;
  always @(posedge clk)
    if (go) begin busy <= 1; m <= x; s <= z; p <= 0; end
    else if (busy) begin
      if (m == 0) busy <= 0;
      else begin if (m[0]) p <= p + s; m <= m >> 1; s <= s << 1; end
    end
endmodule
"""
MULTIPLIER_LEAK = ("refused flow 2 busy from m\nreg busy 1\nreg p 0\nreg m 0\nreg s 0\nin go 0\nin x 0\nin z 0\n"
                   "next go 0\nnext x 0\nnext z 0\n")
# A store of tags in four ways, two for each domain, whose outputs have the label of the domain that asks, or that a probe names.
TAGS = """`timescale 1ns/1ps
labelmap Dom [0:0] 0: L; default: H; endlabelmap
labelmap Par [1:0] 0: L; 1: L; default: H; endlabelmap
module tags(input clk, input rst, input dom, input {Dom(dom)} req, input {Dom(dom)} fill,
  input [7:0] {Dom(dom)} addr, input [1:0] probe,
  output reg {Dom(dom)} hit, output reg [1:0] {Dom(dom)} way, output reg [7:0] {Par(probe)} shown);
  reg [7:0] t0, t1;
  reg [7:0] {H} t2, t3;
  reg v0, v1, n;
  reg {H} v2, v3, k;
  always @* begin
    hit = 0; way = 0;
    if (req) begin
      if (dom == 0) begin
        if (v0 && t0 == addr) begin hit = 1; way = 0; end
        else if (v1 && t1 == addr) begin hit = 1; way = 1; end
      end else begin
        if (v2 && t2 == addr) begin hit = 1; way = 2; end
        else if (v3 && t3 == addr) begin hit = 1; way = 3; end
      end
    end
  end
  always @*
    case (probe)
      0: shown = t0;
      1: shown = t1;
      2: shown = t2;
      default: shown = t3;
    endcase
  always @(posedge clk)
    if (rst) begin v0 <= 0; v1 <= 0; n <= 0; end
    else if (dom == 0) begin
      if (req && fill && !hit) begin
        n <= ~n;
        if (n) begin t1 <= addr; v1 <= 1; end
        else begin t0 <= addr; v0 <= 1; end
      end
    end
  always @(posedge clk)
    if (rst) begin v2 <= 0; v3 <= 0; k <= 0; end
    else if (dom == 1) begin
      if (req && fill && !hit) begin
        k <= ~k;
        if (k) begin t3 <= addr; v3 <= 1; end
        else begin t2 <= addr; v2 <= 1; end
      end
    end
endmodule
"""

LANE = """module lane(input clk, input turn, input req, input bin, input [7:0] {Dom(turn)} d,
  output reg g, output reg [7:0] lo, output reg [7:0] {H} hi, output bout);
  assign bout = bin | req;
  always @(posedge clk) begin
    g <= req & ~bin & ~turn;
    if (turn) hi <= d; else lo <= d;
  end
endmodule
"""


def lanes(count):
    """A design of so many lanes, each linked to the one before it, with 14 obligations a lane."""
    ports = "".join(f"  , input r{i}, input [7:0] {{Dom(turn)}} d{i}, output g{i}, output [7:0] l{i}, output [7:0] {{H}} h{i}\n" for i in range(count))
    wires = "".join(f"  wire b{i};\n" for i in range(count))
    before = ["1'b0", *(f"b{i}" for i in range(count - 1))]
    links = "".join(f"  lane u{i}(.clk(clk), .turn(turn), .req(r{i}), .bin({b}), .d(d{i}), .g(g{i}), .lo(l{i}), .hi(h{i}), .bout(b{i}));\n"
                    for i, b in enumerate(before))
    return DOM.replace("D [", "Dom [") + LANE + "module top(input clk, input turn\n" + ports + "  );\n" + wires + links + END


LANES = lanes(200)

# The store where each domain looks at the tags of the other one, and where the public tags are filled in both domains.
SWAPPED = TAGS.replace("if (dom == 0) begin\n        if", "if (dom == 1) begin\n        if")
FILLED = TAGS.replace("else if (dom == 0) begin", "else begin")

# A text, how many obligations it has, those whose clauses can be met, and the first digits of the SHA-256 of all their clauses, as `cnf` prints them.
# MiniSat 2.2.1 told it of each of these 193, and so did a solver of 60 lines, which splits and propagates and learns nothing; both share nothing with the
# program. Of the store as it is they tell 66 times that the clauses cannot be met. Where the clauses change, ask any solver that reads DIMACS again.
ANSWERS = [
    (TAGS, 66, [], "f2cc8102b8b6bfc2"),
    (SWAPPED, 66, [4, 5, 6, 11, 12, 13], "a3ad45dbafa7b787"),
    (FILLED, 61, [20, 21, 22, 24, 25, 26, 38, 39, 40, 42, 43, 44, 46, 47], "78c584e2af530814"),
]

# The words behind `check f`, the text, and what is written: one list of values alone falsifies what is refused here, and is 0 where nothing hangs on it.
CHECKS = [
    ("", GATE, "accepted 1 obligations\n"),
    ("", "module m; endmodule", "accepted 0 obligations\n"),
    ("", "module m(output y); assign y = 1; endmodule", "accepted 1 obligations\n"),
    ("", "module m(input {H} k, output {L} y); assign y = k; endmodule", "refused flow 1 y from k\nin k 0\n"),
    ("", "module m(input a, input {H} k, output y); assign y = a ? k : k; endmodule", "refused flow 1 y from k\nin a 1\nin k 0\n"),
    # labels by a value, both ways, and by a register that holds a secret while its label falls
    ("", TURN, "accepted 2 obligations\n"),
    ("", TURNED_LEAK, "refused flow 2 y from b\nin turn 0\nin a 0\nin b 0\n"),
    ("", HELD, "refused flow 3 r from r\nreg owner 1\nreg r 0\nin nxt 0\nin k 0\nnext nxt 0\nnext k 0\n"),
    ("", CLEARED, "accepted 3 obligations\n"),
    ("", DOM + "module m(input s, input {D(s)} d, output {D(s)} y, output {H} z);\n  assign y = d;\n  assign z = s ? d : 0;\n" + END,
     "accepted 3 obligations\n"),
    ("", DOM + "module m(input clk, input s, input {D(s)} d, output reg t, output reg {D(t)} q);\n"
     "  always @(posedge clk) begin t <= s; q <= d; end\n" + END, "accepted 2 obligations\n"),
    # the label of a condition counts, whatever its arms are; without the condition nothing is secret
    ("", BOTH, "refused flow 1 y from h\nin h 1\nin a 0\n"),
    ("", BOTH.replace("    if (h) y = a;\n", ""), "accepted 1 obligations\n"),
    ("", COMPLETE, "accepted 4 obligations\n"),
    ("", COMPLETE.replace("      3: y = 0;\n", ""), "refused 605 latch 2:3 y\n"),
    # selectors: one more secret than the label that it selects, one whose own label hangs on a value, a map of one point, and two selectors
    ("", DOM + "module m(input {H} s, input {D(s)} d, output {H} y);\n  assign y = d;\n" + END, "refused flow 2 d from s\nin s 0\nin d 0\n"),
    ("", DOM + "module m(input s, input {D(s)} e, input {D(e)} d, output {H} y);\n  assign y = d;\n" + END,
     "refused flow 2 d from e\nin s 1\nin e 0\nin d 0\n"),
    ("", DOM + "module m(input {D(b)} a, input {D(a)} b, output {H} y);\n  assign y = a & b;\n" + END, "refused flow 2 a from b\nin a 1\nin b 0\n"),
    ("", DOM + "module m(input {D(a)} a, output y);\n  assign y = a;\n" + END, "refused flow 1 y from a\nin a 1\n"),
    ("", DOM + "module m(input a, output {D(y)} y);\n  assign y = a;\n" + END, "accepted 2 obligations\n"),
    ("", "labelmap K [0:0] default: H; endlabelmap\nmodule m(input {H} s, input {K(s)} d, output {H} y);\n  assign y = d;\n" + END, "accepted 1 obligations\n"),
    ("", DOM + TWO + "module m(input p, input {D(p)} q, input {T(p, q)} d, output {H} y);\n  assign y = d;\n" + END, "accepted 2 obligations\n"),
    ("", TWO + "module m(input p, input {H} q, input {T(p, q)} d, output {H} y);\n  assign y = d;\n" + END,
     "refused flow 2 d from q\nin p 0\nin q 0\nin d 0\n"),
    ("", FOUR + "module m(input {Q} a, input {R} b, output {Q} y); assign y = a & b; endmodule\n", "refused flow 1 y from b\nin a 0\nin b 0\n"),
    ("", FOUR + "module m(input {Q} a, input {R} b, output {T} y); assign y = a & b; endmodule\n", "accepted 1 obligations\n"),
    # instances, a multiplier whose time depends on a secret, with and without a public signal that tells it, and a store of tags
    ("", COUNTERS, "accepted 8 obligations\n"),
    ("--top cnt", COUNTERS, "accepted 2 obligations\n"),
    ("", MULTIPLIER, "accepted 17 obligations\n"),
    ("", MULTIPLIER.replace("{H} busy", "{L} busy"), MULTIPLIER_LEAK),
    ("", MULTIPLIER.replace("{H} busy", "busy"), MULTIPLIER_LEAK),
    ("", TAGS, "accepted 66 obligations\n"),
    # 200 lanes in a row
    ("", LANES, "accepted 2800 obligations\n"),
    # conditions that always hold
    ("", "module m(input [2:0] a, b, input {H} h, output y);\n  assign y = a * b == b * a ? 0 : h;\n" + END, "accepted 2 obligations\n"),
    ("", "module m(input [3:0] a, b, c, input {H} h, output y);\n  assign y = (a + b) + c == a + (b + c) ? 0 : h;\n" + END, "accepted 2 obligations\n"),
    # budgets: a spent one ends nothing, so a later obligation that fails is told; of two spent ones the first is; units need none
    ("", SUMS, "accepted 2 obligations\n"),
    ("--budget 1", SUMS, "unknown obligation 2 budget 1\n"),
    ("--budget=+01 --top m", SUMS, "unknown obligation 2 budget 1\n"),
    ("--budget 20000", SUMS, "accepted 2 obligations\n"),
    ("--budget 4000000000", SUMS, "accepted 2 obligations\n"),
    ("--budget 1", TWO_SUMS, "unknown obligation 2 budget 1\n"),
    ("--budget 1", SUMS_AND_LEAK, "refused flow 3 z from h\nin a 0\nin b 0\nin c 0\nin l 0\nin h 0\n"),
    ("--budget 1", TURN, "accepted 2 obligations\n"),
    ("--budget 0", SUMS, "usage words\n"),
    ("--budget 4000000001", SUMS, "usage words\n"),
    ("--budget 5 --budget 6", SUMS, "usage words\n"),
]

# Texts that several lists of values falsify: the first line, the lines of values without these, and what holds of the values.
FALSIFIED = [
    ("module m(input [11:0] a, b, input {H} h, output y);\n  assign y = a * b == 12'd3599 && a > b && b > 1 ? h : 0;\n" + END,
     "refused flow 1 y from h", ["in a", "in b", "in h"], lambda a, b, h: a * b % 4096 == 3599 and a > b > 1 and h == 0),
    ("module m(input [7:0] a, b, input {H} h, output y);\n  assign y = a + b == a - b ? h : 0;\n" + END,
     "refused flow 1 y from h", ["in a", "in b", "in h"], lambda a, b, h: (a + b - (a - b)) % 256 == 0 and h == 0),
    (DOM + "module m(input clk, input s, input {D(s)} d, output reg t, output reg {D(t)} q);\n  always @(posedge clk) begin t <= ~s; q <= d; end\n" + END,
     "refused flow 2 q from d", ["reg t", "reg q", "in s", "in d", "next s", "next d"],
     lambda t, q, s, d, next_s, next_d: s == 1 and q == d == next_s == next_d == 0),
]

# The certificate of TURN by hand, and what is made of it; its two obligations have the clauses `1`, `1 -3`, `-2 -3`, `-1 2 3`, `2`, `3` and
# `1`, `-2`, `-1`.
FIRST, SECOND = "o 1 1\n0 3 5 6 0\n", "o 2 1\n0 1 3 0\n"
HEAD = "secv-proof 1\nobligations 2\n"
BY_HAND = HEAD + FIRST + SECOND + "end\n"


def with_first(log):
    return HEAD + log + SECOND + "end\n"


ACCEPTED = [
    BY_HAND, with_first("o 1 2\n3 0 6 0\n0 3 5 7 0\n"), with_first("o 1 1\n0 6 3 5 0\n"), with_first("o 1 2\n0 3 5 6 0\n0 3 5 6 0\n"),
    with_first("o 1 2\n0 3 5 6 0\n0 7 0\n"), with_first("o 1 3\n-3 0 3 5 0\n3 0 6 0\n0 8 7 0\n"),
]
# Damaged ones, each with its line.
DAMAGED = [
    # the first lines
    (1, ""), (1, "secv-proof 1"), (1, BY_HAND.replace("proof 1", "proof 2")), (1, BY_HAND.replace("\n", "\r\n")), (1, " " + BY_HAND), (2, "secv-proof 1\n"),
    (2, BY_HAND.replace("obligations 2", "obligations  2")), (2, BY_HAND.replace("obligations 2", "obligations 02")),
    (2, BY_HAND.replace("obligations 2", "obligations 4294967296")), (7, BY_HAND.replace("obligations 2", "obligations 4294967295")),
    (2, BY_HAND.replace("obligations 2", "obligations -2")),
    # the number of obligations, behind the text and before the steps
    (2, "secv-proof 1\nobligations 0\nend\n"), (2, "secv-proof 1\nobligations 1\n" + FIRST + "end\n"), (7, BY_HAND.replace("obligations 2", "obligations 3")),
    (2, BY_HAND.replace("obligations 2", "obligations 3").replace("end", "o 3 1\n0 1 3 0\nend")), (2, "secv-proof 1\nobligations 1\no 1 1\n0 1 2 0\nend\n"),
    # the lines of logs
    (3, with_first(FIRST.replace("o 1", "o 2"))), (3, with_first(FIRST.replace("o 1", "o 01"))), (3, with_first("o 1 0\n")),
    (5, with_first(FIRST.replace("1 1", "1 2"))), (3, with_first(FIRST.replace("1 1", "1 4294967296"))), (3, with_first("o 1\n0 3 5 6 0\n")),
    (3, with_first(FIRST.replace("1 1", "1 1 1"))), (3, with_first(FIRST.replace("o", "O"))),
    # steps that are not derived: of a clause that is not there yet, with two clashing variables, with none, of another clause; a last one that is not empty
    (5, with_first("o 1 2\n3 0 6 0\n0 3 5 8 0\n")), (4, with_first("o 1 1\n0 3 5 7 0\n")), (4, with_first("o 1 1\n0 4 3 1 0\n")),
    (4, with_first("o 1 1\n0 5 6 3 0\n")), (4, with_first("o 1 1\n-3 0 3 5 0\n")), (5, with_first("o 1 2\n0 3 5 6 0\n3 0 6 0\n")),
    (6, HEAD + FIRST + SECOND.replace("1 3 0", "2 3 0") + "end\n"), (6, HEAD + FIRST + SECOND.replace("1 3 0", "1 0") + "end\n"),
    # the text of a step
    *((4, with_first(f"o 1 1\n{step}\n")) for step in (
        "0 3 5 6 0 ", "0  3 5 6 0", "0 0", "0 3 5 6", "0 3 5 6 0 0", "3 2 0 3 0", "2 2 0 3 0", "-2 2 0 3 0", "2147483648 0 3 0", "2147483647 0 3 0",
        "0 18446744073709551616 0", "0 18446744073709551615 0", "0 -3 0", "+3 0 3 0", "-0 0 3 0", "03 0 3 0", "0 3 05 6 0", "", "0", "x 0 3 0")),
    # the last lines, and the text before the steps
    (7, HEAD + FIRST + SECOND), (7, BY_HAND[:-1]), (8, BY_HAND + "\n"), (8, BY_HAND + "x"), (8, BY_HAND + "end\n"), (7, BY_HAND.replace("end", "end ")),
    (7, BY_HAND.replace("end", "END")), (7, HEAD + "o 1 1\n0 1 0\n" + SECOND), (8, with_first("o 1 1\n2147483647 0 3 0\n") + "x\n"),
]
# A text, its certificate by hand, and what `verify` writes: each log by the clauses that `cnf` prints.
CERTIFICATES = [
    (CLEARED, "secv-proof 1\nobligations 3\no 1 1\n0 2 1 0\no 2 1\n0 3 6 5 0\no 3 1\n0 3 1 0\nend\n", "accepted 3 obligations\n"),
    (CLEARED, "secv-proof 1\nobligations 3\no 1 1\n0 2 1 0\no 2 1\n0 3 6 5 0\no 3 1\n0 3 6 0\nend\n", "refused proof 8\n"),
    (COUNTERS, "secv-proof 1\nobligations 8\n" + "".join(f"o {number} 1\n0 {last} 1 0\n" for number, last in enumerate((2, 2, 2, 3, 3, 2, 3, 3), 1)) + "end\n",
     "accepted 8 obligations\n"),
    (COUNTERS, "secv-proof 1\nobligations 8\n" + "".join(f"o {number} 1\n0 {last} 1 0\n" for number, last in enumerate((2, 2, 2, 3, 3, 2, 2, 3), 1)) + "end\n",
     "refused proof 16\n"),
    ("module m(input a); endmodule\n", "secv-proof 1\nobligations 0\nend\n", "accepted 0 obligations\n"),
    ("module m(input a); endmodule\n", "secv-proof 1\nobligations 1\no 1 0\nend\n", "refused proof 2\n"),
    # a text that leaks has no certificate, and one that breaks a rule is refused before the certificate is looked at
    (TURNED_LEAK, BY_HAND, "refused proof 4\n"),
    ("module m(output y); endmodule\n", BY_HAND, "refused 604 undriven 1:17 y\n"),
    ("module m(input a, output y); invariant a; assign y = a; endmodule\n", BY_HAND, "refused 199 not-built 1:1\n"),
]
# Words whose file `?` is read, and such as store a certificate in it.
READERS = ["check ?", "check ? --json", "check ? --proof q", "verify ? p", "verify f ?", "list ?", "cnf ? 1", "sim ?", "compare ? A B --level L",
           "compare f ? B --level L", "compare f A ? --level L"]
STORERS = ["check f --proof ?", "check f --json --proof=?"]
# Texts that exceed a limit on their obligations, which is asked before any of these is decided and before PROOF is fetched.
LIMITS = [(MANY, "refused 702 paths y\n"), (LARGE.replace("  end\n", "    y[0] = a;\n  end\n"), "refused 712 obligation-size y\n"),
          (text_of_targets(17), "refused 703 obligations\n")]
# Texts whose certificate `check --proof` stores and `verify` accepts, with how many obligations they have.
STORED = [(TURN, 2), (CLEARED, 3), (COMPLETE, 4), (MULTIPLIER, 17), (COUNTERS, 8), (SUMS, 2), (TAGS, 66), (LANES, 2800), ("module m; endmodule", 0),
          ("module m(output y); assign y = 1; endmodule", 1), (FOUR + "module m(input {Q} a, input {R} b, output {T} y); assign y = a & b; endmodule\n", 1)]


def checks(folder):
    for words, text, wanted in CHECKS:
        put(folder, "f", text)
        compare(f"check f {words}: {text[:80]!r}", run(folder, f"check f {words}"), (wanted, status_of(wanted)))


def answers(folder):
    """The clauses are those that another solver decided, and the first that can be met, where some can, is the obligation that fails."""
    for text, count, met, digits in ANSWERS:
        put(folder, "f", text)
        printed = [run(folder, f"cnf f {number}") for number in range(1, count + 1)]
        compare(f"whether {count} obligations have clauses", {status for _, status in printed}, {0})
        compare(f"the clauses of {count} obligations", hashlib.sha256("".join(clauses for clauses, _ in printed).encode()).hexdigest()[:len(digits)], digits)
        compare(f"obligation {count + 1}", run(folder, f"cnf f {count + 1}"), ("refused 706 no-obligation\n", 1))
        verdict, status = run(folder, "check f")
        wanted = ["refused", "flow", str(met[0])] if met else ["accepted", str(count), "obligations"]
        compare(f"check f, of which {len(met)} fail", (verdict.split()[:3], status), (wanted, status_of(wanted[0])))


def limits(folder):
    for text, wanted in LIMITS:
        put(folder, "f", text)
        for words in ("check f", "check f --proof p", "verify f p"):
            compare(f"{words}: {text[:80]!r}", run(folder, words), (wanted, 1))


def falsified(folder):
    """The values that are printed falsify the obligation: each list of them is tried."""
    for text, first, names, holds in FALSIFIED:
        put(folder, "f", text)
        printed, status = run(folder, "check f")
        lines = printed.split("\n")
        compare(f"{first}: its lines", (status, lines[0], [line.rpartition(" ")[0] for line in lines[1:-1]], lines[-1:]), (1, first, names, [""]))
        values = [line.rpartition(" ")[2] for line in lines[1:-1]]
        plain = [value for value in values if value == f"{int(value, 16):x}"] if len(values) == len(names) else None
        compare(f"{first}: its values {values}", plain == values and holds(*(int(value, 16) for value in values)), True)


def certificates(folder):
    """Certificates by hand: the whole one, others that refute, damaged ones with the line that is told, and those of other texts."""
    put(folder, "f", TURN)
    for proof in ACCEPTED:
        put(folder, "p", proof)
        compare(f"verify f p: {proof!r}", run(folder, "verify f p"), ("accepted 2 obligations\n", 0))
    for line, proof in DAMAGED:
        put(folder, "p", proof)
        compare(f"verify f p: {proof!r}", run(folder, "verify f p"), (f"refused proof {line}\n", 1))
    for text, proof, wanted in CERTIFICATES:
        put(folder, "f", text)
        put(folder, "p", proof)
        compare(f"verify f p: {text[:60]!r} {proof!r}", run(folder, "verify f p"), (wanted, status_of(wanted)))
    put(folder, "f", COUNTERS)
    # of the counter alone: an obligation for each path, and the condition is a unit clause before the last one
    put(folder, "p", "secv-proof 1\nobligations 2\no 1 1\n0 3 1 0\no 2 1\n0 3 1 0\nend\n")
    compare("verify f p --top cnt", run(folder, "verify f p --top cnt"), ("accepted 2 obligations\n", 0))
    compare("verify --top=none f p", run(folder, "verify --top=none f p"), ("refused 310 no-top 1:1\n", 1))
    compare("verify f p of another top", run(folder, "verify f p"), ("refused proof 2\n", 1))


def stored(folder):
    """What `check --proof` stores is accepted, whatever stood under the name; and where the text is not accepted nothing is stored."""
    for text, count in STORED:
        put(folder, "f", text)
        put(folder, "p", "x" * 1000000)
        wanted = (f"accepted {count} obligations\n", 0)
        compare(f"check f --proof p: {text[:60]!r}", run(folder, "check f --proof p"), wanted)
        compare(f"its certificate: {text[:60]!r}", run(folder, "verify f p"), wanted)
        proof = held(folder, "p") or ""
        compare("the front and the end of the certificate", (proof.startswith(f"secv-proof 1\nobligations {count}\n"), proof.endswith("\nend\n")), (True, True))
    # of one text for another one with as many obligations, a log of which begins with a condition
    put(folder, "f", TURN)
    run(folder, "check f --proof p")
    put(folder, "f", TURNED_LEAK)
    compare("of a text without its leak", run(folder, "verify f p")[0].partition(" ")[0], "refused")
    for words, text, wanted in (("", TURNED_LEAK, "refused flow 2 y from b\nin turn 0\nin a 0\nin b 0\n"),
                                ("--budget 1", SUMS, "unknown obligation 2 budget 1\n"), ("", "module m(output y); endmodule", "refused 604 undriven 1:17 y\n"), ("--budget 0", GATE, "usage words\n")):
        put(folder, "f", text)
        compare(f"check f --proof q {words}: {text[:60]!r}", run(folder, f"check f --proof q {words}"), (wanted, status_of(wanted)))
        compare("nothing is stored", held(folder, "q"), None)
        if "604" not in wanted:
            compare("so there is nothing to verify", run(folder, "verify f q"), ("", 4))
        put(folder, "r", "old")
        run(folder, f"check f --proof r {words}")
        compare("what was there stays", held(folder, "r"), "old")


def faults(folder):
    """Where a file cannot be read or stored nothing is written, the file is named, and each file stays as it was."""
    held_files = {"f": TURN, "p": BY_HAND, "A": "inputs turn a b\n0 1 0\n", "B": "inputs turn a b\n0 1 1\n"}
    for name, text in held_files.items():
        put(folder, name, text)
    os.mkdir(os.path.join(folder, "d"))
    for lines, status, files in ((READERS, 4, (("none", MISSING), ("none/f", MISSING), ("d", FOLDER), ("f/f", "Not a directory (os error 20)"))),
                                 (STORERS, 5, (("none/q", MISSING), ("d", FOLDER), (".", FOLDER), ("f/q", "Not a directory (os error 20)"),
                                               ("/dev/full", "No space left on device (os error 28)")))):
        for line in lines:
            for file, cause in files:
                words = line.replace("?", file)
                compare(words, told(folder, words), ("", f"secv: {file}: {cause}\n", status))
    compare("no file was left, changed or made", {name: held(folder, name) for name in os.listdir(folder) if name != "d"}, held_files)
    compare("nor in the folder", os.listdir(os.path.join(folder, "d")), [])


def names(folder):
    """Faults that come before others, and names that are one."""
    put(folder, "f", TURN)
    put(folder, "p", BY_HAND)
    compare("FILE is read before PROOF", told(folder, "verify none none/p"), ("", f"secv: none: {MISSING}\n", 4))
    compare("and what it breaks is told first", run(folder, "verify f none --top n"), ("refused 310 no-top 1:1\n", 1))
    compare("a certificate is not stored for a text that is refused", run(folder, "check f --proof none/p --top n"), ("refused 310 no-top 1:1\n", 1))
    with open("/dev/full", "wb") as full:
        compare("a full device behind the certificate", run(folder, "check f --proof q", stdout=full)[1], 5)
        compare("a full device, verify", run(folder, "verify f p", stdout=full)[1], 5)
    compare("the certificate was stored before", run(folder, "verify f q"), ("accepted 2 obligations\n", 0))
    compare("a text as its own certificate", run(folder, "verify f f"), ("refused proof 1\n", 1))
    compare("a certificate as its own text", run(folder, "verify p p"), ("refused 201 unexpected 1:1\n", 1))
    compare("NAME is FILE", run(folder, "check f --proof f"), ("accepted 2 obligations\n", 0))
    compare("then FILE holds the certificate", run(folder, "check f"), ("refused 201 unexpected 1:1\n", 1))
    put(folder, "g", TURN)
    compare("which is the text's", run(folder, "verify g f"), ("accepted 2 obligations\n", 0))
    compare("a name with a sign before it", (run(folder, "check g --proof=-x"), run(folder, "verify -- g -x")), (("accepted 2 obligations\n", 0),) * 2)


def sizes(folder):
    """A certificate of as many bytes as may be, and one of a byte more."""
    put(folder, "f", TURN)
    for more, wanted in ((0, "refused proof 1\n"), (1, "refused 710 proof-size\n")):
        put_zeros(folder, "p", MOST_PROOF + more)
        compare(f"a certificate of {MOST_PROOF + more} bytes", run(folder, "verify f p"), (wanted, 1))
    os.remove(os.path.join(folder, "p"))


if __name__ == "__main__":
    finish([checks, answers, limits, falsified, certificates, stored, faults, names, sizes])
