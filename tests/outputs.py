#!/usr/bin/env python3
"""Compares whole outputs and statuses of `./secv` on worked designs: findings, lists of obligations and traces, and small texts that break a rule or
nearly do. Each row was worked by hand from docs/language.md, docs/semantics.md and docs/formats.md; the rounds of drawn orders were counted by a
separate program. What `check` and `verify` decide of larger designs is compared in verdicts.py. The last line is 'N passed, M failed'.
"""
from harness import compare, finish, put, run

LIMIT = 1048576
END = "endmodule\n"

GATE = "module m(input a, input b, output y); assign y = a & b; endmodule\n"
REGISTER = "module m(input clk, input {H} k, output reg {L} r); always @(posedge clk) r <= k; endmodule\n"
WIRE = "module m(input a, input {H} b, output {H} y);\n  wire {H} w; assign w = a ^ b; assign y = ~w | a; endmodule\n"
COUNT = "module cnt #(parameter W = 2) (input clk, input en, output reg [W-1:0] q);\n  always @(posedge clk) if (en) q <= q + 1;\nendmodule\n"
COUNTERS = COUNT + "module top(input clk, input en, output [3:0] a, output [7:0] b);\n  cnt #(.W(4)) u (.clk(clk), .en(en), .q(a));\n  cnt #(8) v (clk, en, b);\nendmodule\n"
ROUND = "module m(input a, output y); m u(a, y); endmodule\n"
DIAMOND = "lattice point A, B, C, D; A <= C; A <= D; B <= C; B <= D; endlattice\nmodule m(input a, input b, output y); assign y = a & b; endmodule"
TURN = "labelmap Dom [0:0] 0: L; default: H; endlabelmap\nmodule top(input turn, input a, input {H} b, output {Dom(turn)} y);\n  assign y = turn ? b : a;\nendmodule\n"
TURN_LIST = "1 y now +3:19 =3:10 reads turn b\n2 y now -3:19 =3:10 reads turn a\n"
COUNTER = ("module m(input clk, input en, input [3:0] {H} d,\n  output reg [3:0] q, output reg [3:0] {H} s);\n  wire [3:0] n = q + 1;\n"
           "  always @(posedge clk) if (en) q <= n;\n  always @(posedge clk) s <= s ^ d;\nendmodule\n")
STIMULUS = "start q 9\ninputs en d\n1 3\n0 F\n1 0\n"
WRONG = STIMULUS.replace("0 F", "0 10")
TRACE = "0 en=1 d=3 q=9 s=0 n=a\n1 en=0 d=f q=a s=3 n=b\n2 en=1 d=0 q=a s=c n=b\n"
PUBLIC_TRACE = "0 en=1 q=9 n=a\n1 en=0 q=a n=b\n2 en=1 q=a n=b\n"
MIDDLE = ("module m(input a, input {H} h, output reg y, output reg {H} z);\n  reg t;\n  always @* begin\n    t = h; z = t;\n"
          "    t = a; y = t;\n  end\nendmodule\n")
INVERTERS = "module m(input a, output y);\n  wire p, q;\n  assign y = ~q;\n  assign q = ~p;\n  assign p = ~a;\nendmodule\n"
TURNED = "inputs a\n0\n1\n"
INVERTED = "0 a=0 y=1 p=1 q=0\n1 a=1 y=0 p=0 q=1\n"

# Words, of which `f` is the file and `g` is none, the text, and what is written.
CHECKS = [
    ("check f", GATE, "accepted 1 obligations\n"),
    ("check f", "module m(input {H} k, output {L} y); assign y = k; endmodule\n", "refused flow 1 y from k\nin k 0\n"),
    ("check f", REGISTER, "refused flow 1 r from k\nreg r 0\nin k 0\nnext k 0\n"),
    ("check f", REGISTER.replace("{L}", "{H}"), "accepted 1 obligations\n"),
    ("check f", WIRE, "accepted 2 obligations\n"),
    ("check f", MIDDLE, "accepted 3 obligations\n"),
    ("check f", MIDDLE.replace("{H} z", "z"), "refused flow 2 z from h\nin a 0\nin h 0\n"),
    ("check f", "module m(input a, output y); assign y = a + a; endmodule\n", "accepted 1 obligations\n"),
    ("check f", "\n module ' m;", "refused 101 bad-byte 2:9\n"),
    ("check f", "x\n `", "refused 101 bad-byte 2:2\n"),
    ("check f", "endmodule (\n ;; 65'h0", "refused 102 bad-number 2:5\n"),
    ("check f", "8'hfg", "refused 102 bad-number 1:1\n"),
    ("check f", "/* a */ /* b", "refused 103 open-comment 1:9\n"),
    ("check f", "m; /*/ n", "refused 103 open-comment 1:4\n"),
    ("check f", "initial 1.5", "refused 104 unsupported 1:9 real\n"),
    ("check f", "a\r\n \x0c\\", "refused 104 unsupported 2:3 escaped-name\n"),
    ("check f", "m !== 1", "refused 104 unsupported 1:3 case-equality\n"),
    # the blanks, comments, numbers and signs before it are what they look like, or it would not be told here
    ("check f", "module m;\n\twire [3:0] w_1$ = // x\r y\n -4'sb1_01 >>>/* * */(~^ a) wire", "refused 201 unexpected 3:29\n"),
    ("check f", "module m(input {Q} a, output y); assign y = a; endmodule", "refused 410 label 1:17 Q\n"),
    ("check f", ROUND, "refused 310 no-top 1:1\n"),
    ("check f --top m", ROUND, "refused 314 recursive 1:30 m\n"),
    ("check f", COUNTERS.replace(".W(4)", ".V(4)"), "refused 316 parameter 5:10 V\n"),
    ("check f --top cnt", COUNTERS, "accepted 2 obligations\n"),
    ("check f --top none", COUNTERS, "refused 310 no-top 1:1\n"),
    ("check f", DIAMOND, "refused 304 no-join 1:1 A B\n"),
    ("check f", "lattice point A, B, C, D; D <= B; B <= C; C <= D; A <= B; endlattice module m; endmodule", "refused 303 circle 1:1 B C\n"),
    ("check f", "lattice point A, B, C, D; B <= D; C <= D; B <= A; C <= A; D <= A; endlattice module m; endmodule", "refused 305 no-meet 1:1 B C\n"),
    ("check --top m f", GATE, "accepted 1 obligations\n"),
    ("check f --top=n", GATE, "refused 310 no-top 1:1\n"),
    ("check f", " " * LIMIT, f"refused 201 unexpected 1:{LIMIT + 1}\n"),
    ("check f", " " * (LIMIT + 1), "refused 701 file-size\n"),
    ("check f", "0" * LIMIT, "refused 201 unexpected 1:1\n"),
    ("check f", "//" + "*" * (LIMIT - 2), f"refused 201 unexpected 1:{LIMIT + 1}\n"),
    ("list --top top f", TURN, TURN_LIST),
    ("list f", ROUND, "refused 310 no-top 1:1\n"),
    ("cnf f 1", TURN, "p cnf 3 6\n1 0\n1 -3 0\n-2 -3 0\n-1 2 3 0\n2 0\n3 0\n"),
    ("cnf f --top top 2", TURN, "p cnf 2 3\n1 0\n-2 0\n-1 0\n"),
    ("cnf f +03", TURN, "refused 706 no-obligation\n"),
    ("cnf f 1", ROUND, "refused 310 no-top 1:1\n"),
    ("cnf 1 f", TURN, "usage words\n"),
    ("check f f", GATE, "usage words\n"),
    ("check f --order 1", GATE, "usage words\n"),
    ("sim f --order 1x", GATE, "usage words\n"),
    ("sim f --help", GATE, "usage words\n"),
    ("check g", GATE, ""),
    ("sim g", COUNTER, ""),
]


def product(first, others):
    """A module whose one expression has this many more operands, joined by `&`."""
    return f"module m(input a, output y); assign y = {first}{'&a' * others}; endmodule"


def assigned(value):
    return f"module m(input a, output y); assign y = {value}; endmodule"


SECRET = "input clk, input a, input {H} k, output"
# Small texts, some of which break a rule.
SMALL = [
    ("\r\n\tmodule\x0cn_$1(input L,input{L}H);wire a;assign a=L&H;endmodule\n", "accepted 1 obligations\n"),
    (f"module m({SECRET} y); assign y = a & ~clk; endmodule", "accepted 1 obligations\n"),
    (f"module m({SECRET} reg y); always @(posedge clk) y <= a & ~k; endmodule", "refused flow 1 y from k\nreg y 0\nin a 0\nin k 0\nnext a 0\nnext k 0\n"),
    (f"module m({SECRET} y); wire w; assign y = w; assign w = a; endmodule", "accepted 2 obligations\n"),
    (f"module m({SECRET} y); wire w; assign y = w; assign w = k; endmodule", "refused flow 2 w from k\nin clk 0\nin a 0\nin k 0\n"),
    (f"module m({SECRET} y); assign y = a; assign y = a; endmodule", "refused 603 drivers 1:75 y\n"),
    (f"module m({SECRET} y); assign y = a & ~b; endmodule", "refused 401 unknown-name 1:70 b\n"),
    (product("~a", 31), "accepted 1 obligations\n"),
    (product("a", 32), "accepted 1 obligations\n"),
    *((assigned(value), "accepted 1 obligations\n") for value in ("a^~a", "a && a", "a & & a", "(a)", "1", "a // c\n")),
    (assigned("a ? 0 : 1"), "accepted 2 obligations\n"),
    (assigned("a~&a"), "refused 201 unexpected 1:42\n"), (assigned(""), "refused 201 unexpected 1:41\n"),
    (assigned("`a"), "refused 104 unsupported 1:41 directive\n"),
    ("module m(input a, output y); assign y = a endmodule", "refused 201 unexpected 1:43\n"),
    ("module m(input a, output y); assign y <= a; endmodule", "refused 201 unexpected 1:39\n"),
    ("module m(input a, output y); assign y = a; endmodule m", "refused 201 unexpected 1:54\n"),
    ("module m(input wand, output y); assign y = wand; endmodule", "refused 202 unsupported 1:16 wand\n"),
    ("module m(input a, b); endmodule", "accepted 0 obligations\n"),
    ("module m(input a); wire w, v; assign w = a; assign v = a; endmodule", "accepted 2 obligations\n"),
    ("module m(input c, input d, output reg r); always @(posedge c) r = d; endmodule", "refused 601 wrong-assign 1:63 r\n"),
    ("module m(input a, output y); invariant a; assign y = a; endmodule", "refused 199 not-built 1:1\n"),
]

# Designs, and their obligations: a register whose selector is secret, held on one path; a choice in a link to an instance; a selector whose
# label is not below each label that it selects; a case with an arm for each value of its selector, the last of which has no condition.
LISTS = [
    ("labelmap D [0:0] 0: L; default: H; endlabelmap\nmodule m(input clk, input {H} i, output reg {H} s, output reg {D(s)} q);\n"
     "  always @(posedge clk) begin s <= i; if (i) q <= 1; end\n" + END,
     "1 s next =3:31 reads i\n2 q next +3:39 =3:46 reads i\n3 q next -3:39 hold reads i q\n4 q now selector reads s\n"),
    ("module s(input x, output z); assign z = x; endmodule\nmodule m(input c, input a, input b, output y);\n  s u(.x(c ? a : b), .z(y));\n" + END,
     "1 y now =3:25 reads u.z\n2 u.x now +3:12 =3:12 reads c a\n3 u.x now -3:12 =3:12 reads c b\n4 u.z now =1:37 reads u.x\n"),
    ("labelmap Dom [0:0] 0: L; default: H; endlabelmap\nmodule m(input {H} s, input {Dom(s)} d, output {H} y);\n  assign y = d;\n" + END,
     "1 y now =3:10 reads d\n2 d now selector reads s\n"),
    ("module m(input [1:0] s, output reg [1:0] y);\n  always @*\n    case (s)\n      0: y = 3;\n      1: y = 2;\n      2: y = 1;\n      3: y = 0;\n"
     "    endcase\n" + END,
     "1 y now +4:7 =4:10 reads s\n2 y now -4:7 +5:7 =5:10 reads s\n3 y now -4:7 -5:7 +6:7 =6:10 reads s\n4 y now -4:7 -5:7 -6:7 =7:10 reads s\n"),
    ("module m(input a, output y); always @* y = a; endmodule", "refused 601 wrong-assign 1:40 y\n"),
    ("module m(output y); endmodule", "refused 604 undriven 1:17 y\n"),
    ("module m(input [1:0] s, output reg [1:0] y);\n  always @*\n    case (s)\n      0: y = 3;\n      1: y = 2;\n      2: y = 1;\n    endcase\n" + END,
     "refused 605 latch 2:3 y\n"),
    (MIDDLE, "1 y now =5:12 reads t\n2 z now =4:12 reads h\n3 t now =5:5 reads a\n"),
    (MIDDLE.replace("t = h; z = t;", "z = t; t = h;"), "refused 606 phase 4:9 t\n"),
    ("module m(output p, q, r); assign p = r; assign q = p; assign r = q; endmodule", "refused 607 loop 1:17 p r q\n"),
]

# Designs, words behind the file, stimuli and traces. A sum is as long as its context says: nine bits, or the eight of the operands of a shift.
# An `else` belongs to the nearest `if`, and subtraction goes from left to right. Two instances each have a parameter and a register of their
# own, and their signals stand in the order of the walk. A literal loses the bits past its size, and a comparison is signed where both of its
# sides are; a number is as long as its context says, and has its sign from it.
TRACES = [
    ("module m(input [7:0] a, input [7:0] b, output [8:0] s, output [7:0] h);\n  assign s = a + b;\n  assign h = (a + b) >> 1;\n" + END, "",
     "inputs a b\nff 1\n", "0 a=ff b=1 s=100 h=0\n"),
    ("module m(input a, input b, output reg [1:0] y, output [3:0] d);\n  always @* if (a) if (b) y = 1; else y = 2; else y = 3;\n  assign d = 7 - 2 - 1;\n" + END, "",
     "inputs a b\n1 1\n1 0\n0 1\n", "0 a=1 b=1 y=1 d=4\n1 a=1 b=0 y=2 d=4\n2 a=0 b=1 y=3 d=4\n"),
    (COUNTERS, "", "start u.q f\nstart v.q f\ninputs en\n1\n0\n",
     "0 en=1 a=f b=f u.en=1 u.q=f v.en=1 v.q=f\n1 en=0 a=0 b=10 u.en=0 u.q=0 v.en=0 v.q=10\n"),
    (COUNTERS, "", "start u.q 10\nstart v.q f\ninputs en\n1\n0\n", "refused stimulus input 1 value\n"),
    ("module m(output [7:0] a, output [63:0] b, output c, output d);\n  assign a = 8'h1FF;\n  assign b = 64'hFFFFFFFFFFFFFFFF;\n  assign c = -1 < 0;\n"
     "  assign d = 8'd255 < -1;\n" + END, "", "inputs\n\n", "0 a=ff b=ffffffffffffffff c=1 d=1\n"),
    ("module m(output [15:0] p, output [7:0] q, output r, output [31:0] s, input [3:0] v, output t);\n  assign p = 8'sh80 >>> 1;\n"
     "  assign q = {8'sh80} >>> 1;\n  assign r = ~4'h0 == 8'hff;\n  assign s = -7 / 2;\n  assign t = v[3'd3];\n" + END, "", "inputs v\n8\n",
     "0 p=ffc0 q=40 r=1 s=fffffffd v=8 t=1\n"),
    ("module stage #(parameter N = 0) (input clk, input [7:0] a,\n    output reg [7:0] y); always @(posedge clk) y <= a + N; endmodule\n"
     "module top(input clk, input [7:0] a, output [7:0] y); wire [7:0] w;\n    stage #(.N(1)) first(.clk(clk), .a(a), .y(w)); stage last(clk, w, y); endmodule\n", "",
     "inputs a\n5\n0\n0\n", "0 a=5 y=0 w=0 first.a=5 first.y=0 last.a=0 last.y=0\n1 a=0 y=0 w=6 first.a=0 first.y=6 last.a=6 last.y=0\n"
     "2 a=0 y=6 w=1 first.a=0 first.y=1 last.a=1 last.y=6\n"),
    ("module m(input clk, output reg a, output reg b);\n  always @(posedge clk) a <= b;\n  always @(posedge clk) b <= a;\n" + END, "",
     "start a 1\ninputs\n\n\n", "0 a=1 b=0\n1 a=0 b=1\n"),
    (MIDDLE, "", "inputs a h\n0 0\n0 1\n1 0\n1 1\n",
     "0 a=0 h=0 y=0 z=0 t=0\n1 a=0 h=1 y=0 z=1 t=0\n2 a=1 h=0 y=1 z=0 t=1\n3 a=1 h=1 y=1 z=1 t=1\n"),
    (INVERTERS, "", "inputs a\n", ""),
    (COUNTER, "", STIMULUS, TRACE),
    (COUNTER, "--level L", STIMULUS, PUBLIC_TRACE),
    (COUNTER, "--order +007", "inputs en d\n", "rounds 0\n"),
    (COUNTER, "", WRONG, "0 en=1 d=3 q=9 s=0 n=a\nrefused stimulus input 4 value\n"),
    (COUNTER, "", "", "refused stimulus input 1 header\n"),
    (COUNTER, "", "start r 1", "refused stimulus input 1 name\n"),
    (COUNTER, "--level Q", WRONG, "refused 707 level\n"),
    (COUNTER, "--top n", WRONG, "refused 310 no-top 1:1\n"),
    ("module m(output y); assign y = 65'h0; endmodule", "", "inputs\n", "refused 102 bad-number 1:32\n"),
    ("module m(output y); assign y = 4'bx; endmodule", "", "inputs\n", "refused 104 unsupported 1:32 four-state\n"),
    ("module m(output p, output q); assign p = ~q; assign q = ~p; endmodule", "", "inputs\n", "refused 607 loop 1:17 p q\n"),
    *((INVERTERS, f"--order {number}", TURNED, f"{INVERTED}rounds {rounds}\n") for number, rounds in ((1, 4), (2, 3), (3, 5), (4, 5), (5, 3), (10, 3))),
    *((INVERTERS.replace("wire p, q;", "wire q;").replace("~p;\n  assign p = ~a;", "~a;"), f"--order {number}", "inputs a\n0\n", f"0 a=0 y=0 q=1\nrounds {rounds}\n")
      for number, rounds in ((0, 2), (1, 1))),
]


def rows():
    """Words, a text, a stimulus and what is written, for all of these."""
    yield from ((words, text, "", wanted) for words, text, wanted in CHECKS)
    yield from (("check f", text, "", wanted) for text, wanted in SMALL)
    yield from (("list f", text, "", wanted) for text, wanted in LISTS)
    yield from ((f"sim f {words}", text, stimulus, wanted) for text, words, stimulus, wanted in TRACES)


def status_of(words, wanted):
    """The status that goes with what is written, of which the last line tells most."""
    if " g" in words:
        return 4
    last = wanted.rstrip("\n").rpartition("\n")[2]
    return 2 if last.startswith("usage ") else 1 if "refused " in wanted else 0


def answers(folder):
    for words, text, stimulus, wanted in rows():
        put(folder, "f", text)
        answer = run(folder, words, given=stimulus.encode())
        compare(f"secv {words}: {text[:80]!r} {stimulus!r}", answer, (wanted, status_of(words, wanted)))


if __name__ == "__main__":
    finish([answers])
