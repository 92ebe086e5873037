#!/usr/bin/env python3
"""Checks each rule of elaboration and of admission through ./secv by other texts than those of docs/language.md, those of admission at
bits, parts, joins and instances, and where the lines for a person point to (`tests/messages.py` has their words). In a text `@@` marks the place that is
told, and `~~` one that a person is shown in its stead; what has no mark is told at 1:1. Texts that break none of them nearly do, and are accepted. The last line is 'N passed, M failed'.
"""
from harness import compare, explained, finish, put, told

NAMES = {199: "not-built", 301: "lattice-size", 302: "lattice-name", 303: "circle", 304: "no-join", 305: "no-meet", 306: "map-name", 307: "map-row",
         308: "map-hole", 310: "no-top", 311: "unknown-module", 312: "twice", 313: "port", 314: "recursive", 316: "parameter",
         401: "unknown-name", 402: "too-wide", 403: "bad-select", 404: "not-constant", 405: "zero-divisor", 406: "division",
         407: "unsized-part", 408: "bad-count", 409: "bad-range", 410: "label", 601: "wrong-assign", 602: "clock", 603: "drivers",
         604: "undriven", 605: "latch", 606: "phase", 607: "loop"}
SUM = "module s #(parameter P = 1, Q = 2) (input [3:0] i, output [3:0] o);\n  localparam R = 3;\n  assign o = i + P + Q + R;\nendmodule\n"
USE = "module t(input [3:0] a, output [3:0] y);\n"
V = "module m(input a, input [3:0] v, output [7:0] y);\n  "
END = "endmodule\n"
# each rule: the text, the words behind FILE, and the names that are told
TEXTS = [
    (301, "lattice point " + ", ".join(f"P{i}" for i in range(33)) + "; endlattice module m; endmodule", "", ""),
    (302, "lattice @@Z <= A; point A; endlattice module m; endmodule", "", "Z"),
    (302, "lattice point A, B; point @@A; A <= B; endlattice module m; endmodule", "", "A"),
    (303, "lattice point A, B, C, D; A <= B; B <= C; C <= D; D <= B; endlattice module m; endmodule", "", "B C"),
    (304, "lattice point A, B, C; A <= B; A <= C; endlattice module m; endmodule", "", "B C"),
    (305, "lattice point T, U, V; U <= T; V <= T; endlattice module m; endmodule", "", "U V"),
    (306, "labelmap D [0:0] 0: L; default: H; endlabelmap\nlabelmap @@D [1:0] default: L; endlabelmap module m; endmodule", "", "D"),
    (307, "labelmap @@D [1:0] 0: L; 0: H; default: H; endlabelmap module m; endmodule", "", "D"),
    (307, "labelmap @@D [7:0] 256: L; default: H; endlabelmap module m; endmodule", "", "D"),
    (308, "labelmap @@T [0:0] [0:0] 0, 0: L; 0, 1: L; 1, 0: L; endlabelmap module m; endmodule", "", "T"),
    (310, "module a; b u(); endmodule module b; a u(); endmodule", "", ""),
    (311, "module m; wire u; @@q u(); endmodule", "", "q"),
    (312, "module m; wire x = nope; endmodule module n; m u(); endmodule module @@n; endmodule", "", "n"),
    (312, "module m; wire u = 0; m @@u(); endmodule", "--top m", "u"),
    (313, SUM + USE + "  s u(a, y, @@a);\n" + END, "", ""),
    (313, SUM + USE + "  s u(.i(a), .o(@@{y}));\n" + END, "", "o"),
    (314, "module a; b u(); endmodule module b; c v(); endmodule module c; wire w; @@b x(); endmodule", "--top a", "b"),
    (316, SUM + USE + "  s #(.@@R(3)) u(a, y);\n" + END, "", "R"),
    (316, SUM + USE + "  s #(1, 2, @@3) u(a, y);\n" + END, "", ""),
    (401, "module m; wire [@@P:0] a; parameter P = 1; endmodule", "", "P"),
    (401, "module a; b u(); endmodule module b; wire w = @@z; endmodule", "--top b", "z"),
    (402, V + "assign y = @@{65{a}};\n" + END, "", ""),
    (403, V + "assign y = v[@@4];\n" + END, "", ""),
    (403, V + "assign y = @@v[1:2];\n" + END, "", ""),
    (404, "module m(input [@@b:0] a, input b); endmodule", "", ""),
    (404, "module m(input a); parameter P = @@a; endmodule", "", ""),
    (405, "module m; wire [1 / @@0:nope] x; endmodule", "", ""),
    (405, V + "assign y = 8'd1 / (8'd255 @@+ 8'd1);\n" + END, "", ""),
    (406, V + "assign y = 1 / 0 + a @@/ 2;\n" + END, "", ""),
    (407, V + "assign y = {1'b1, @@3};\n" + END, "", ""),
    (408, V + "parameter P = 5;\n  assign y = {(P @@- 5){a}};\n" + END, "", ""),
    (409, "module m(input [@@0:1] a); endmodule", "", ""),
    (409, "module m(input [1 @@- 2:0] a); endmodule", "", ""),
    (410, "module m(input a, input {@@Q} b); wire {R} c = nope; endmodule", "", "Q"),
    (410, "labelmap D [0:0] 0: L; default: H; endlabelmap\nmodule m(input {@@E(nope)} a); endmodule", "", "E"),
]
FLIP = "module s(input k, input e, output reg r); always @(posedge k) r <= e; endmodule\n"
Q = "module m(input clk, input a, b, output reg q, output w);\n  "
S = "module m(input [1:0] s, input signed [1:0] t, output reg [3:0] y);\n  @@always @* "
NEST = "case (s) 0, 1: y = 0; 2: case (t) 0: y = 1; 1: y = 2; -2: y = 3; -1: y = 4; endcase default: y = 5; endcase\n"
T = "module m(input a, b, output reg y, output reg t, output reg [3:0] v);\n  always @* begin "
ADMISSION = [
    (601, Q + "assign w = a; always @* begin @@q <= a; end\n" + END, "", "q"),
    (601, Q + "assign {w, @@q} = {a, b};\n" + END, "", "q"),
    (601, Q + "assign {w, @@w} = {a, b};\n" + END, "", "w"),
    (601, Q + "reg [3:0] r; assign w = a; always @* begin q = 0; {r[2:0], @@r[3:2]} = {a, b}; end\n" + END, "", "r"),
    (601, Q + "reg [3:0] r; assign w = a; always @(posedge clk) begin q <= 0; {r[0], @@r[0]} <= {a, b}; end\n" + END, "", "r"),
    (601, "module s(output o); assign o = 0; endmodule module m(output reg q); s u(@@q); endmodule", "", "q"),
    (602, "module m(input @@c, input [1:0] d, output reg q); always @(posedge c) q <= d[c]; endmodule", "", "c"),
    (602, "labelmap D [0:0] 0: L; default: H; endlabelmap\nmodule m(input @@c, input {D(c)} d, output reg q); always @(posedge c) q <= d; endmodule\n",
     "", "c"),
    (602, FLIP.replace("input k", "input @@k") + "module m(input [1:0] c, input d, output q); s u(~~c[0], d, q); endmodule", "", "u.k"),
    (602, FLIP.replace("input e", "input @@e") + "module m(input c, d, output q); s u(c, c, q); endmodule", "", "u.e"),
    (602, "module m(input c, @@d, output reg q, r); always @(posedge c) q <= 0; always @(posedge d) r <= 0; endmodule", "", "d"),
    (603, Q + "reg [1:0] r; assign w = 0; always @* q = 0; always @* r[0] = a; @@always @* r[1] = b;\n" + END, "", "r"),
    (602, "module m(input @@c, input d, output reg q, output [1:0] w); always @(posedge c) q <= d; assign w = {c, d}; endmodule", "", "c"),
    (603, Q + "reg [3:0] r; assign w = 0; always @* q = 0; always @* r[1:0] = a; @@always @* r[3:2] = b;\n" + END, "", "r"),
    (603, Q + "wire [1:0] c; assign {c, w} = 0; assign @@w = a;\n" + END, "", "w"),
    (603, "module s(output o, p); assign o = 1; assign p = 0; endmodule module m(output y); s u(y, @@y); endmodule", "", "y"),
    (603, "module s(input i); assign @@i = 1; endmodule module m(input a); s u(a); endmodule", "", "u.i"),
    (604, "module s(input @@i); endmodule module m(input a); s u(a), v(.i()); endmodule", "", "v.i"),
    (604, "module m(output reg @@y); always @* ; endmodule", "", "y"),
    (605, Q + "assign w = 0; always @* q = 0; reg [3:0] r; @@always @* begin r[1:0] = a; r[3] = b; end\n" + END, "", "r"),
    (605, Q + "assign w = 0; always @* q = 0; reg [3:0] r; @@always @* if (a) r = 0; else begin r[3:1] = b; r[1] = a; end\n" + END, "", "r"),
    (605, Q + "assign w = 0; reg [1:0] r; @@always @* {q, r[0]} = a;\n" + END, "", "r"),
    (605, S + "case (s) 3: y = 0; 2: y = 1; 1: y = 2; 4: y = 3; endcase\n" + END, "", "y"),
    (605, S + "case (s + 1'b1) 0: y = 0; 1: y = 1; 2: y = 2; 3: y = 3; endcase\n" + END, "", "y"),
    (605, S + NEST.replace(" -1: y = 4;", "") + END, "", "y"),
    (605, S + NEST.replace(" default: y = 5;", "") + END, "", "y"),
    (606, T + "t = 0; v[1:0] = a; y = @@v[2]; v[3:2] = b; end\n" + END, "", "v"),
    (606, T + "t = 0; v[1:0] = a; y = @@v; v[3:2] = b; end\n" + END, "", "v"),
    (606, T + "y = 0; {t, v} = {@@v, t}; end\n" + END, "", "v"),
    (606, T + "v = 0; y = 0; if (a) t = b; case (@@t) 0: y = a; default: t = b; endcase t = a; end\n" + END, "", "t"),
    (606, "module s(output reg o); always @* o = @@o; endmodule module m(output y, z); s u(y), v(z); endmodule", "", "u.o"),
    (607, "module m(output @@p, q, r); assign p = r; assign q = p; assign r = q; endmodule", "", "p r q"),
    (607, "module m(output [1:0] @@y); assign y = {y[0], 1'b1}; endmodule", "", "y"),
    (607, "module m(input a, output p, @@q); assign {p, q} = {q, a}; endmodule", "", "q"),
    (607, "module t; wire @@w; s u(w, w); endmodule module s(input i, output o); assign o = i; endmodule", "", "w u.o u.i"),
    (607, T.replace(" v)", " @@v)") + "y = 0; t = 0; v = 0; {v[0], v[1]} = {v[2], v[3]}; end\n" + END, "", "v"),
    (607, T.replace(" v)", " @@v)") + "y = 0; t = 0; v = 0; v[1:0] = v[3:2]; end\n" + END, "", "v"),
    (607, T.replace(" t,", " @@t,") + "v = a; y = b; t = v[0]; v = y; y = t; end\n" + END, "", "t"),
    (199, "module m(input a, output y); invariant a; assign y = a; endmodule", "", ""),
    (199, "module m(input a, output y); m u(a, y); invariant a; endmodule", "", ""),
]
# Texts that break no rule, each with the number of its obligations: bits and parts of a signal by one process, a clock beside a link that is no whole
# name, registers that nothing holds, cases of which each value of the selector has its arm, and reads of what a block has assigned so far.
WHOLE = [
    (3, T + "t = 0; v = 0; y = v[a]; v[3] = b; end\n" + END),
    (5, T + "v = 0; y = 0; t = a; case (t) 0: y = a; default: t = b; endcase end\n" + END),
    (3, T + "t = a; v = 0; y = b; {t, y} = {y, t}; v[0] = t; t = 0; end\n" + END),
    (3, Q + "reg [3:0] r; assign w = a; always @* begin q = 0; {r[1:0], r[3:2]} = {a, b}; end\n" + END),
    (3, Q + "reg [3:0] r; assign w = a; always @(posedge clk) begin q <= 0; r[0] <= a; r[0] <= b; end\n" + END),
    (6, FLIP + "module m(input c, d, output q, z); s u(c, d, q), v((c), q, z); endmodule"),
    (4, Q + "assign w = 0; always @* q = 0; reg [3:0] r; always @* if (a) r = 0; else begin r[3:1] = b; r[0] = a; end\n" + END),
    (4, S.replace("@@", "") + "case (t) 0: y = 0; 1: y = 1; -2: y = 2; -1: y = 3; endcase\n" + END),
    (4, S.replace("@@", "") + "case ({s[1], s[0]}) 0: y = 0; 1: y = 1; 2: y = 2; 3: y = 3; endcase\n" + END),
    (6, S.replace("@@", "") + NEST + END),
    (6, S.replace("m(", "m(input clk, ").replace("@@always @*", "always @(posedge clk)") + NEST.replace("=", "<=").replace(" -1: y <= 4;", "") + END),
]


def check(folder, number, marked, words, names):
    """Whether the program's line for the text and that for a person are the wanted ones."""
    before, mark, behind = marked.replace("~~", "").partition("@@")
    text = before + behind
    place = place_behind(before) if mark else "1:1"
    wanted = " ".join(["refused", str(number), NAMES[number], place, *names.split()])
    put(folder, "text.v", text)
    answer = told(folder, f"check text.v {words}")
    # what is not built is printed at 1:1, and shown to a person where it stands
    shown = f"1:{text.replace('invariant ', '@' * 10, 1).rfind('@') + 2}" if number == 199 else place
    front, mark, _ = marked.replace("@@", "").partition("~~")
    said = explained("text.v", place_behind(front) if mark else shown, text, answer[1])
    compare(f"{text!r} {words}", answer, (f"{wanted}\n", said, 1))


def place_behind(front):
    """The line and column of what follows this front of a text."""
    return f"{front.count(chr(10)) + 1}:{len(front) - front.rfind(chr(10))}"


def broken(folder):
    for row in TEXTS + ADMISSION:
        check(folder, *row)


def whole(folder):
    for count, text in WHOLE:
        put(folder, "text.v", text)
        compare(repr(text), told(folder, "check text.v"), (f"accepted {count} obligations\n", "", 0))


if __name__ == "__main__":
    finish([broken, whole])
