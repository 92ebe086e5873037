#!/usr/bin/env python3
"""Checks what is said to a person of each refusal: the words, and the line of the text with a caret. In a text `@@` marks the place that is
told. Checks too how far a terminal shows `sim` to be. The last line is 'N passed, M failed'.
"""
import concurrent.futures
import os
import pty
import select
import subprocess
import time

from harness import MOST_SECONDS, SECV, call, compare, excerpt, finish, put

LANES = "labelmap Dom [1:0] 0: L; 1: L; default: H; endlabelmap\n"
OWNER = """labelmap D [0:0] 0: L; default: H; endlabelmap
module m(input clk, input nxt, input [7:0] {H} k, output reg owner, output reg [7:0] {D(owner)} r);
  always @(posedge clk) begin
    owner <= nxt;
    if (nxt) r <= k;
  end
endmodule
"""
POINTS = "lattice point " + ", ".join(f"P{i}" for i in range(32)) + "; " + " ".join(f"P{i} <= P{i + 1};" for i in range(31)) + " endlattice\n"
SUM = "module s #(parameter P = 1, Q = 2) (input [3:0] i, output [3:0] o);\n  localparam R = 3;\n  assign o = i;\nendmodule\n"
USE = SUM + "module t(input [3:0] a, output [3:0] y);\n  "
CLOCKED = "module m(input clk, input d, output reg q, output w);\n  "
END = "\nendmodule\n"
# A block, its register, and some of its bits that are set or kept, each by itself.
HOLDS = "module m(input clk, input [{0}:0] a, output reg [{0}:0] {1});\n  always @(posedge clk) begin\n    "


def HELD(bits, name="q"):
    return "".join(f"if (a[{bit}]) {name}[{bit}] <= 0;\n    " for bit in range(bits)) + "end"


MANY = "labelmap D [0:0] 0: L; default: H; endlabelmap\nmodule m(input clk, input {H} s, input {D(s)} d, input [11:0] a);\n" + "".join(
    f"  reg [11:0] q{number};\n  always @(posedge clk) begin\n    " + HELD(12, f"q{number}") + "\n" for number in range(17)) + "endmodule\n"
FORM = "this form of Verilog is left out"
TICKED = "module s(input d, c, output reg q);\n  always @(posedge c) q <= d;\nendmodule\nmodule m(input d, a, output x);\n  "
EXPRESSED = "the clock `u.c` is linked to an expression here: link it to the clock itself, and let an enable decide in the block"
GATES = "gates are left out: write an `assign`, as `assign y = a & b;`"
ALONE = "a clock stands behind `posedge` and in links alone; let an enable decide in the block"
ASCII = "characters beyond ASCII stand in comments alone: write a name with letters a to z, and blanks, dashes and quotes of ASCII"
OUTSIDE = "an assignment stands behind `assign`, or in an `always`, where several stand in `begin` and `end`"
ARM = "an arm has one statement: several stand in `begin` and `end`"
FOREIGN = "this is SystemVerilog, and Verilog of 2005 is read"
HEADER = "ports are declared in the header, as in `module m(input a, output y);`"
ELSE = "no `if` waits for it: is an `end` missing before it, or `begin` and `end` around several statements behind the `if`?"
RESERVED = "it is a reserved word: take another name"
BLOCK = "no signal is declared in a block: declare it before the `always`, or is an `end` missing?"
RANGE = "a range stands before the name, as in `wire [7:0] a`; only a `reg` declared alone can be a memory, and those are not built yet"
SELECTED = "a part's bounds, and the index of what is assigned, are constants, and this is a signal: shift by it, or ask it by `case`"
ITEM = "an item of a `case` is a constant, and this is a signal: ask it by `if`"
TYPE = "this type is left out: declare a `reg` of so many bits, and a parameter without a type"
LOOPS = "loops are left out: write the copies out, or print them by a script"
GIVEN = "module m(input a, b, input [7:0] v, output y);\n  "
# A text, the words behind FILE, and what is said of the place.
TEXTS = [
    (GIVEN + "assign y = a @@\x01;" + END, "", "the byte 0x01 stands in no Verilog text but in comments"),
    (GIVEN + "assign y = 4@@'s5;" + END, "", "behind `'` the base of a number is missing: one of b, o, d and h, with no blank before it, as in 8'hff"),
    (GIVEN + "assign y = a @@$ b;" + END, "", "`$` alone is no token: it stands inside a name, as in `a$b`"),
    (GIVEN + "assign y = a @@` b;" + END, "", "no token begins with ``` here"),
    ("@@\ufeffmodule m;" + END, "", "the file begins with a byte order mark: store it as ASCII or UTF-8 without one"),
    ("module m; /* 中文, ｆｕ, 한 🔒 e\u0301 */ @@1;" + END, "", "`1` cannot stand behind `;`"),
    ("module m(input @@é);" + END, "", ASCII),
    (GIVEN + "assign y = a @@– b;" + END, "", ASCII),
    (GIVEN + "assign y =@@\u00a0a;" + END, "", ASCII),
    (GIVEN + "assign y = @@4'b12;" + END, "", "`2` is no binary digit"),
    (GIVEN + "assign y = @@70'h1;" + END, "", "this number has a size of 70 bits, and 1 to 64 there may be"),
    (GIVEN + "assign y = @@0'h1;" + END, "", "this number has a size of 0 bits, and 1 to 64 there may be"),
    (GIVEN + "assign y = @@8'h;" + END, "", "this number has no hexadecimal digit behind its base"),
    (GIVEN + "assign y = @@8'so_7;" + END, "", "a digit stands right behind a base, and `_` only later"),
    (GIVEN + "assign y = @@4_294_967_296;" + END, "", "4_294_967_296 has no size, so it has to be below 2^32: write its size before it, as in "
     "64'd4_294_967_296"),
    (GIVEN + "assign y = @@99999999999999999999;" + END, "", "the number 99999999999999999999 has over 64 bits, which are the most"),
    (GIVEN + "assign y = @@2$;" + END, "", "`$` stands right behind the number 2: a name begins with no digit, and a number has a base, as in 8'hff, or is "
     "decimal"),
    (GIVEN + "assign y = @@'h1_0000_0000;" + END, "", "the hexadecimal number 1_0000_0000 has no size, so it has to be below 2^32: write its size before the `'`, "
     "as in 64'hff"),
    (GIVEN + f"assign y = @@64'h1{'0' * 32};" + END, "", f"the hexadecimal number 1{'0' * 32} is 2^128 or more, and 64 bits there may be"),
    (GIVEN + "assign y = @@8ab;" + END, "", "`ab` stands right behind the number 8: a name begins with no digit, and a number has a base, as in 8'hff, or is "
     "decimal"),
    (GIVEN + "assign y = a; @@/* never closed" + END, "", "this comment has no end: `*/` is missing"),
    ("@@`define W 8\nmodule m;" + END, "", "this directive is left out: take macros and includes away by a preprocessor, as `iverilog -E` is"),
    (GIVEN + "assign y = a @@=== b;" + END, "", "`===` and `!==` are left out, since no signal is x or z: write `==` or `!=`"),
    (GIVEN + "assign y = @@1'bx;" + END, "", "`x`, `z` and `?` are left out, since every bit is 0 or 1: write a value, and ask the bits by `if` in "
     "place of `casez`"),
    (GIVEN + "\t/* ü */\tassign y = v[a @@+: 2];" + END, "", "`+:` and `-:` are left out: where it is read, shift the signal into a wire, "
     "and take the lowest part of that; where it is assigned, pick the part by `case`"),
    ("@@wire a;\n", "", "a text does not begin with `wire`: it begins with `module`, or with `lattice` or `labelmap`"),
    (GIVEN + "assign y = a\n  @@assign y = b;" + END, "", "`assign` cannot stand behind `a` of 2:14: is a `;` missing there?"),
    (GIVEN + "always @* begin end\n  @@1;" + END, "", "`1` cannot stand behind `end`"),
    (GIVEN + "assign y = (a@@;" + END, "", "`;` cannot stand behind `a`: the `(` of 2:14 is open"),
    (GIVEN + "wire c = v[1@@;" + END, "", "`;` cannot stand behind `1`: the `[` of 2:13 is open"),
    ("module m(input a\n  @@output y);" + END, "", "`output` cannot stand behind `a` of 1:16: is a `,` or `)` missing there?"),
    ("module m(input a @@output y);" + END, "", "`output` cannot stand behind `a` of 1:16: is a `,` or `)` missing there?"),
    (USE + "s u(.i(a)\n    @@.o(y));" + END, "", "`.` cannot stand behind `)` of 6:11: is a `,` or `)` missing there?"),
    (GIVEN + "assign y = {a\n  @@b};" + END, "", "`b` cannot stand behind `a` of 2:15: is a `,` or `}` missing there?"),
    ("module m(input a, b, output reg y);\n  always @* if (a\n  @@y = b;" + END, "", "`y` cannot stand behind `a` of 2:17: is a `)` missing there?"),
    ("module m(input [7\n  @@0] a);" + END, "", "`0` cannot stand behind `7` of 1:17: is a `]` missing there?"),
    ("module m(input {H\n  @@a);" + END, "", "`a` cannot stand behind `H` of 1:17: is a `}` missing there?"),
    ("module m(input a, output reg y);\n  always @* begin\n    y = a\n    @@y = 1; end" + END, "", "`y` cannot stand behind `a` of 3:9: is a `;` missing there?"),
    ("module m(input a, output reg y);\n  always @* begin\n    y = a;\n@@endmodule\n", "", "`endmodule` cannot stand behind `;`: the `begin` of 2:13 is open"),
    ("module m(input a, output reg y);\n  always @* case (a)\n    0: y = a;\n  @@always @* y = 1;" + END, "", "`always` cannot stand behind `;`: the `case` of "
     "2:13 is open"),
    ("module m(input a, output reg y);\n  always @* begin y = a;@@", "", "the text ends too early, behind `;`: the `begin` of 2:13 is open"),
    ("module m(input {H} @@[7:0] a);" + END, "", "`[` cannot stand behind `}`: a label stands behind the range, right before the name"),
    ("module m(input a @@{H});" + END, "", "`{` cannot stand behind `a`: a label stands behind the range, right before the name"),
    ("module m(input a, @@{H} b);" + END, "", "`{` cannot stand behind `,`: a further name has the label of the one before; declare it on its own, as in "
     "`input {H} b`"),
    ("module m(@@{H} input a);" + END, "", "`{` cannot stand behind `(`: a label stands behind the range, right before the name"),
    (GIVEN + "wire c @@{H};" + END, "", "`{` cannot stand behind `c`: a label stands behind the range, right before the name"),
    (CLOCKED + "q @@<= d;" + END, "", f"`<=` cannot stand behind `q`: {OUTSIDE}"),
    (CLOCKED + "assign w = d;\n  q @@= d;" + END, "", f"`=` cannot stand behind `q`: {OUTSIDE}"),
    (CLOCKED + "always @(posedge clk)\n    q <= d;\n    q @@<= 0;" + END, "", f"`<=` cannot stand behind `q`: {OUTSIDE}"),
    (CLOCKED + "always @* case (d) 0: q = 1; q @@= d; endcase" + END, "", f"`=` cannot stand behind `q`: {ARM}"),
    (CLOCKED + "always @(posedge clk) case (d) 0: q <= 1; q <= d@@; endcase" + END, "", f"`;` cannot stand behind `d`: {ARM}"),
    (CLOCKED + "always @* case (d) 0: begin q = 1; @@1: q = d; endcase" + END, "", "`1` cannot stand behind `;`: the `begin` of 2:25 is open"),
    (CLOCKED + "always @* begin q = d @@end" + END, "", "`end` cannot stand behind `d` of 2:23: is a `;` missing there?"),
    (CLOCKED + "always @(posedge clk) if (d) q <= 0 @@else q <= d;" + END, "", "`else` cannot stand behind `0` of 2:37: is a `;` missing there?"),
    (CLOCKED + "assign w = d @@assign q = d;" + END, "", "`assign` cannot stand behind `d` of 2:14: is a `;` missing there?"),
    (CLOCKED + "always @(posedge clk) if (d) begin q <= 0; @@else q <= d; end" + END, "", f"`else` cannot stand behind `;`: {ELSE}"),
    (CLOCKED + "always @(posedge clk) if (d) q <= 0; else q <= 1; @@else q <= d;" + END, "", f"`else` cannot stand behind `;`: {ELSE}"),
    (CLOCKED + "always @(posedge clk) begin if (d) q <= 0; end @@else q <= d;" + END, "", f"`else` cannot stand behind `end`: {ELSE}"),
    (CLOCKED + "always @* begin q = d; end @@end" + END, "", "`end` cannot stand behind `end`: no `begin` is open here"),
    (CLOCKED + "always @* begin\n    @@reg t; t = d; q = t; end" + END, "", f"`reg` cannot stand behind `begin`: {BLOCK}"),
    (CLOCKED + "always @* begin : b\n    @@reg t; t = d; q = t; end" + END, "", f"`reg` cannot stand behind `b`: {BLOCK}"),
    (CLOCKED + "always @* begin if (d) begin q = 0; end\n  @@wire t = d;" + END, "", f"`wire` cannot stand behind `end`: {BLOCK}"),
    (CLOCKED + "always @* begin if (d) begin q = 0; end\n  @@assign w = d;" + END, "", "`assign` cannot stand behind `end`: the `begin` of 2:13 is open"),
    (CLOCKED + "assign w = d;\n  @@input e;" + END, "", f"`input` cannot stand behind `;`: {HEADER}"),
    (CLOCKED + "assign w = d;\n  @@if (d) assign q = d;" + END, "", "`if` cannot stand behind `;`: a statement stands in an `always`"),
    (CLOCKED + "always @* if @@d q = 0;" + END, "", "`d` cannot stand behind `if`: what it asks stands in `(` and `)`"),
    (CLOCKED + "assign w @@<= d;" + END, "", "`<=` cannot stand behind `w`: an `assign` takes `=`"),
    (CLOCKED + "assign w = d;@@;" + END, "", "`;` cannot stand behind `;`: take the `;` away"),
    ("module m;\nendmodule@@;\n", "", "`;` cannot stand behind `endmodule`: take the `;` away"),
    ("module m(input a, output y,@@);" + END, "", "`)` cannot stand behind `,`: take the `,` away"),
    (USE + "s u(.i(a), .o(y),@@);" + END, "", "`)` cannot stand behind `,`: take the `,` away"),
    (USE + "s u(.i@@, .o);" + END, "", "`,` cannot stand behind `i`: link each port, as in `.a(b)`"),
    ("module m;\n@@module n;\nendmodule\n", "", "`module` cannot stand behind `;`: is an `endmodule` missing before it?"),
    ("lattice point A; endlattice\nlabelmap D [0:0] default: A; endlabelmap@@", "", "the text ends too early, behind `endlabelmap`: a module is missing"),
    (GIVEN + "wire @@point;" + END, "", f"`point` cannot stand behind `wire`: {RESERVED}"),
    (GIVEN + "assign y = @@labelmap;" + END, "", f"`labelmap` cannot stand behind `=`: {RESERVED}"),
    (GIVEN + "assign y = {v[1@@};" + END, "", "`}` cannot stand behind `1`: the `[` of 2:16 is open"),
    ("module m(input a @@= 1);" + END, "", "`=` cannot stand behind `a`"),
    (GIVEN + "logic c@@;" + END, "", "`;` cannot stand behind `c`: `logic` is left out: declare a `wire` or a `reg`"),
    ("module m(input a, output logic @@[7:0] y);" + END, "", "`logic` is left out: declare a `wire` or a `reg`"),
    ("module m(input logic @@{H} a);" + END, "", "`{` cannot stand behind `logic`: `logic` is left out: declare a `wire` or a `reg`"),
    (GIVEN + "wire c@@[7:0];" + END, "", RANGE),
    (GIVEN + "int i@@;" + END, "", f"`;` cannot stand behind `i`: {FOREIGN}"),
    ("module m #(parameter int @@W = 8) (input a);" + END, "", f"`W` cannot stand behind `int`: {FOREIGN}"),
    (GIVEN + "always_comb y @@= a;" + END, "", "`=` cannot stand behind `y`: write `always @*`"),
    (GIVEN + "logic @@[3:0] c;" + END, "", "`[` cannot stand behind `logic`: `logic` is left out: declare a `wire` or a `reg`"),
    ("module m(input logic @@a);" + END, "", "`a` cannot stand behind `logic`: `logic` is left out: declare a `wire` or a `reg`"),
    (CLOCKED + "always_ff @@@(posedge clk) q <= d;" + END, "", "`@` cannot stand behind `always_ff`: write `always @(posedge clk)`"),
    (CLOCKED + "always_comb @@begin q = d; end" + END, "", "`begin` cannot stand behind `always_comb`: write `always @*`"),
    (GIVEN + "assign y = {a} @@[0];" + END, "", "`[` cannot stand behind `}`"),
    (GIVEN + "assign y = a @@{b};" + END, "", "`{` cannot stand behind `a`"),
    (LANES + "module m(input {Dom(@@1)} z);" + END, "", "`1` cannot stand behind `(`: a signal picks the row of a label map; for a constant write the point"),
    (LANES + "module m(input [3:0] a, input {Dom(a@@[1:0])} z);" + END, "", "`[` cannot stand behind `a`: a whole signal picks the row: name the bit or the "
     "expression by a `wire`"),
    ("module m; endmodule\n@@labelmap D [0:0] default: L; endlabelmap\n", "", "`labelmap` cannot stand behind `endmodule`: a label map stands before all "
     "modules"),
    ("labelmap D [0:0] default: L; endlabelmap\n@@lattice point A; endlattice\nmodule m;" + END, "", "`lattice` cannot stand behind `endlabelmap`: a text has "
     "one lattice, before its label maps and modules"),
    (GIVEN + "assign y = a;@@", "", "the text ends too early, behind `;`: is an `end`, `endcase` or `endmodule` missing?"),
    (GIVEN + "@@initial y = 1;" + END, "", "`initial` is left out: reset the register at the clock; for `sim` a line `start` of the stimulus sets it"),
    (GIVEN + "@@generate endgenerate" + END, "", LOOPS),
    (GIVEN + "always @* @@casez (a) 1: y = 1; endcase" + END, "", "`casez` and `casex` are left out: ask the bits by `if`, the first arm first"),
    (GIVEN + "always @(posedge a@@, posedge b) y = a;" + END, "", "a block waits for one edge: write `always @(posedge clk)`, and ask the reset inside"),
    (GIVEN + "always @(@@a or b) y = a;" + END, "", "sensitivity lists are left out: write `always @*`"),
    (GIVEN + "@@or g(y, a, b);" + END, "", GATES),
    (GIVEN + "always @(posedge a @@or posedge b) y = a;" + END, "", "a block waits for one edge: write `always @(posedge clk)`, and ask the reset inside"),
    ("module m(input [3:0] @@table);" + END, "", "`table` is a reserved word of Verilog: take another name"),
    (GIVEN + "wire @@wait;" + END, "", "`wait` is a reserved word of Verilog: take another name"),
    (GIVEN + "reg @@time;" + END, "", "`time` is a reserved word of Verilog: take another name"),
    (GIVEN + "assign y = a & @@large;" + END, "", "`large` is a reserved word of Verilog: take another name"),
    (GIVEN + "@@time t;" + END, "", TYPE),
    ("module m(input @@integer n);" + END, "", TYPE),
    ("module m #(parameter @@integer W = 8) (input a);" + END, "", TYPE),
    (GIVEN + "@@event e;" + END, "", "named events are left out: one clock edge drives all registers"),
    (GIVEN + "always @* begin : b\n  @@integer i; end" + END, "", TYPE),
    ("module m(input a, @@inout b);" + END, "", "`inout` is left out: give the pad an input, an output and an enable, and keep it outside"),
    (GIVEN + "always @(@@negedge a) y = a;" + END, "", "the falling edge is left out: registers take their values at `posedge`"),
    (GIVEN + "@@specify endspecify" + END, "", "timing is left out: take the `specify` block away"),
    ("module m(@@a, b);" + END, "", "names alone in a header are left out: declare each port there, as in `input [7:0] a`"),
    ("module m(input a, output y); assign y = " + "-" * 64 + "@@-a; endmodule\n", "", "this opens a level too many: at most 64 brackets, operators and "
     "statements may be open at once; name a part by a `wire`, or ask a chain of `else if` by a `case`"),
    ("module m(input a, output y); assign y = a" + " + a" * 511 + " + @@a; endmodule\n", "", "this is the 1,025th token of an expression, which has at "
     "most 1,024: name a part of it by a `wire`"),
    ("module m(input [8:0] a, output reg y); always @* case (a)\n" + "".join(f"{arm}: y = 1;\n" for arm in range(256)) + "@@256: y = 1;\nendcase" + END, "",
     "this is the 257th arm of a `case`, which has at most 256: ask the highest bit of its selector by an `if` before"),
    ("@@lattice point " + ", ".join(f"P{i}" for i in range(33)) + "; endlattice\nmodule m;" + END, "", "this lattice has 33 points, and 1 to 32 there may be"),
    ("lattice point A;\n  point @@A; endlattice\nmodule m;" + END, "", "the point `A` is declared twice, first at 1:15"),
    ("lattice point A; @@Z <= A; endlattice\nmodule m;" + END, "", "there is no point `Z`: declare it by `point Z;`"),
    ("@@lattice point A, B; A <= B; B <= A; endlattice\nmodule m;" + END, "", "`A` and `B` flow to each other, so they are one point: take one of them "
     "away, or a pair between them"),
    ("@@lattice point A, B; endlattice\nmodule m;" + END, "", "`A` and `B` have no least point above both, for a signal that is made of both: declare one, "
     "with a pair from each to it, and from it to each other point above both"),
    ("@@lattice point P, A, B, C, D, T; P <= A; P <= B; A <= C; A <= D; B <= C; B <= D; C <= T; D <= T; endlattice\nmodule m;" + END, "", "`A` and `B` have no "
     "least point above both, for a signal that is made of both: declare one, with a pair from each to it, and from it to each other point above both"),
    ("@@lattice point T, U, V; U <= T; V <= T; endlattice\nmodule m;" + END, "", "`U` and `V` have no greatest point below both: declare one, with a pair "
     "from it to each, and to it from each other point below both"),
    (LANES + "labelmap @@Dom [1:0] default: L; endlabelmap\nmodule m;" + END, "", "the label map `Dom` is declared twice, first at 1:10"),
    ("labelmap @@D [8:0] 0: L; default: H; endlabelmap\nmodule m;" + END, "", "label map `D`: its range is to be `[m:0]` with m from 0 to 7"),
    ("labelmap @@D [1'sb1:0] default: H; endlabelmap\nmodule m;" + END, "", "label map `D`: its range is to be `[m:0]` with m from 0 to 7"),
    ("labelmap @@D [4:0] [0:4] default: H; endlabelmap\nmodule m;" + END, "", "label map `D`: each of its ranges is to be `[m:0]` with m from 0 to 7"),
    ("labelmap @@D [4:0] [3:0] default: H; endlabelmap\nmodule m;" + END, "", "label map `D`: its two ranges have over 8 bits together, which are the most"),
    ("labelmap @@D [0:0] 1'sb1: L; default: H; endlabelmap\nmodule m;" + END, "", "label map `D`: the key at 1:18 is below 0, since its `s` makes it signed: "
     "take the `s` away"),
    ("labelmap @@D [1:0] 0: L; 0: H; default: H; endlabelmap\nmodule m;" + END, "", "label map `D`: the key at 1:24 has a row already, at 1:18"),
    ("labelmap @@D [1:0] 4: L; default: H; endlabelmap\nmodule m;" + END, "", "label map `D`: the key at 1:18 is outside of the range"),
    ("labelmap @@D [1:0] [0:0] 0: L; default: H; endlabelmap\nmodule m;" + END, "", "label map `D`: the key at 1:24 is to have a number for each range"),
    ("labelmap @@D [1:0] 0: Q; default: H; endlabelmap\nmodule m;" + END, "", "label map `D`: there is no point `Q`; the points are `L`, `H`"),
    ("labelmap @@D [1:0] 0: L; 1: H; 3: H; endlabelmap\nmodule m;" + END, "", "label map `D` gives the key 2 no point: add a row, or `default: POINT;`"),
    ("labelmap @@T [0:0] [0:0] 0, 0: L; 0, 1: L; 1, 0: L; endlabelmap\nmodule m;" + END, "", "label map `T` gives the key 1, 1 no point: add a row, or "
     "`default: POINT;`"),
    ("@@module m; endmodule\nmodule n; endmodule\n", "", "2 modules stand in no other one: `m`, `n`; name the top by `--top MODULE`"),
    ("@@module m; endmodule\n", "--top n", "there is no module `n`, which `--top` names; the modules are `m`"),
    ("@@module a; b u(); endmodule\nmodule b; a u(); endmodule\n", "", "there is no top, since each module stands in some module: name it by `--top MODULE`"),
    ("module m;\n  @@q u();" + END, "", "there is no module `q`: a design is one file, so join its files by `cat`"),
    ("module m; endmodule\nmodule @@m; endmodule\n", "", "there are two modules `m`, the first at 1:8"),
    ("module m(input a);\n  wire @@a;" + END, "", "`a` is declared twice in one module, first at 1:16"),
    (USE + "s u(.i(a), .@@q(y));" + END, "", "the module `s` has no port `q`; its ports are `i`, `o`"),
    (USE + "s u(.i(a), .o(y), .@@i(a));" + END, "", "the port `i` is linked twice, first at 6:8"),
    (USE + "s u(.i(a), .@@i(a)), v(a, y);" + END, "", "the port `i` is linked twice, first at 6:8"),
    ("module s(input i);\nendmodule\nmodule t(input a);\n  s u(a, @@a);" + END, "", "this is a link too many: the module `s` has 1 port"),
    (USE + "s u(a, y, @@a);" + END, "", "this is a link too many: the module `s` has 2 ports"),
    (USE + "s u(.i(a), .o(@@{y}));" + END, "", "the output `o` is linked to what is no whole signal: link a `wire`, and take its bits from that"),
    (USE + "s u(.i(a), .o(@@zz));" + END, "", "there is no signal `zz` in module `t`, to link the output `o` to: declare it as wide as that, as in `wire zz;`"),
    (USE + "localparam Z = 1; s u(a, @@Z);" + END, "", "the output `o` is linked to the parameter `Z`: link a `wire`"),
    (USE + "s u(a, @@u);" + END, "", "the output `o` is linked to `u`, which is no signal: link a `wire`"),
    ("module a; b u(); endmodule\nmodule b; @@a v(); endmodule\n", "--top a", "with this instance the module `a` would stand inside itself, without end"),
    ("module m; wire " + ", ".join(f"a{i}" for i in range(4096)) + ", @@b;" + END, "", "this is the 4,097th signal of the whole design, its instances "
     "included, and 4,096 there may be"),
    (USE + "s #(.@@Z(1)) u(a, y);" + END, "", "the module `s` has no parameter `Z`; those that may be set are `P`, `Q`"),
    ("module s(input i); parameter P = 1; localparam R = 2; endmodule\nmodule t(input a);\n  s #(1, @@2) u(a);" + END, "", "this is a value too many: the "
     "parameters of the module `s` that may be set are `P`"),
    (USE + "s #(.P(1), .@@P(2)) u(a, y);" + END, "", "the parameter `P` is set twice, first at 6:8"),
    (USE + "s #(.@@R(1)) u(a, y);" + END, "", "the parameter `R` is local, at 2:14, so no instance sets it: declare it in the header, `module s "
     "#(parameter R = ..)`"),
    (USE + "s #(1, 2, @@3) u(a, y);" + END, "", "this is a value too many: the parameters of the module `s` that may be set are `P`, `Q`"),
    (GIVEN + "assign y = @@c;" + END, "", "there is no signal or parameter `c` in module `m`: declare it, as in `wire c;`, or `parameter c = 8;` for a constant"),
    (GIVEN + "wire [@@V-1:0] c;" + END, "", "there is no signal or parameter `V` in module `m`: declare it, as in `parameter V = 8;`"),
    (GIVEN + "always @* @@r = a;" + END, "", "there is no signal or parameter `r` in module `m`: declare it, as in `reg r;`"),
    (GIVEN + "always @* begin @@r[v[1]] = a; end" + END, "", "there is no signal or parameter `r` in module `m`: declare it, as in `reg [7:0] r;`"),
    ("module m(input a, output reg y);\n  always @(posedge a) if (y) {y, @@r} <= 2;" + END, "", "there is no signal or parameter `r` in module `m`: declare it, as in "
     "`reg r;`"),
    (GIVEN + "always @* {@@r[3:0], y} = v;" + END, "", "there is no signal or parameter `r` in module `m`: declare it, as in `reg [7:0] r;`"),
    (GIVEN + "always @* case (a) @@r[0]: y = v; endcase" + END, "", "there is no signal or parameter `r` in module `m`: declare it, as in `wire r;`, or "
     "`parameter r = 8;` for a constant"),
    (GIVEN + "assign @@r = a;" + END, "", "there is no signal or parameter `r` in module `m`: declare it, as in `wire r;`, or "
     "`parameter r = 8;` for a constant"),
    ("module m(input a, output reg y);\n  always @(posedge @@c) y <= a;" + END, "", "there is no signal or parameter `c` in module `m`: declare it, as in "
     "`input c`"),
    (GIVEN + "parameter P = 1;\n  assign @@P = a;" + END, "", "`P` is a parameter, and a signal is wanted here"),
    (GIVEN + "wire [@@P:0] c; parameter P = 1;" + END, "", "the parameter `P` is declared later, at 2:27: declare it before it is used"),
    (GIVEN + "assign y = @@" + "c" * 200 + ";" + END, "", f"there is no signal or parameter `{'c' * 50}...{'c' * 27}` in module `m`: declare it, as in `wire "
     f"{'c' * 50}...{'c' * 27};`, or `parameter {'c' * 50}...{'c' * 27} = 8;` for a constant"),
    (GIVEN + "assign y = {@@N{a}};" + END, "", "there is no signal or parameter `N` in module `m`: declare it, as in `wire N;`, or `parameter N = 8;` for a constant"),
    (USE + "s #(.P(@@N)) u(a, y);" + END, "", "there is no signal or parameter `N` in module `t`: declare it, as in `wire N;`, or `parameter N = 8;` for a constant"),
    (GIVEN + "localparam [@@N:0] Z = 1;" + END, "", "there is no signal or parameter `N` in module `m`: declare it, as in `parameter N = 8;`"),
    (GIVEN + "assign y = a, @@r = b;" + END, "", "there is no signal or parameter `r` in module `m`: declare it, as in `wire r;`, or "
     "`parameter r = 8;` for a constant"),
    (GIVEN + "assign {@@r, y} = v;" + END, "", "there is no signal or parameter `r` in module `m`: declare it, as in `wire r;`, or "
     "`parameter r = 8;` for a constant"),
    (GIVEN + "wire [@@a:0] c;" + END, "", "a constant is wanted here, and this is a signal: use a parameter"),
    (GIVEN + "wire [3:0] c = v[@@a:0];" + END, "", SELECTED),
    (GIVEN + "reg [7:0] r; always @* begin r = 0; r[@@a] = b; end" + END, "", SELECTED),
    (GIVEN + "reg r; always @* case (1'b1) @@a: r = 1; default: r = 0; endcase" + END, "", ITEM),
    (GIVEN + "parameter P = @@P;" + END, "", "the parameter `P` is used in its own value: write a number there, or a parameter that is declared before"),
    (GIVEN + "localparam A = 2 * (1 + @@A), B = 2;" + END, "", "the parameter `A` is used in its own value: write a number there, or a parameter that is declared "
     "before"),
    ("module m #(parameter P = @@P) (input a);" + END, "", "the parameter `P` is used in its own value: write a number there, or a parameter that is declared "
     "before"),
    (GIVEN + "localparam A = 1, B = @@A[0];" + END, "", "`A` is a parameter, and a signal is wanted here"),
    (GIVEN + "assign y = @@{v, {60{a}}};" + END, "", "this has 68 bits, and 64 there may be: split it in two"),
    (GIVEN + "localparam N = 3 * (1 + 2);\n  assign y = a & @@{N{~v}};" + END, "", "this has 72 bits, and 64 there may be: split it in two"),
    (GIVEN + "reg [63:0] p; reg q; always @* if (a) ; else {@@p, q} = v;" + END, "", "this has 65 bits, and 64 there may be: split it in two"),
    (GIVEN + "assign y = @@{v, v[3:1], a[0], v << 1, a == b, a ? v : b, {5{v}}};" + END, "", "this has 69 bits, and 64 there may be: split it in two"),
    (GIVEN + "parameter [7:0] N = 60; assign y = @@{v, {N{a}}};" + END, "", "this has over 64 bits, which are the most: split it in two"),
    (GIVEN + "assign y = v[@@8];" + END, "", "there is no bit 8: `v` has 8 bits, whose numbers are 0 to 7"),
    (GIVEN + "assign y = a[@@1];" + END, "", "there is no bit 1: `a` has 1 bit, whose number is 0"),
    (GIVEN + "assign y = @@v[0:3];" + END, "", "the high bound of the part `[0:3]` is below its low one: write `[3:0]`"),
    (GIVEN + "assign y = @@v[9:2];" + END, "", "there is no part `[9:2]`: `v` has 8 bits, whose numbers are 0 to 7"),
    (GIVEN + "parameter W = 4; reg [W-1:0] r;\n  always @* begin r = v; case (a) 0: if (b) r[@@W] = 1; endcase end" + END, "", "there is no bit 4: `r` has 4 bits, whose "
     "numbers are 0 to 3"),
    (GIVEN + "reg [3:0] r;\n  always @* begin r = v; @@r[4:3] = 1; end" + END, "", "there is no part `[4:3]`: `r` has 4 bits, whose numbers are 0 to 3"),
    ("module s #(parameter W = 4) (input [W-1:0] i, output o);\n  assign o = i[@@3];\nendmodule\nmodule m(input [1:0] a, output y);\n  s #(2) u(a, y);" + END, "",
     "there is no bit 3: `i` has fewer bits"),
    (USE + "s u(a[@@4], y);" + END, "", "there is no bit 4: `a` has 4 bits, whose numbers are 0 to 3"),
    (GIVEN + "assign y = {@@0{a}};" + END, "", "this replication is written 0 times, and 1 to 64 times it may be"),
    (GIVEN + "parameter [1:0] N = 0; assign y = {@@N{a}};" + END, "", "a replication is written 1 to 64 times"),
    (GIVEN + "wire [@@64:0] c;" + END, "", "the range `[64:0]` has 65 bits, and 64 there may be: split the signal in two"),
    (GIVEN + "wire [@@0:7] c;" + END, "", "the range `[0:7]` has its low bound first: write `[7:0]`, with the highest bit first"),
    (GIVEN + "wire [@@7:4] c;" + END, "", "the range `[7:4]` is to end at 0: `[m:0]`, with m from 0 to 63"),
    ("module m #(parameter W = 128) (input [W@@-1:0] a);" + END, "", "the range `[127:0]` has 128 bits, and 64 there may be: split the signal in two"),
    (POINTS + "module m(input {@@Q} z);" + END, "", "there is no point `Q`; the points are " + ", ".join(f"`P{i}`" for i in range(32))),
    (LANES + "module m(input {@@Dom} z);" + END, "", "`Dom` is a label map: write `Dom(SIGNAL)`"),
    ("labelmap T [0:0] [0:0] default: L; endlabelmap\nmodule m(input {@@T} z);" + END, "", "`T` is a label map: write `T(SIGNAL, SIGNAL)`"),
    (LANES + "module m(input Dom, input {@@Dom(Dom)} z);" + END, "", "the range of the label map `Dom` has 2 bits, and `Dom`, which picks its row, has 1"),
    (LANES + "module m #(parameter dom = 1) (input {@@Dom(dom)} z);" + END, "", "a signal picks the row of the label map `Dom`, and `dom` is a parameter: make "
     "it an input, linked to a constant"),
    ("module m(input a, input {@@Q} z);" + END, "", "there is no point `Q`; the points are `L`, `H`"),
    (LANES + "module m(input [1:0] a, input {@@Lane(a)} z);" + END, "", "there is no label map `Lane`; the label maps are: `Dom`"),
    (LANES + "module m(input [1:0] a, input {@@Dom(b)} z);" + END, "", "there is no signal `b` in module `m`, to pick the row of the label map `Dom`"),
    (LANES + "module m(input a, input {@@Dom(a)} z);" + END, "", "the range of the label map `Dom` has 2 bits, and `a`, which picks its row, has 1"),
    (LANES + "module m #(parameter W = 3) (input [W:0] a, input {@@Dom(a)} z);" + END, "", "the range of the label map `Dom` has 2 bits, and `a`, which picks its "
     "row, has 4"),
    (LANES + "module m #(parameter [7:0] W = 3) (input [W:0] a, input {@@Dom(a)} z);" + END, "", "the range of the label map `Dom` has 2 bits, and `a`, which picks "
     "its row, has another number"),
    ("labelmap T [0:0] [1:0] default: L; endlabelmap\nmodule m(input a, b, input {@@T(a, b)} z);" + END, "", "the range of the label map `T` has 2 bits, and `b`, "
     "which picks its row, has 1"),
    ("labelmap T [0:0] [1:0] default: L; endlabelmap\nmodule m(input [1:0] a, b, input {@@T(a, b)} z);" + END, "", "the range of the label map `T` has 1 bit, and "
     "`a`, which picks its row, has 2"),
    ("labelmap T [0:0] [1:0] default: L; endlabelmap\nmodule m(input [1:0] a, input {@@T(a, a)} z);" + END, "", "the ranges of the label map `T` have 1 and 2 "
     "bits, and `a`, which picks its row by both, has 2"),
    (LANES + "module m(input [1:0] a, input {@@Dom(a, a)} z);" + END, "", "the label map `Dom` picks its row by one signal"),
    (CLOCKED + "assign w = d; always @(posedge clk) @@q = d;" + END, "", "`q` is assigned by `=` at a clock edge: write `<=`, by which all registers take "
     "their values together"),
    (CLOCKED + "assign w = d; always @* @@q <= d;" + END, "", "`q` is assigned by `<=` in an `always @*`: write `=`"),
    (CLOCKED + "always @* begin q = d; @@w = d; end" + END, "", "`w` is assigned in an `always`, so declare it a `reg`, at 1:51"),
    (CLOCKED + "assign w = d;\n  assign @@q = d;" + END, "", "`q` is a `reg`, which an `always` alone assigns: take `reg` away from its declaration at 1:41, or "
     "assign it in an `always`"),
    (CLOCKED + "assign w = d;\n  assign @@d = w;" + END, "", "`d` is an input of the top, declared at 1:27, and is driven from outside"),
    (CLOCKED + "assign w = d; always @(posedge clk) @@d <= w;" + END, "", "`d` is an input, declared at 1:27, and is driven from outside: where the module is to "
     "drive it, declare it an `output reg`"),
    ("module s(input i, output o);\n  assign o = i;\n  always @* @@i = 1;\nendmodule\nmodule m(input a, output y);\n  s u(a, y);" + END, "", "`u.i` is an "
     "input, declared at 1:16, and is driven from outside: where the module is to drive it, declare it an `output reg`"),
    (CLOCKED + "assign w = d;\n  reg [3:0] r; always @* begin q = 0; {r[2:0], @@r[3:2]} = d; end" + END, "", "one assignment assigns a bit of `r` twice"),
    ("module m(input {H} @@clk, input d, output reg q);\n  always @(posedge clk) q <= d;" + END, "", "the clock `clk` has a label: everybody sees the time, "
     "so a clock is public; take its label away"),
    ("module m(input [1:0] @@clk, input d, output reg q);\n  always @(posedge clk) q <= d;" + END, "", "the clock `clk` has 2 bits, and a clock has 1"),
    ("module m(input d, output reg q);\n  wire @@k = d;\n  always @(posedge k) q <= d;" + END, "", "the clock `k` is no input: a clock comes from the top, and "
     "no logic makes one; let an enable decide in the block"),
    ("module m(input c, @@d, output reg q, r);\n  always @(posedge c) q <= 0;\n  always @(posedge d) r <= 0;" + END, "", "`d` is a second clock: a design has "
     "one, and `c` of 1:16 is a clock, too; let an enable decide in the block"),
    ("module m(input @@c, input [1:0] d, output reg q);\n  always @(posedge c) q <= d[c];" + END, "", "the clock `c` is read at 2:30: " + ALONE),
    ("module m(input @@clk, output reg q);\n  always @(posedge clk) q <= clk;" + END, "", "the clock `clk` is read at 2:30: " + ALONE),
    ("module m(input @@clk, en, output o, output reg q);\n  assign o = clk & en;\n  always @(posedge clk) q <= en;" + END, "", "the clock `clk` is read at 2:14: "
     + ALONE),
    ("labelmap D [0:0] 0: L; default: H; endlabelmap\nmodule m(input @@c, input {D(c)} d, output reg {H} q);\n  always @(posedge c) q <= d;" + END, "", "the clock "
     "`c` picks the label of `d` of 2:32: " + ALONE),
    ("module s(input @@c, d, output reg q);\n  assign c = d;\n  always @(posedge c) q <= d;\nendmodule\nmodule m(input clk, d, output q);\n  s u(clk, d, q);"
     + END, "", "the clock `u.c`, linked to `clk` of 5:16, is driven at 2:10: " + ALONE),
    ("module s(input @@c, d, output reg q);\n  always @(posedge c) q <= d;\nendmodule\nmodule m(input a, b, d, output x, y);\n  s u(a, d, x), v(b, d, y);" + END,
     "", "the clock `u.c` is `a` of 4:16, and `b` of 4:19 is a clock, too: a design has one; let an enable decide in the block"),
    ("module s(input c, @@d, output reg q);\n  always @(posedge c) q <= d;\nendmodule\nmodule m(input clk, output q);\n  s u(clk, clk, q);" + END, "", "the clock "
     "`u.d`, linked to `clk` of 4:16, is read at 2:28: " + ALONE),
    (TICKED + "s u(d, @@~a, x);" + END, "", EXPRESSED),
    (TICKED + "s u(.q(x), .c(@@1'b0), .d(d));" + END, "", EXPRESSED),
    (TICKED + "s u(.q(x), .@@c(), .d(d));" + END, "", "the clock `u.c` is linked to nothing here: link it to the clock around it"),
    (TICKED + "s @@u(.q(x), .d(d));" + END, "", "this instance links nothing to its clock `u.c`: link it to the clock around it"),
    ("module m(input {H} @@c, input d, output reg q, r);\n  always @(posedge c) q <= 0;\n  always @(posedge d) r <= 0;" + END, "", "the clock `c` has a label: "
     "everybody sees the time, so a clock is public; take its label away"),
    ("module m(input a, output y);\n  assign y = a;\n  assign @@y = ~a;" + END, "", "`y` has a driver already, at 2:10: assign all its bits in one `always` or "
     "`assign`"),
    (USE + "s u(a, y), v(a, @@y);" + END, "", "`y` has a driver already, at 6:10: link each output to a `wire` of its own, and join those in one `assign`"),
    ("module s(input i, output o);\n  assign o = i;\n  assign @@i = 1;\nendmodule\nmodule m(input a, output y);\n  s u(.i(a), .o(y));" + END, "", "`u.i` is an "
     "input of the instance at 6:5, and what is linked to it at 6:10 drives it: take this assignment away"),
    ("module s(input i, output o);\n  assign i = 0, o = i;\n  assign @@i = 1;\nendmodule\nmodule m(output y);\n  s u(.i(), .o(y));" + END, "", "`u.i` is an input "
     "of the instance at 6:5, which links nothing to it: link it there, and assign it nowhere"),
    ("module s(input @@i, output o);\n  assign o = i;\nendmodule\nmodule t(output o);\n  s v(.i(), .o(o));\nendmodule\nmodule m(output y);\n  t u(y);" + END, "",
     "nothing drives `u.v.i`, an input of the instance at 5:5, which links nothing to it: link it there"),
    ("module m(output y);\n  reg @@r;\n  assign y = r;" + END, "", "nothing drives the `reg` `r`: assign it in an `always`"),
    ("module m(output @@y);" + END, "", "nothing drives `y`: assign it, or link it to an output"),
    ("module m(input a, output reg y);\n  @@always @* if (a) y = 1;" + END, "", "this block does not assign all bits of `y` on every path, so it would be a latch: "
     "give it a value at the block's begin, or in each `else` and `default`"),
    ("module m(input a, output reg y);\n  always @* y = a ^ @@y;" + END, "", "`y` is read here before its block has assigned it on every path: assign it "
     "above, or give it a value at the block's begin"),
    ("module m(output @@y);\n  wire w; assign w = y; assign y = w;" + END, "", "these signals read each other in a circle without a register between, each the "
     "next and the last `y`: `y`, `w`; break it by a register, or split a signal"),
    ("module m(output [1:0] @@y);\n  assign y = {y[0], 1'b1};" + END, "", "`y` reads itself without a register between, so it has no value: break the circle by "
     "a register, or split the signal"),
    (GIVEN + "assign y = a; reg @@s [3:0];" + END, "", "memories are not built yet: name the registers, and pick one by `case`"),
    (GIVEN + "assign y = a; invariant @@a;" + END, "", "`invariant` is not built yet: add its condition to the path that needs it"),
    ("module m(input {H} k, output y);\n  assign @@y = k;" + END, "", "obligation 1: `y` learns from `k`: at the printed values `k` is at `H`, and `y` at `L`"),
    ("module m(input {H} k, input a, output reg y);\n  always @*\n    if (k)\n      @@y = a;\n    else\n      y = 0;" + END, "", "obligation 1: `y` learns from `k`, "
     "which the condition at 3:5 reads: at the printed values `k` is at `H`, and `y` at `L`"),
    ("module m(input clk, input [1:0] {H} k, input a, output reg y);\n  always @(posedge clk)\n    case (k)\n      0: @@y <= a;\n      default: y <= 0;\n    endcase"
     + END, "", "obligation 1: `y` learns from `k`, which the condition at 4:7 reads: at the printed values `k` is at `H`, and `y` at `L`: the label of a register is "
     "that of the next cycle"),
    (OWNER.replace("if (nxt)", "@@if (nxt)"), "", "obligation 3: the register `r` keeps its value on this path, and its label falls: at the printed values it "
     "is at `H`, and at `L` in the next cycle; clear it where its label falls"),
    (OWNER.replace("if (nxt) r", "@@r"), "", "obligation 2: `r` learns from `k`: at the printed values `k` is at `H`, and `r` at `L`: the label of a register is "
     "that of the next cycle"),
    ("module m(input clk, input {H} s, input t, output reg q);\n  always @(posedge clk)\n    @@if (s)\n      if (t) ;\n      else q <= 1;" + END, "", "obligation "
     "1: `q` learns from `s`: at the printed values `s` is at `H`, and `q` at `L`: the label of a register is that of the next cycle"),
    (HOLDS.format(12, "@@q") + HELD(13) + END, "", "8,192 paths lead through the statements to `q`, and 4,096 there may be: split its block, or name a value "
     "between by a `wire`"),
    (HOLDS.format(63, "@@q") + HELD(64) + END, "", "over 10^19 paths lead through the statements to `q`, and 4,096 there may be: split its block, or name a value "
     "between by a `wire`"),
    (HOLDS.format(12, "@@q") + "if (a[0]) q <= a[1] ? a : 0; else begin " + HELD(13) + " end" + END, "", "8,194 paths lead through the statements to `q`, and 4,096 there may "
     "be: split its block, or name a value between by a `wire`"),
    (HOLDS.format(63, "@@q") + "{" + ", ".join(f"q[{bit}]" for bit in range(64)) + "} <= a" + " + a" * 511 + ";\nq[0] <= a" + " + a" * 32 + "; end" + END, "",
     "65,537 nodes of earlier values are put into one path of `q`, and 65,536 there may be: name a value between by a `wire`"),
    ("labelmap D [0:0] 0: L; default: H; endlabelmap\nmodule m(input {H} q, input {D(q)} @@d, output {H} y);\n  assign y = d;" + END, "", "obligation 2: the label "
     "of `d` tells `q`, which picks it: at the printed values `q` is at `H`, and `d` at `L`; pick a label by a signal that all may see who see `d`"),
]
RETURN = "the line ends with CR and LF: let each line end with LF alone, as `tr -d '\\r'` makes it"
# Words and a stimulus for the design OWNER in the file `f`, and what is said.
RUNS = [
    ("sim f", "", "secv: line 1 of the input: here is to stand the line `inputs nxt k`, or before it a line `start REGISTER VALUE`\n"),
    ("sim f", "inputs nxt k\n0 0\n0 100\n", "secv: line 3 of the input: `100` is no value of the input `k`: wanted are 1 to 16 hexadecimal digits that fit in 8 bits\n"),
    ("sim f", "inputs nxt k\n2 0\n", "secv: line 2 of the input: `2` is no value of the input `nxt`: wanted are 1 to 16 hexadecimal digits that fit in 1 bit\n"),
    ("sim f", "inputs nxt k\n" + "0 0\n" * 20000 + "0 x\n0 0\n", "secv: line 20002 of the input: `x` is no value of the input `k`: wanted are 1 to 16 "
     "hexadecimal digits that fit in 8 bits\n"),
    ("sim f", "inputs nxt k\n0 0\n0", "secv: line 3 of the input: a value of the input `k`, of 8 bits, is missing: each line has a value for each name of "
     "`inputs nxt k`\n"),
    ("sim f", "inputs nxt k\n\n0 0\n", "secv: line 2 of the input: this line is empty: each has a value for each name of `inputs nxt k`\n"),
    ("sim f", "inputs nxt k\n0  0\n", "secv: line 2 of the input: a blank too many stands where a value of the input `k`, of 8 bits, is wanted\n"),
    ("sim f", "inputs nxt k\n0 0 \n", "secv: line 2 of the input: a blank too many stands at the end of this line\n"),
    ("sim f", "inputs nxt k\n0 0 0\n", "secv: line 2 of the input: this line has more values than there are inputs: each has a value for each name of "
     "`inputs nxt k`\n"),
    ("sim f", "inputs nxt k\nstart r 1\n", "secv: line 2 of the input: a line `start REGISTER VALUE` stands before the line `inputs nxt k`: behind it there are "
     "values of inputs alone\n"),
    ("sim f", "start q 1\n", "secv: line 1 of the input: there is no register `q`; the registers are `owner` (1 bit), `r` (8 bits)\n"),
    ("sim f", "start  r 1\n", "secv: line 1 of the input: behind `start` stand one blank and the name of a register; the registers are `owner` (1 bit), `r` "
     "(8 bits)\n"),
    ("sim f", "start \x1b[2Jq 1\n", "secv: line 1 of the input: there is no register `\\u{1b}[2Jq`; the registers are `owner` (1 bit), `r` (8 bits)\n"),
    ("sim f", "inputs nxt k\n0 \x1b[2J\u202e\n", "secv: line 2 of the input: `\\u{1b}[2J\\u{202e}` is no value of the input `k`: wanted are 1 to 16 hexadecimal digits "
     "that fit in 8 bits\n"),
    ("sim f", "inputs nxt k\n0 0x5\n", "secv: line 2 of the input: `0x5` is no value of the input `k`: wanted are 1 to 16 hexadecimal digits that fit in 8 bits\n"),
    ("cnf one 2", "", "secv: one: the design has one obligation, 1, and none has the number 2\n"),
    ("sim f", "start r 5\nstart r 6\n", "secv: line 2 of the input: the register `r` is started by an earlier line already: take one of the two away\n"),
    ("sim f", "start r 100\n", "secv: line 1 of the input: `100` is no value of the register `r`: wanted are 1 to 16 hexadecimal digits that fit in 8 bits\n"),
    ("sim f", "inputs nxt k\r\n0 0\r\n", f"secv: line 1 of the input: {RETURN}\n"),
    ("compare f j c --level L", "", f"j:1:1: {RETURN}\n"),
    ("compare f c k --level L", "", "k:3:1: `100` is no value of the input `k`: wanted are 1 to 16 hexadecimal digits that fit in 8 bits\n"),
    ("verify f l", "", f"l:1:1: {RETURN}\n"),
    ("sim f", "inputs nxt k\n" + "0" * 1048577, "secv: line 2 of the input: the line has over 1,048,576 bytes, which are the most\n"),
    ("sim f --level Q", "", "secv: f: there is no point `Q`, which `--level` names; the points are `L`, `H`\n"),
    ("sim points --level Q", "", "secv: points: there is no point `Q`, which `--level` names; the points are " + ", ".join(f"`P{i}`" for i in range(32)) + "\n"),
    ("compare f a f --level L", "", "f:1:1: here is to stand the line `inputs nxt k`, or before it a line `start REGISTER VALUE`\n"),
    ("compare f a a --level Q", "", "secv: f: there is no point `Q`, which `--level` names; the points are `L`, `H`\n"),
    ("cnf f 99", "", "secv: f: the design has the obligations 1 to 3, and none has the number 99\n"),
    ("verify f a", "", "a:1:1: a certificate begins with the line `secv-proof 1`\n"),
    ("verify f b", "", "b:2:1: the line `obligations N` is to name as many as the design has: if `check` accepts the design, make the "
     "certificate anew, by `secv check FILE --proof NAME`\n"),
    ("gen 201", "", "secv: a sample has 1 to 200 lanes, and not 201\n"),
    ("check large", "", "secv: large: the file has over 1,048,576 bytes, which is the most: leave out modules that the top has no instance of\n"),
    ("list f", "", ""),
    ("check many", "", "secv: many: the design has 69,633 obligations, and 65,536 there may be: split blocks that have many paths; a module that `--top MODULE` "
     "checks alone tells nothing of the whole\n"),
    ("compare f c c --level L", "", ""),
    ("compare f a c --level L", "", "secv: `L` sees no difference in the 0 cycles that a and c both have, and one of them has more: give both as many\n"),
    ("compare f c d --level L", "", "secv: `L` sees the register `owner` start differently in c and d, which tells nothing of the design: a register starts at 0 or "
     "by a line `start owner VALUE`; give it the same value in both\n"),
    ("compare f c e --level L", "", "secv: `L` sees the register `r` start differently in c and e, which tells nothing of the design: a register starts at 0 or by a "
     "line `start r VALUE`; give it the same value in both, and what picks its label\n"),
    ("compare f c g --level L", "", "secv: in cycle 0 `L` sees the input `nxt` differently in c and g, which tells nothing of the design: give it the same value in "
     "both\n"),
    ("compare f h i --level L", "", "secv: in cycle 1 `L` sees `r` differently in the two runs, though all that it was given looks alike up to there: the design "
     "leaks\n"),
]


def said_of(folder, words, given=b""):
    """What is said to a person."""
    return call(folder, words, given).stderr.decode()


def texts(folder):
    """Each text with its message, from a file and from a pipe, which can be read once only."""
    for marked, words, said in TEXTS:
        before, _, behind = marked.partition("@@")
        text = before + behind
        place = f"{before.count(chr(10)) + 1}:{len(before.rpartition(chr(10))[2].encode()) + 1}"
        put(folder, "text.v", text.encode())
        shown = f":{place}: {said}\n{excerpt(text, place)}"
        compare(text[:300], said_of(folder, ["check", "text.v", *words.split()]), "text.v" + shown)
        compare(f"a pipe: {text[:300]}", said_of(folder, ["check", "/dev/stdin", *words.split()], text.encode()), "/dev/stdin" + shown)


def runs(folder):
    put(folder, "f", OWNER)
    put(folder, "a", "inputs nxt k\n")
    put(folder, "b", "secv-proof 1\nobligations 1\no 1 0\nend\n")
    put(folder, "c", "inputs nxt k\n0 0\n")
    put(folder, "d", "start owner 1\ninputs nxt k\n0 0\n")
    put(folder, "e", "start r 5\ninputs nxt k\n0 0\n")
    put(folder, "g", "inputs nxt k\n1 0\n")
    put(folder, "h", "start owner 1\nstart r 5\ninputs nxt k\n0 0\n0 0\n")
    put(folder, "i", "start owner 1\nstart r 6\ninputs nxt k\n0 0\n0 0\n")
    put(folder, "j", "inputs nxt k\r\n0 0\r\n")
    put(folder, "k", "inputs nxt k\n0 0\n0 100\n")
    put(folder, "l", "secv-proof 1\r\nobligations 1\r\no 1 0\r\nend\r\n")
    put(folder, "many", MANY)
    put(folder, "one", "module m(input a, output y);\n  assign y = a;\nendmodule\n")
    put(folder, "large", " " * 1048577)
    put(folder, "points", POINTS + "module m; endmodule\n")
    for words, given, said in RUNS:
        compare(f"{words} {given[:60]!r}", said_of(folder, words.split(), given.encode()), said)


def lines(folder):
    """A caret stands below its place: behind tabs, in a long line, at the end of a text; what moves a terminal's cursor or turns its line is not shown."""
    for text, shown in (("module m;\n\twire\t\t1;\nendmodule\n", "text.v:2:8: `1` cannot stand behind `wire`\n  \twire\t\t1;\n  \t    \t\t^\n"),
                        ("module m; /* \x1b[2J\x07 */ 1;", "text.v:1:23: `1` cannot stand behind `;`\n  module m; /* \ufffd[2J\ufffd */ 1;\n" + " " * 24 + "^\n"),
                        ("module m; /* \u202e\u2028 */ 1;", "text.v:1:24: `1` cannot stand behind `;`\n  module m; /* \ufffd\ufffd */ 1;\n" + " " * 21 + "^\n"),
                        ("module m;\r\n  1;\r\nendmodule\r\n", "text.v:2:3: `1` cannot stand behind `;`\n    1;\n    ^\n"),
                        ("module m;\n", "text.v:2:1: the text ends too early, behind `;`: is an `end`, `endcase` or `endmodule` missing?\n"),
                        (" " * 300 + "1" + " x" * 300, "text.v:1:301: a text does not begin with `1`: it begins with `module`, or with `lattice` or `labelmap`\n  "
                         + " " * 100 + "1" + " x" * 29 + "\n" + " " * 102 + "^\n")):
        put(folder, "text.v", text.encode())
        compare(repr(text[:300]), said_of(folder, ["check", "text.v"]), shown)


def names(folder):
    """The name of a file is shown as it is, but what cannot be seen in it is escaped; a word of a command that is too long is cut."""
    for name, shown in (("it's \"a\\b\".v", "it's \"a\\b\".v"), ("a\nb\u202e.v", "a\\nb\\u{202e}.v")):
        put(folder, name, "1")
        compare(repr(name), said_of(folder, ["check", name]), f"{shown}:1:1: a text does not begin with `1`: it begins with `module`, or with `lattice` or "
                "`labelmap`\n  1\n  ^\n")
        os.remove(os.path.join(folder, name))
        compare(f"none: {name!r}", said_of(folder, ["check", name]).partition(": No")[0], f"secv: {shown}")
    put(folder, "f", OWNER)
    compare("a long word", said_of(folder, ["check", "f", "--top", "c" * 1000]).partition(",")[0], f"f:1:1: there is no module `{'c' * 50}...{'c' * 27}`")


def come(stream, end):
    """What comes from a pipe or a terminal until this stands in it, or nothing more comes."""
    got = b""
    while end not in got and select.select([stream], [], [], MOST_SECONDS)[0]:
        try:
            piece = os.read(stream, 65536)
        except OSError:  # no program holds the terminal any more
            break
        if not piece:
            break
        got += piece
    return got


def slow(folder, streams, last):
    """What these streams show, which are a terminal, of a simulation whose second cycle comes after two seconds, and then one more, and this line. Where there
    are none, what standard error has."""
    ours, theirs = pty.openpty()
    ends = {name: theirs if name in streams else subprocess.PIPE for name in ("stdin", "stdout", "stderr")}
    with subprocess.Popen([SECV, "sim", "f"], cwd=folder, **ends) as program:
        os.close(theirs)
        given = program.stdin.fileno() if program.stdin else ours
        trace = program.stdout.fileno() if program.stdout else ours
        got = {ours: b"", trace: b""}
        for cycle, text in enumerate((b"inputs nxt k\n0 0\n", b"0 0\n", b"0 0\n")):
            os.write(given, text)
            stream, sign = (ours, b"cycle %d") if cycle and streams == ["stderr"] else (trace, b"%d nxt=0 ")
            got[stream] += come(stream, sign % cycle)
            time.sleep(0.25 if cycle else 2.1)
        if program.stdin:
            os.write(given, last)
            program.stdin.close()
        else:
            os.write(ours, last + b"\x04")
        got[ours] += come(ours, b"\0")
        if not streams:
            got[ours] += program.stderr.read()
    os.close(ours)
    return got[ours]


def progress(folder):
    """A terminal shows the last cycle of a simulation that takes over two seconds, and nothing of it before a message and at the end; nothing shows it where
    the stimulus is typed there, or the trace shown, nor where standard error is none."""
    put(folder, "f", OWNER)
    shown = b"\rsecv: cycle 1\rsecv: cycle 2\r" + b" " * 32 + b"\r"
    wrong = b"secv: line 5 of the input: `x` is no value of the input `k`: wanted are 1 to 16 hexadecimal digits that fit in 8 bits"
    cases = ((["stderr"], b"", shown), (["stderr"], b"0 x\n", shown + wrong + b"\r\n"), ([], b"0 x\n", wrong + b"\n"),
             (["stdout", "stderr"], b"", None), (["stdin", "stderr"], b"", None))
    with concurrent.futures.ThreadPoolExecutor(len(cases)) as pool:
        for (streams, last, wanted), got in zip(cases, pool.map(lambda case: slow(folder, *case[:2]), cases)):
            # a machine that takes two seconds to begin shows the first cycle too
            what = got.removeprefix(b"\rsecv: cycle 0") if wanted else b"secv: cycle" in got
            compare(f"a terminal for {streams}, and at last {last}", what, wanted or False)


if __name__ == "__main__":
    finish([texts, runs, lines, names, progress])
