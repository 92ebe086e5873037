#!/usr/bin/env python3
"""Checks texts at the limits of the grammar through ./secv: levels, lengths and arms at the limit and one past it, all 256 files of one
byte, each form that is left out with its word, and texts of a megabyte of one thing. Each wanted line is worked out here from
docs/language.md. The last line is 'N passed, M failed'.
"""
from harness import compare, finish, limits, put, run

LIMIT = 1048576
MOST_SECONDS = 10
MOST_MEGABYTES = 256
# Of the stack.
LITTLE_STACK = 1024
REFUSED = """and automatic buf bufif0 bufif1 casex casez cell cmos config deassign defparam design disable edge endconfig endfunction endgenerate
 endprimitive endspecify endtable endtask event for force forever fork function generate genvar highz0 highz1 ifnone incdir include initial inout
 instance integer join large liblist library macromodule medium nand negedge nmos nor noshowcancelled not notif0 notif1 or pmos primitive pull0 pull1
 pulldown pullup pulsestyle_ondetect pulsestyle_onevent rcmos real realtime release repeat rnmos rpmos rtran rtranif0 rtranif1 scalared showcancelled
 small specify specparam strong0 strong1 supply0 supply1 table task time tran tranif0 tranif1 tri tri0 tri1 triand trior trireg unsigned use vectored
 wait wand weak0 weak1 while wor xnor xor uwire""".split()
FORMS = [("module m(a, b); endmodule", 10, "header-names"), ("module m; (* full *) wire c; endmodule", 11, "attribute"),
         ("module m; always @* (* full *) ; endmodule", 21, "attribute"), ("module m; wire #1 c; endmodule", 16, "delay"),
         ("module m; always @* y = #1 a; endmodule", 25, "delay"), ("module m(output reg a = 1); endmodule", 23, "reg-init"),
         ("module m; reg a = 1; endmodule", 17, "reg-init"), ("module m(input a [3:0]); endmodule", 18, "memory"),
         ("module m; wire a [3:0]; endmodule", 18, "memory"), ("module m; reg a, b [3:0]; endmodule", 20, "memory"),
         ("module m(input a, output y); assign y[0] = a; endmodule", 38, "target-select"),
         ("module m; always @* @* ; endmodule", 21, "event-control"), ("module m; always @(a) ; endmodule", 20, "sensitivity-list"),
         ("module m; always @(posedge a, posedge b) ; endmodule", 29, "several-events"),
         ("module m(output y); assign y = a.b; endmodule", 33, "hierarchical-name")]


def check(what, text, wanted, folder):
    """Whether the program's line for the text is the wanted one, in little time, memory and stack."""
    put(folder, "text.v", text)
    answer = run(folder, "check text.v", bounds=limits(MOST_MEGABYTES, LITTLE_STACK), seconds=MOST_SECONDS)
    compare(what, answer, (f"{wanted}\n", 1 if wanted.startswith("refused ") else 0))


def levels(folder):
    """Each kind of level 64 times, and 65 times: then its token is told. An assignment has one obligation, and one more for each choice in it."""
    assign, always = "module m(input a, output y); assign y = ", "module m(input a); always @* "
    kinds = [("groups", assign, "(", "a", ")", ";"), ("joins", assign, "{", "a", "}", ";"), ("signs", assign, "-", "a", "", ";"),
             ("indexes", assign, "a[", "a", "]", ";"), ("choices", assign, "a?", "a", ":a", ";"),
             ("blocks", always, "begin ", ";", " end", ""), ("ifs", always, "if(a) ", ";", "", ""),
             ("else ifs", always, "if(a) ; else ", ";", "", ""), ("cases", always, "case(a) 0: ", ";", " endcase", "")]
    for name, before, opening, inside, closing, after in kinds:
        for count in (64, 65):
            text = before + opening * count + inside + closing * count + after + " endmodule\n"
            column = len(before) + 64 * len(opening) + (2 if name in ("indexes", "choices") else 1)
            obligations = 0 if before == always else 65 if name == "choices" else 1
            wanted = f"accepted {obligations} obligations" if count == 64 else f"refused 203 too-deep 1:{column}"
            check(f"{count} {name}", text, wanted, folder)
    for count in (32, 33):
        text = assign + "{1{" * count + "a" + "}}" * count + "; endmodule\n"
        wanted = "accepted 1 obligations" if count == 32 else f"refused 203 too-deep 1:{len(assign) + 32 * 3 + 1}"
        check(f"{count} replications, two levels each", text, wanted, folder)


def lengths(folder):
    """1,024 and 1,025 tokens of an expression, 256 and 257 arms, and longer lists that have no limit."""
    assign = "module m(input a, output y); assign y = "
    for first, count in (("-", 1024), ("", 1025)):
        text = assign + first + "a" + "+a" * 511 + ("" if first else "+a") + "; endmodule\n"
        wanted = "accepted 1 obligations" if count == 1024 else f"refused 204 too-long 1:{len(assign) + 1025}"
        check(f"{count} tokens", text, wanted, folder)
    case = "module m(input a); always @* case(a) "
    for count in (256, 257):
        wanted = "accepted 0 obligations" if count == 256 else f"refused 204 too-long 1:{len(case) + 256 * 3 + 1}"
        check(f"{count} arms", case + "0:;" * count + " endcase endmodule\n", wanted, folder)
    names = "module m; wire a0" + "".join(f", a{i}" for i in range(1, 4096))
    check("5,000 names, assigns, statements and instances, of which the 4,097th name is one too many",
          names + "".join(f", a{i}" for i in range(4096, 5000)) + ";" + "assign y = a;" * 5000 + "always @* begin " + "y = a;" * 5000 + " end n "
          + ", ".join(f"u{i}()" for i in range(5000)) + "; endmodule\n", f"refused 315 too-many 1:{len(names) + 3}", folder)


def one_byte(folder):
    """Files of one byte, each of the 256: nothing or a token, with which no text goes on, or a byte that begins none."""
    tokens = b"+-*/%<>&|^~!?:;,.()[]{}=#@_" + bytes(range(48, 58)) + bytes(range(65, 91)) + bytes(range(97, 123))
    words = {ord('"'): "refused 104 unsupported 1:1 string", ord("\\"): "refused 104 unsupported 1:1 escaped-name"}
    for byte in range(256):
        if byte in words:
            wanted = words[byte]
        elif byte in tokens:
            wanted = "refused 201 unexpected 1:1"
        elif byte == 10:
            wanted = "refused 201 unexpected 2:1"
        elif byte in b" \t\r\f":
            wanted = "refused 201 unexpected 1:2"
        else:
            wanted = "refused 101 bad-byte 1:1"
        check(f"the byte {byte}", bytes([byte]), wanted, folder)


def left_out(folder):
    """Each word and each form of the standard that is left out."""
    for word in REFUSED:
        check(f"the word {word}", f"module m;\n  {word} a;\nendmodule\n", f"refused 202 unsupported 2:3 {word}", folder)
    for text, column, word in FORMS:
        check(f"the form {text}", text, f"refused 202 unsupported 1:{column} {word}", folder)


def megabytes(folder):
    """A megabyte of one thing, by itself and where an expression or a statement may begin."""
    assign, always = "module m; assign y = ", "module m; always @* "
    for piece in ("(", "{", "begin ", "if(a)", "~", "a "):
        check(f"a megabyte of {piece!r}", piece * (LIMIT // len(piece)), "refused 201 unexpected 1:1", folder)
    for piece in ("(", "{", "~"):
        text = assign + piece * (LIMIT - len(assign))
        check(f"an expression of {piece!r}", text, f"refused 203 too-deep 1:{len(assign) + 65}", folder)
    for piece, column in (("begin ", 64 * 6 + 1), ("if(a)", 64 * 5 + 1)):
        text = always + piece * ((LIMIT - len(always)) // len(piece))
        check(f"a statement of {piece!r}", text, f"refused 203 too-deep 1:{len(always) + column}", folder)
    check("an expression of names", assign + "a " * ((LIMIT - len(assign)) // 2), f"refused 201 unexpected 1:{len(assign) + 3}", folder)
    comment = "/*" + "*" * (LIMIT - 4) + "*/"
    check("one comment", comment, f"refused 201 unexpected 1:{LIMIT + 1}", folder)
    check("one comment that is not closed", "/*" + "a" * (LIMIT - 2), "refused 103 open-comment 1:1", folder)
    check("one number", "1" * LIMIT, "refused 102 bad-number 1:1", folder)
    check("one name", "a" * LIMIT, "refused 201 unexpected 1:1", folder)


if __name__ == "__main__":
    finish([levels, lengths, one_byte, left_out, megabytes])
