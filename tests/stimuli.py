#!/usr/bin/env python3
"""Checks stimuli that are wrong, or are right at an edge, through `./secv sim`: line ends, lines and whole stimuli at their limit and one
byte past it, values at a signal's width and past it, starts, headers, an input that is no file, and outputs that are closed or full.
Each wanted text is worked out here from docs/formats.md. The last line is 'N passed, M failed'.
"""
import os
import subprocess

from harness import SECV, call, compare, finish, limits, put

MOST_LINE = 1048576
MOST_BYTES = 1073741824
MOST_SECONDS = 20
MOST_MEGABYTES = 256
# A register with two inputs, a design without inputs, and one of 64 bits.
SUM = b"module m(input clk, input en, input [3:0] d, output reg [3:0] q);\n  always @(posedge clk) if (en) q <= q + d;\nendmodule\n"
NONE = b"module m(output y); assign y = 1; endmodule\n"
WIDE = b"module m(input clk, input [63:0] a, output reg [63:0] r); always @(posedge clk) r <= a; endmodule\n"
HEADER = b"inputs en d\n"
FULL = b"secv: the output could not be written: No space left on device (os error 28)\n"
CLOSED = b"secv: the output could not be written: Bad file descriptor (os error 9)\n"
UNREAD = b"secv: the output could not be written: Broken pipe (os error 32)\n"


def simulate(folder, design, given, words=(), **streams):
    """What the program does on the stimulus, in little time and memory."""
    put(folder, "text.v", design)
    return call(folder, ["sim", "text.v", *words], given, limits(MOST_MEGABYTES), MOST_SECONDS, **streams)


def ends(folder, what, design, given, trace, fault="", words=()):
    """Sees that the stimulus has this trace, and then is refused where a line and a kind are given."""
    wanted = trace + (f"refused stimulus input {fault}\n".encode() if fault else b"")
    answer = simulate(folder, design, given, words)
    compare(f"{what}: {given[:60]!r}", (answer.stdout, answer.returncode), (wanted, 1 if fault else 0))


def line_ends(folder):
    """A carriage return belongs to its line; the last line feed may lack, but not that of an empty last line."""
    for given, fault in ((b"inputs en d\r\n1 3\r\n", "1 header"), (HEADER + b"1 3\r\n", "2 value"), (b"start q 9\r\n" + HEADER, "1 value"),
                         (b"start q\r\n" + HEADER, "1 name"), (b"\r\n" + HEADER, "1 header"), (HEADER + b"\r\n", "2 value"),
                         (b"inputs en d\r1 3\r", "1 header"), (HEADER + b"1 3\x0b", "2 value")):
        ends(folder, "carriage returns", SUM, given, b"", fault)
    ends(folder, "a carriage return after a cycle", SUM, HEADER + b"1 3\n1 1\r\n1 1\n", b"0 en=1 d=3 q=0\n", "3 value")
    ends(folder, "carriage returns without inputs", NONE, b"inputs\r\n", b"", "1 header")
    ends(folder, "an empty line with a carriage return", NONE, b"inputs\n\n\r\n", b"0 y=1\n", "3 value")
    ends(folder, "no last line feed", SUM, HEADER + b"1 3\n0 0", b"0 en=1 d=3 q=0\n1 en=0 d=0 q=3\n")
    ends(folder, "a wrong last line without a line feed", SUM, HEADER + b"1 3\n0", b"0 en=1 d=3 q=0\n", "3 value")
    ends(folder, "a header alone without a line feed", SUM, HEADER[:-1], b"")
    ends(folder, "no cycle of an empty last line", NONE, b"inputs\n\n\n", b"0 y=1\n1 y=1\n")
    ends(folder, "no cycle", NONE, b"inputs", b"")


def long_lines(folder):
    """Lines of as many bytes as may be, and of one more, before the header, in a start, behind the header, and with or without an end."""
    for front, before, number, kind in ((b"", b"x", 1, "header"), (b"", b"start ", 1, "name"), (b"", b"start q ", 1, "value"),
                                        (b"start q 1\n", b"inputs en d", 2, "header"), (HEADER, b"", 2, "value"), (HEADER, b"1 3 ", 2, "value")):
        for more in (0, 1):
            for end in (b"", b"\n", b"\n1 3\n"):
                line = before + b"0" * (MOST_LINE + more - len(before))
                ends(folder, f"a line of {len(line)} bytes, {end!r} after it", SUM, front + line + end, b"", f"{number} {'too-long' if more else kind}")
    line = b"1" * (MOST_LINE + 1)
    ends(folder, "a line too long after a cycle", SUM, HEADER + b"1 3\n" + line, b"0 en=1 d=3 q=0\n", "3 too-long")
    ends(folder, "a line too long in drawn orders", SUM, HEADER + b"1 3\n" + line, b"0 en=1 d=3 q=0\n", "3 too-long", ("--order", "7"))
    name = b"a" * (MOST_LINE - 100)
    ends(folder, "a name of nearly a megabyte", b"module m(input " + name + b"); endmodule\n", b"inputs " + name + b"\n1\n", b"0 " + name + b"=1\n")


def values(folder):
    """Values at the width of their signal and past it, and what is no value."""
    for given, trace in ((b"ffffffffffffffff", b"ffffffffffffffff"), (b"FFFFFFFFFFFFFFFF", b"ffffffffffffffff"), (b"8000000000000000", b"8000000000000000"),
                         (b"000000000000000f", b"f"), (b"0000000000000000", b"0"), (b"aBc", b"abc")):
        ends(folder, "64 bits", WIDE, b"start r " + given + b"\ninputs a\n" + given + b"\n", b"0 a=" + trace + b" r=" + trace + b"\n")
    for given in (b"10000000000000000", b"00000000000000001", b"0x1", b"1h", b"g", b"G", b"-1", b"+1", b"1_0", b"", b"1\0", b"\xc2\xb9", b"1,", b"1 1"):
        ends(folder, "no value of 64 bits", WIDE, b"inputs a\n1\n" + given + b"\n", b"0 a=1 r=0\n", "3 value")
        ends(folder, "no start of 64 bits", WIDE, b"start r " + given + b"\ninputs a\n", b"", "1 value")
    for given in (b"2 3", b"1 10", b"ffffffffffffffff 0", b"1", b"1 3 0", b"1 3 ", b" 1 3", b"1  3", b"1\t3", b"1,3", b"", b" ", b"en=1 d=3", b"inputs en d", b"start q 1"):
        ends(folder, "no cycle", SUM, HEADER + b"0 f\n" + given + b"\n1 1\n", b"0 en=0 d=f q=0\n", "3 value")
    ends(folder, "a bit with zeros", SUM, HEADER + b"01 0000000000000003\n", b"0 en=1 d=3 q=0\n")
    for given in (b" ", b"0", b"inputs"):
        ends(folder, "a line without inputs", NONE, b"inputs\n\n" + given + b"\n", b"0 y=1\n", "3 value")


def starts(folder):
    """Starts that are repeated, of no register, too wide or out of form; the name is asked before the value."""
    for given, fault in ((b"start q 1\nstart q 1\n", "2 name"), (b"start q 1\nstart q 10\n", "2 name"), (b"start q 1\nstart q\n", "2 name"),
                         (b"start r 1\n", "1 name"), (b"start r zz\n", "1 name"), (b"start d 1\n", "1 name"), (b"start clk 1\n", "1 name"),
                         (b"start Q 1\n", "1 name"), (b"start m.q 1\n", "1 name"), (b"start  q 1\n", "1 name"), (b"start \n", "1 name"),
                         (b"start q 10\n", "1 value"), (b"start q\n", "1 value"), (b"start q \n", "1 value"), (b"start q  1\n", "1 value"),
                         (b"start q 1 \n", "1 value"), (b"start q 1 1\n", "1 value"), (b"start\n", "1 header"), (b"start\tq 1\n", "1 header"),
                         (b"Start q 1\n", "1 header"), (b" start q 1\n", "1 header")):
        ends(folder, "starts", SUM, given + HEADER + b"1 3\n", b"", fault)
    ends(folder, "a start", SUM, b"start q F\n" + HEADER + b"1 3\n0 0\n", b"0 en=1 d=3 q=f\n1 en=0 d=0 q=2\n")
    ends(folder, "a start where there is no register", NONE, b"start y 1\ninputs\n", b"", "1 name")


def headers(folder):
    """Headers that lack, stand too late, or have other bytes in them or after them."""
    for given, fault in ((b"", "1 header"), (b"\n", "1 header"), (b"start q 1", "2 header"), (b"start q 1\n", "2 header"), (b"start q 1\n\n", "2 header"),
                         (b"1 3\n", "1 header"), (b"start q 1\n1 3\n" + HEADER, "2 header"), (b"\n" + HEADER, "1 header")):
        ends(folder, "no header", SUM, given, b"", fault)
    for line in (b"inputs", b"inputs ", b"inputs en", b"inputs d en", b"inputs en d ", b"inputs en d q", b"inputs en d\t", b"inputs en d\0", b"inputs  en d",
                 b"inputs en  d", b"inputs\ten d", b" inputs en d", b"Inputs en d", b"inputs en,d", b"inputs clk en d", b"input en d", b"inputs en d // all",
                 b"\xef\xbb\xbfinputs en d", b"inputs en d\xff"):
        ends(folder, "another header", SUM, line + b"\n1 3\n", b"", "1 header")
        ends(folder, "another header at the end", SUM, b"start q 1\n" + line, b"", "2 header")
    for line in (b"inputs ", b"inputs y", b"inputs\0"):
        ends(folder, "another header without inputs", NONE, line + b"\n\n", b"", "1 header")
    ends(folder, "bytes behind the stimulus", SUM, HEADER + b"1 3\n\n", b"0 en=1 d=3 q=0\n", "3 value")


def outputs(folder):
    """Outputs that are closed, full or no longer read, for a trace, for a refusal and for a trace of many writes; one that is not written to does not fail."""
    many = HEADER + b"1 1\n" * 20000
    for what, given, words, status in (("a trace", HEADER + b"1 3\n", (), 5), ("a refusal", b"start q 10\n", (), 5), ("rounds", HEADER, ("--order", "1"), 5),
                                       ("no level", HEADER, ("--level", "Q"), 5), ("many lines", many, (), 5), ("nothing", HEADER, (), 0)):
        with open("/dev/full", "wb") as full:
            answer = simulate(folder, SUM, given, words, stdout=full)
        compare(f"{what} to a full device", (answer.stderr, answer.returncode), (FULL if status else b"", status))
        answer = simulate(folder, SUM, given, words, stdout=None, preexec_fn=lambda: os.close(1))
        compare(f"{what} to a closed output", (answer.stderr, answer.returncode), (CLOSED if status else b"", status))
        reading, writing = os.pipe()
        os.close(reading)
        answer = simulate(folder, SUM, given, words, stdout=writing)
        os.close(writing)
        compare(f"{what} to a pipe that nobody reads", (answer.stderr, answer.returncode), (UNREAD if status else b"", status))
    answer = simulate(folder, SUM, many)
    lines = b"".join(b"%d en=1 d=1 q=%x\n" % (cycle, cycle % 16) for cycle in range(20000))
    compare("the same to an open output", (answer.stdout, answer.stderr, answer.returncode), (lines, b"", 0))


def most_bytes(folder):
    """A stimulus of as many bytes as may be, and one of a byte more: then the line with that byte, its line feed, is not read."""
    count = 4000
    names = [f"a{i}" for i in range(count)]
    told = os.path.join(folder, "told")
    put(folder, "many.v", "module m(" + "".join(f"input {{H}} {name}, " for name in names) + "output y); assign y = 1; endmodule\n")
    header, line = f"inputs {' '.join(names)}\n".encode(), b" ".join([b"0" * 16] * count) + b"\n"
    lines, rest = divmod(MOST_BYTES - len(header), len(line))
    digits, more = divmod(rest - (count - 1), count)
    last = b" ".join(b"0" * (digits + (i < more)) for i in range(count))
    bounded = ["sh", "-c", f'{limits(MOST_MEGABYTES)}; exec "$@"', "sh"]
    for end in (b"", b"\n"):
        with open(told, "wb") as out:
            program = subprocess.Popen([*bounded, SECV, "sim", "many.v", "--level", "L"], cwd=folder, stdin=subprocess.PIPE, stdout=out)
            try:
                for piece in (header, *[line] * lines, last + end):
                    program.stdin.write(piece)
                program.stdin.close()
            except BrokenPipeError:
                pass
            status = program.wait()
        with open(told, "rb") as out:
            got = out.read()
        trace = b"".join(b"%d y=1\n" % cycle for cycle in range(lines if end else lines + 1))
        wanted = trace + b"refused 704 stimulus-size\n" * len(end)
        compare(f"{MOST_BYTES + len(end)} bytes", (got[-60:], got == wanted, status), (wanted[-60:], True, len(end)))


def inputs(folder):
    """A folder can be opened as the input, but not read."""
    folder_read = os.open(folder, os.O_RDONLY)
    answer = simulate(folder, SUM, b"", stdin=folder_read)
    os.close(folder_read)
    compare("a folder as the input", (answer.stdout, answer.stderr, answer.returncode), (b"", b"secv: the input could not be read: Is a directory (os error 21)\n", 4))
    with open("/dev/null", "rb") as empty:
        answer = simulate(folder, SUM, b"", stdin=empty)
    compare("an empty device as the input", (answer.stdout, answer.returncode), (b"refused stimulus input 1 header\n", 1))


if __name__ == "__main__":
    finish([line_ends, long_lines, values, starts, headers, most_bytes, inputs, outputs])
