#!/usr/bin/env python3
"""Runs what a user runs, through ./secv, and compares whole outputs and statuses with what stands in the repository.

Every design of examples/ against the .out file beside it, and its obligations against the .list file where one is, every command that README.md shows
with its output, and the answers to wrong words, missing files and failing outputs. The last line is 'N passed, M failed'.
"""
import itertools
import os
import re
import subprocess

from harness import SECV, STATUS, TOP, call, compare, documented, explained, finish, put

# Texts that break a rule on tokens or on the grammar, as docs/language.md shows them.
SYNTAX = [(b"module m; \x80", b"refused 101 bad-byte 1:11\n"), (b"8'q1", b"refused 101 bad-byte 1:2\n"), (b"a $ b", b"refused 101 bad-byte 1:3\n"),
          (b"4294967296", b"refused 102 bad-number 1:1\n"), (b"12a", b"refused 102 bad-number 1:1\n"), (b"65'h0", b"refused 102 bad-number 1:1\n"),
          (b"8'h_1", b"refused 102 bad-number 1:1\n"), (b"8'b2", b"refused 102 bad-number 1:1\n"),
          (b"module m; /*/ endmodule", b"refused 103 open-comment 1:11\n"),
          (b"\\a ", b"refused 104 unsupported 1:1 escaped-name\n"), (b'"a"', b"refused 104 unsupported 1:1 string\n"),
          (b"$time", b"refused 104 unsupported 1:1 system-name\n"), (b"`define A 1", b"refused 104 unsupported 1:1 directive\n"),
          (b"1.5", b"refused 104 unsupported 1:1 real\n"), (b"4'b1x", b"refused 104 unsupported 1:1 four-state\n"),
          (b"a === b", b"refused 104 unsupported 1:3 case-equality\n"), (b"a ** b", b"refused 104 unsupported 1:3 power\n"),
          (b"a[1+:1]", b"refused 104 unsupported 1:4 indexed-part\n"), (b"a -> b", b"refused 104 unsupported 1:3 event\n"),
          (b"", b"refused 201 unexpected 1:1\n"), (b"module m; endmodule end", b"refused 201 unexpected 1:21\n"),
          (b"module m(a, b); endmodule", b"refused 202 unsupported 1:10 header-names\n"), (b"module m(inout a); endmodule", b"refused 202 unsupported 1:10 inout\n"),
          (b"module m(input a, output y); assign y = " + b"-" * 65 + b"a; endmodule", b"refused 203 too-deep 1:105\n"),
          (b"module m(input a, output y); assign y = " + b"a+" * 512 + b"a; endmodule", b"refused 204 too-long 1:1065\n")]
HELP = b"""secv checks designs in SecVerilog: Verilog in which every signal has a security label.

usage:
  secv check FILE [--proof NAME] [--budget NUMBER] [--json] [--top MODULE]
                                    say whether the labels of a design keep every secret
  secv verify FILE PROOF [--top MODULE]
                                    say whether a certificate proves a design to keep every secret
  secv list FILE [--top MODULE]     list the obligations of a design, a line each
  secv cnf FILE NUMBER [--top MODULE]
                                    print the clauses of one obligation of a design, as DIMACS
  secv sim FILE [--level POINT] [--order NUMBER] [--top MODULE]
                                    simulate a design on the stimulus of standard input
  secv compare FILE A B --level POINT [--top MODULE]
                                    run a design on two stimuli and tell the first difference
                                    that a level sees
  secv gen LANES [--check]          print a sample design of 1 to 200 lanes, or check it
  secv COMMAND --help               say more of one command
  secv --help                       print this text
  secv --version                    print the version

exit status: 0 accepted, printed or equal, 1 refused or two runs differ,
             2 wrong words, 3 unknown within the budget,
             4 unreadable file or input, 5 unwritable output or certificate,
             6 out of memory
"""
CNF_HELP = b"""Print the clauses of one obligation of a design, as DIMACS

Usage: secv cnf [OPTIONS] <FILE> <NUMBER>

Arguments:
  <FILE>    The file of the design
  <NUMBER>  The number of the obligation, from 1

Options:
      --top <MODULE>  The module to take as the top
"""
CHECK_HELP = b"""Say whether the labels of a design keep every secret

Usage: secv check [OPTIONS] <FILE>

Arguments:
  <FILE>  The file of the design

Options:
      --proof <NAME>     Store the certificate of an accepted design in this file
      --budget <NUMBER>  Learn at most this many clauses for each obligation, 20000 unless given
      --top <MODULE>     The module to take as the top
      --json             Print the verdict as JSON, on one line
"""
VERIFY_HELP = b"""Say whether a certificate proves that the labels of a design keep every secret

Usage: secv verify [OPTIONS] <FILE> <PROOF>

Arguments:
  <FILE>   The file of the design
  <PROOF>  The file of the certificate

Options:
      --top <MODULE>  The module to take as the top
"""
LIST_HELP = b"""List the obligations of a design, one a line

Usage: secv list [OPTIONS] <FILE>

Arguments:
  <FILE>  The file of the design

Options:
      --top <MODULE>  The module to take as the top
"""
SIM_HELP = b"""Simulate a design on the inputs that standard input gives, cycle by cycle

Usage: secv sim [OPTIONS] <FILE>

Arguments:
  <FILE>  The file of the design

Options:
      --level <POINT>   Show only the signals whose labels flow to this point
      --order <NUMBER>  Run the processes in the order of this number
      --top <MODULE>    The module to take as the top
"""
COMPARE_HELP = b"""Run a design on two stimuli and tell the first difference that a level sees

Usage: secv compare [OPTIONS] --level <POINT> <FILE> <A> <B>

Arguments:
  <FILE>  The file of the design
  <A>     The file of the first stimulus
  <B>     The file of the second stimulus

Options:
      --level <POINT>  Compare only the signals whose labels flow to this point
      --top <MODULE>   The module to take as the top
"""
GEN_HELP = b"""Print a sample design of so many lanes, or check it

Usage: secv gen [OPTIONS] <LANES>

Arguments:
  <LANES>  The number of lanes, 1 to 200

Options:
      --check  Print the verdict on the design, and not the design
"""
HELPS = {"check": CHECK_HELP, "verify": VERIFY_HELP, "list": LIST_HELP, "cnf": CNF_HELP, "sim": SIM_HELP, "compare": COMPARE_HELP, "gen": GEN_HELP}
# The words that a command takes behind its name.
WORDS = {"check": "FILE [--proof NAME] [--budget NUMBER] [--json] [--top MODULE]", "verify": "FILE PROOF [--top MODULE]", "list": "FILE [--top MODULE]",
         "cnf": "FILE NUMBER [--top MODULE]", "sim": "FILE [--level POINT] [--order NUMBER] [--top MODULE]",
         "compare": "FILE A B --level POINT [--top MODULE]", "gen": "LANES [--check]"}
# Words that a command does not take.
WRONG = [["check"], ["check", "--f"], ["check", "f", "g"], ["check", "f", "--top"], ["check", "--top", "a", "f", "--top", "b"], ["check", "f", "--help"],
         ["check", "-h"], ["check", "f", "--budget", "0"], ["check", "f", "--budget", "4000000001"], ["check", "f", "--budget=-0"], ["check", "f", "--budget="],
         ["check", "f", "--budget", "5", "--budget", "6"], ["check", "f", "--proof"], ["check", "f", "--json", "--json"], ["check", "f", "--json="],
         ["check", "f", "--json", "g"], ["check", "f", "--check"], ["check", "--json"], ["list", "f", "--json"], ["verify", "f", "g", "--json"], ["verify"], ["verify", "f"],
         ["verify", "f", "g", "h"], ["verify", "f", "--proof", "g"], ["verify", "f", "g", "--budget", "5"], ["list"], ["cnf", "f"], ["cnf", "f", "1", "2"],
         ["cnf", "f", "x"], ["cnf", "f", "-0"], ["cnf", "--", "f", "-1"], ["cnf", "f", "4294967296"], ["sim", "f", "--order", "18446744073709551616"],
         ["compare"], ["compare", "f", "g", "h"], ["compare", "f", "g", "--level", "L"], ["compare", "f", "g", "h", "i", "--level", "L"],
         ["compare", "f", "g", "h", "--level"], ["compare", "f", "g", "h", "--level", "L", "--order", "1"], ["compare", "f", "g", "h", "--level", "L", "--check"],
         ["compare", "-h"], ["gen"], ["gen", "x"], ["gen", "1", "2"], ["gen", "-1"], ["gen", "4294967296"], ["gen", "1", "--check", "--check"], ["gen", "1", "--check=1"],
         ["gen", "1", "--json"], ["gen", "1", "--top", "top"], ["gen", "-h"]]
# What README says is not built: a memory, an invariant and a released value.
NOT_BUILT = [("module m(input clk, input d); reg s [1:0]; always @(posedge clk) s[0] <= d; endmodule", "199 not-built"),
             ("module m(input a, output y); invariant a; assign y = a; endmodule", "199 not-built"),
             ("module m(input {H} a, output y); assign y = $release(a, L); endmodule", "199 not-built")]
# A comparison one of whose files is `?`.
DESIGN, STIMULUS = "examples/multiplier_leak.v", "examples/multiplier_short.stim"
COMPARED = [["compare", "?", STIMULUS, STIMULUS, "--level", "L"], ["compare", DESIGN, "?", STIMULUS, "--level", "L"], ["compare", DESIGN, STIMULUS, "?", "--level", "L"],
            ["compare", DESIGN, "?", "none.stim", "--level", "L"]]
USAGE = "; usage: secv COMMAND FILE [OPTIONS] (`secv --help` says more)"
FULL = "secv: the output could not be written: No space left on device (os error 28)\n"
CLOSED = "secv: the output could not be written: Bad file descriptor (os error 9)\n"
# Texts, the option that `list` gets, and what it prints. A case of 256 arms, with 16 paths each and one more in the last, has a path too many.
MANY = "module m(input [7:0] s, input [15:0] t, output reg y); always @* case (s) " + "".join(
    f"{arm}: y = {''.join(f't[{bit}] ? 1 : ' for bit in range(15))}{'t[15] ? 1 : 0' if arm == 255 else '0'}; " for arm in range(256)) + "endcase endmodule\n"
# 64 bits, for each of which 1,024 nodes are put into the path: 65,536 in all.
LARGE = "module m(input a, output reg [63:0] y);\n  always @* begin\n" + "".join(
    f"    y[{bit}] = -a{'^a' * 511};\n" for bit in range(64)) + "  end\nendmodule\n"
BOTH = "module m(input {H} h, input a, output reg y);\n  always @* begin\n    y = a;\n    if (h) y = a;\n  end\nendmodule\n"
REPLACED = """module m(input [3:0] a, input [3:0] b, output reg [3:0] s, output reg c, output reg [3:0] p);
  always @* {c, s} = a + b;
  always @* begin p[1:0] = a[1:0]; p[3:2] = b[3:2]; end
endmodule
"""
SELECTED = """labelmap Dom [0:0] 0: L; default: H; endlabelmap
labelmap Two [0:0] [0:0] 0, 0: L; default: H; endlabelmap
module m(input p, input {Dom(p)} q, input {Two(p, q)} d, output {H} y);
  assign y = d;
endmodule
"""
LISTS = [("module m(output y); endmodule", [], "refused 604 undriven 1:17 y\n"), ("module m(output y); endmodule", ["--top", "n"], "refused 310 no-top 1:1\n"),
         ("module m(input a, output y); assign y = a; endmodule", ["--top", "m"], "1 y now =1:37 reads a\n"), ("module m; endmodule", [], ""),
         ("module m(input a, output y); invariant a; assign y = a; endmodule", [], "refused 199 not-built 1:1\n"), (MANY, [], "refused 702 paths y\n"),
         (LARGE, [], "1 y now =66:5 reads a\n"), (LARGE.replace("  end\n", "    y[0] = a;\n  end\n"), [], "refused 712 obligation-size y\n"),
         (BOTH, [], "1 y now +4:5 =4:12 reads h a\n2 y now -4:5 =3:5 reads h a\n"),
         (REPLACED, [], "1 s now =2:17 reads a b\n2 c now =2:14 reads a b\n3 p now =3:36 reads a b\n"),
         (SELECTED, [], "1 y now =4:10 reads d\n2 d now selector reads q\n"),
         (SELECTED.replace("{Dom(p)} q", "{H} q"), [], "1 y now =4:10 reads d\n2 d now selector reads q\n"),
         (SELECTED.replace("{Dom(p)} q", "q"), [], "1 y now =4:10 reads d\n")]
# Lines of values that are 0, one behind the other.
ZEROS = re.compile(rb"(?:^(?:reg|in|next) \S+ 0\n)+", re.M)


def ended(answer):
    """What was written, and the status."""
    return answer.stdout, answer.returncode


def shown_of(folder, name, answer, place=None):
    """What is to be said of what was printed of the text in a file; nothing of a list."""
    told = answer.stdout.decode().split()
    if told[:1] != ["refused"]:
        return ""
    return explained(name, place or told[3], read(folder, name), answer.stderr.decode())


def status_of(text):
    """The status that goes with what is written."""
    return STATUS.get(text.split(b" ")[0].strip().decode(), 0)


def read(*path):
    with open(os.path.join(*path), "rb") as file:
        return file.read()


def examples(_):
    for name in sorted(os.listdir(os.path.join(TOP, "examples"))):
        design, _, ending = name.rpartition(".")
        if ending == "v":
            wanted = read(TOP, "examples", f"{design}.out")
            answer = call(TOP, ["check", f"examples/{name}"])
            compare(f"secv check examples/{name}", ended(answer), (wanted, status_of(wanted)))
        elif ending == "list":
            answer = call(TOP, ["list", f"examples/{design}.v"])
            compare(f"secv list examples/{design}.v", ended(answer), (read(TOP, "examples", name), 0))


def shown_in_readme(folder):
    """The commands of README's console blocks: a line '$ ./secv WORDS', and the lines up to the next one or the block's end, which stand on standard output
    and then on standard error; `...` stands for values that are 0. No other line begins with '$ '."""
    text = read(TOP, "README.md").decode()
    # where a certificate may be stored
    os.symlink(os.path.join(TOP, "examples"), os.path.join(folder, "examples"))
    blocks = re.findall(r"^```console\n(.*?)^```$", text, re.M | re.S)
    commands = [shown for block in blocks for shown in re.findall(r"^\$ \./secv ([^\n]*)\n((?:[^$\n][^\n]*\n)*)", block, re.M)]
    for words, wanted in commands:
        answer = call(folder, words)
        told = answer.stdout + answer.stderr
        if "\n...\n" in wanted:
            told = ZEROS.sub(b"...\n", told)
        compare(f"README: secv {words}", (told, answer.returncode), (wanted.encode(), status_of(wanted.encode())))
    compare("README shows commands, and all were run", (commands != [], len(re.findall(r"^\$ ", text, re.M))), (True, len(commands)))


def told_in_readme(folder):
    """What README says is not built, its table with the words of every command, its designs, and the kit that it names."""
    text = read(TOP, "README.md").decode()
    for design, rule in NOT_BUILT:
        put(folder, "text.v", design)
        told = call(folder, "check text.v").stdout
        compare(f"README tells of {design}", (told.startswith(f"refused {rule} ".encode()), f"`{rule}`" in text), (True, True))
    table = set(re.findall(r"^\| `secv ([a-z]+) ([^`]*)` \|", text, re.M))
    compare("README has the words of each command", table, {(word, words.removesuffix(" [--top MODULE]")) for word, words in WORDS.items()})
    designs = {read(TOP, "examples", name).decode() for name in os.listdir(os.path.join(TOP, "examples")) if name.endswith(".v")}
    for block in re.findall(r"^```verilog\n(.*?)^```$", text, re.M | re.S):
        compare(f"README shows a design of examples/, or lines of one: {block[:60]}", any(f"\n{block}" in f"\n{design}" for design in designs), True)
    kit = subprocess.run(["rt", "version"], stdout=subprocess.PIPE, check=False).stdout.decode().strip()
    compare("README names the kit", f"prints `{kit}`" in text.replace("\n", " "), True)


def help_texts(folder):
    for words, text in [("--help", HELP), ("-h", HELP), ("--version", b"secv 0.1.0\n"), *((f"{word} --help", text) for word, text in HELPS.items())]:
        answer = call(folder, words)
        compare(words, (*ended(answer), answer.stderr), (text, 0, b""))


def wrong_words(folder):
    for words, kind, said in [([], "no-command", "no command is given" + USAGE),
                              (["chekc", "f"], "unknown-command", "there is no command chekc; `secv --help` shows all"),
                              (["a\x1b[2Jb\n"], "unknown-command", "there is no command a\\u{1b}[2Jb\\n; `secv --help` shows all"),
                              (["--help", "more"], "unknown-command", "there is no command --help; `secv --help` shows all"),
                              (["-h", "more"], "unknown-command", "there is no command -h; `secv --help` shows all"),
                              (["-H"], "unknown-command", "there is no command -H; `secv --help` shows all"),
                              (["-h", "-h"], "unknown-command", "there is no command -h; `secv --help` shows all"),
                              *((words, "words", f"`{words[0]}` does not take these words; usage: secv {words[0]} {WORDS[words[0]]} (`secv {words[0]} --help` says more)")
                                for words in WRONG), ([b"\xff"], "words", "an argument is not UTF-8" + USAGE)]:
        answer = call(folder, words)
        compare(f"words {words}", ended(answer), (f"usage {kind}\n".encode(), 2))
        compare(f"words {words} are explained", answer.stderr.decode(), f"secv: {said}\n")


def asked_of(path):
    """The answers to words that name this file, each with its words."""
    for words in (["check", "?"], *COMPARED):
        yield words, call(TOP, [path if word == "?" else word for word in words])


def wrong_files(folder):
    for name, path, cause in [("a missing file", os.path.join(folder, "none.v"), "No such file or directory (os error 2)"),
                              ("a directory", folder, "Is a directory (os error 21)")]:
        for words, answer in asked_of(path):
            compare(f"{name}, {words}", ended(answer), (b"", 4))
            compare(f"{name} is explained, {words}", answer.stderr.decode(), f"secv: {path}: {cause}\n")


def odd_names(folder):
    """A name that would move a terminal's cursor is escaped, where there is no such file and where its text breaks a rule."""
    for name, escaped in [("no\nne.v", "no\\nne.v"), ("no\x1b[2Jne\r\x7f.v", "no\\u{1b}[2Jne\\r\\u{7f}.v")]:
        for words, answer in asked_of(os.path.join(folder, name)):
            said = f"secv: {folder}/{escaped}: No such file or directory (os error 2)\n"
            compare(f"a name with control characters is escaped, {words}", answer.stderr.decode(), said)
        put(folder, name, "")
        answer = call(folder, ["check", name])
        compare("so it is of a broken rule", answer.stderr.decode(), f"{escaped}:1:1: there is no module in this text\n")


def wrong_texts(folder):
    put(folder, "text.v", "module m(input a, output y); invariant a; assign y = a; endmodule\n")
    for words in ("check text.v", "verify text.v none", "list text.v", "cnf text.v 1", "sim text.v", "compare text.v none none --level L"):
        answer = call(folder, words)
        compare(f"an invariant, {words}", ended(answer), (b"refused 199 not-built 1:1\n", 1))
        compare(f"it is explained, {words}", answer.stderr.decode(), shown_of(folder, "text.v", answer, "1:40"))
    for text, wanted in SYNTAX:
        put(folder, "text.v", text)
        answer = call(folder, "check text.v")
        compare(f"a text {text!r}", ended(answer), (wanted, 1))
        compare(f"it is explained, {text!r}", answer.stderr.decode(), shown_of(folder, "text.v", answer))


def failing_outputs(_):
    for words in ("check examples/and.v", "--help", "-h"):
        with open("/dev/full", "wb") as full:
            answer = call(TOP, words, stdout=full)
        compare(f"a full device, {words}", answer.returncode, 5)
        compare(f"a full device is explained, {words}", answer.stderr.decode(), FULL)
        answer = call(TOP, words, stdout=None, preexec_fn=lambda: os.close(1))
        compare(f"a closed output, {words}", answer.returncode, 5)
        compare(f"a closed output is explained, {words}", answer.stderr.decode(), CLOSED)


def failing_errors(_):
    for words, wanted in [(["check", "examples/leak.v"], (b"refused flow 1 y from k\nin k 0\n", 1)), (["check"], (b"usage words\n", 2)),
                          (["check", "examples/unknown_value.v"], (b"refused 104 unsupported 3:34 four-state\n", 1)),
                          (["check", "none.v"], (b"", 4)), ([b"\xff"], (b"usage words\n", 2)), (["sim", "examples/owner.v"], (b"refused stimulus input 1 header\n", 1))]:
        compare(f"a closed standard error, {words}", ended(call(TOP, words, stderr=None, preexec_fn=lambda: os.close(2))), wanted)
        with open("/dev/full", "wb") as full:
            compare(f"a full standard error, {words}", ended(call(TOP, words, stderr=full)), wanted)
            compare(f"both full, {words}", call(TOP, words, stdout=full, stderr=full).returncode, 5 if wanted[0] else wanted[1])


def compare_lines(what, answer, lines):
    """Compares a list of obligations whole, which are numbered from 1; of one that differs only the first wrong line is shown."""
    got = answer.stdout.decode(errors="replace").split("\n")
    wanted = [*(f"{number} {line}" for number, line in enumerate(lines, 1)), ""]
    differs = next((pair for pair in itertools.zip_longest(got, wanted) if pair[0] != pair[1]), (None, None))
    compare(what, (differs[0], answer.returncode), (differs[1], 0))


def lines_of_many(text):
    """The lines of MANY, a path short: an arm stands behind the arms before it, and the choices in its value are asked one after the other."""
    lines, before = [], ""
    arms = list(re.finditer(r"(\d+): y = ([^;]*);", text))
    for arm in arms:
        conditions = before if arm is arms[-1] else f"{before} +1:{arm.start() + 1}"
        end = f"=1:{arm.start() + len(arm.group(1)) + 3} reads s t"
        for column in [arm.start(2) + at.start() + 1 for at in re.finditer(r"\?", arm.group(2))]:
            lines.append(f"y now{conditions} +1:{column} {end}")
            conditions += f" -1:{column}"
        lines.append(f"y now{conditions} {end}")
        before += f" -1:{arm.start() + 1}"
    return lines


def lines_of_nested(text):
    """The lines of a case of cases: an arm stands behind the arms before it, and the last arm of a whole case is sure."""
    lines, outer = [], ""
    rows = text.split("\n")[2:-3]
    for number, row in enumerate(rows, 3):
        own, inner = "" if row is rows[-1] else f" +{number}:1", ""
        arms = list(re.finditer(r"(\d+): y =", row))
        for arm in arms:
            way = "" if arm is arms[-1] else f" +{number}:{arm.start() + 1}"
            lines.append(f"y now{outer}{own}{inner}{way} ={number}:{arm.end() - 2} reads a b c")
            inner += f" -{number}:{arm.start() + 1}"
        outer += f" -{number}:1"
    return lines


def text_of_targets(wires):
    """16 registers of 4,095 paths each, and so many wires of one."""
    ports = "".join(f", output reg y{i}" for i in range(16)) + "".join(f", output z{i}" for i in range(wires))
    blocks = "".join("  always @(posedge clk) begin\n" + "".join(f"    if (s[{k}]) begin if (s[0]) y{i} <= 0; end\n" for k in range(11)) + "  end\n"
                     for i in range(16))
    return f"module m(input clk, input [11:0] s{ports});\n{blocks}" + "".join(f"  assign z{i} = s[0];\n" for i in range(wires)) + "endmodule\n"


def with_selector(text):
    """The text with one more obligation behind all others: of the selector of the label of an input."""
    return "labelmap D [0:0] 0: L; default: H; endlabelmap " + text.replace("input clk,", "input clk, input {H} h, input {D(h)} g,", 1)


def nested(last):
    """A case of 256 arms, each a case of 16, with the right side of the very last arm."""
    arms = [f"{outer}: case (b) " + " ".join(f"{inner}: y = {last if (outer, inner) == (255, 15) else 'c'};" for inner in range(16)) + " endcase"
            for outer in range(256)]
    return "module m(input [7:0] a, input [3:0] b, input c, output reg y);\nalways @* case (a)\n" + "\n".join(arms) + "\nendcase\nendmodule\n"


def lines_of_targets(text):
    """The lines of these: an `if` ends a path where both conditions hold, and each other way through it goes on with every path of what stands before it."""
    paths, wires = {}, []
    for number, line in enumerate(text.split("\n"), 1):
        target = re.search(r"(\w+) <?= ", line)
        if not target:
            continue
        name, end = target.group(1), f"={number}:{target.start() + 1} reads s"
        if line.startswith("  assign"):
            wires.append(f"{name} now {end}")
            continue
        outer, inner = (f"{number}:{line.index('if', at) + 1}" for at in (0, 8))
        before = paths.get(name, [("", f"hold reads s {name}")])
        paths[name] = [(f" +{outer} +{inner}", end), *((f"{way} +{outer} -{inner}", how) for way, how in before),
                       *((f"{way} -{outer}", how) for way, how in before)]
    return [f"{name} next{way} {how}" for name, ways in paths.items() for way, how in ways] + wires


def lists(folder):
    for text, option, wanted in [*LISTS, (text_of_targets(17), [], "refused 703 obligations\n"),
                                 (with_selector(text_of_targets(16)), [], "refused 703 obligations\n"), (nested("c ? 1 : 0"), [], "refused 702 paths y\n")]:
        put(folder, "text.v", text)
        answer = call(folder, ["list", *option, "text.v"])
        compare(f"list {option} {text[:60]}", (answer.stdout.decode(), answer.returncode), (wanted, status_of(wanted.encode())))
        if wanted.startswith("refused 199 "):
            compare("it is explained", answer.stderr.decode(), shown_of(folder, "text.v", answer, "1:40"))
        elif ":" in wanted or not status_of(wanted.encode()):
            compare("it is explained", answer.stderr.decode(), shown_of(folder, "text.v", answer))


def long_lists(folder):
    for what, text, lines_of, count in [("65,536 obligations", text_of_targets(16), lines_of_targets, 65536),
                                        ("4,096 paths", MANY.replace("t[15] ? 1 : 0", "0"), lines_of_many, 4096),
                                        ("4,096 paths of a case of cases", nested("c"), lines_of_nested, 4096)]:
        put(folder, "text.v", text)
        lines = lines_of(text)
        compare(f"{what}, as many as may be", len(lines), count)
        compare_lines(f"{what} are listed", call(folder, "list text.v"), lines)
    is_told_to_be_full(folder, "list text.v")


def is_told_to_be_full(folder, words, given=b""):
    with open("/dev/full", "wb") as full:
        answer = call(folder, words, given, stdout=full)
    compare(f"{words} to a full device", (answer.stderr.decode(), answer.returncode), (FULL, 5))


def clauses(folder):
    """The example of docs/formats.md, and what stands in the way of clauses."""
    text = read(TOP, "docs", "formats.md").decode()
    design = re.search(r"^```verilog\n(.*?)^```$", text, re.M | re.S)[1]
    shown = re.findall(r"^```\n(.*?)^```$", text.partition("\n# Clauses of an obligation\n")[2], re.M | re.S)[1]
    for text, words, wanted in [(design, ["3"], shown), (design, ["--top=m", "1"], "p cnf 1 2\n1 0\n-1 0\n"), (design, ["--top", "n", "1"], "refused 310 no-top 1:1\n"),
                                *((design, [number], "refused 706 no-obligation\n") for number in ("0", "4", "4294967295")),
                                ("module m; endmodule", ["1"], "refused 706 no-obligation\n"), (SELECTED.replace("{Dom(p)} q", "{H} q"), ["3"], "refused 706 no-obligation\n"),
                                (MANY, ["0"], "refused 702 paths y\n"), (product_of(190), ["1"], "refused 709 encoding 1\n"),
                                (product_of(190), ["2"], "refused 709 encoding 2\n"), (product_of(190), ["3"], "refused 706 no-obligation\n")]:
        put(folder, "text.v", text)
        answer = call(folder, ["cnf", "text.v", *words])
        compare(f"cnf {words} {text[:60]}", (answer.stdout.decode(), answer.returncode), (wanted, status_of(wanted.encode())))
        compare("a person is told why not", answer.stderr != b"", status_of(wanted.encode()) != 0)


def many_clauses(folder):
    """Clauses that are written in many pieces."""
    put(folder, "text.v", product_of(2))
    compare("cnf of -0", ended(call(folder, "cnf -- text.v -0")), (b"refused 706 no-obligation\n", 1))
    first, *lines = call(folder, "cnf text.v 1").stdout.decode().split("\n")
    # 64 bits, 22,240 gates of a product and 63 of its bits; three clauses for a conjunction, four for an exclusive or
    compare("a text of many pieces", (first, len(lines), lines[0], lines[-2:]), (f"p cnf 22368 {len(lines) - 1}", 74977, "1 0", ["-1 0", ""]))
    compare("its clauses are whole", [line for line in lines[:-1] if not re.fullmatch(r"(-?[1-9][0-9]* ){1,3}0", line)], [])
    is_told_to_be_full(folder, "cnf text.v 1")


def product_of(factors):
    """A choice by a product of so many factors of 64 bits."""
    return f"module m(input [63:0] a, output y);\n  assign y = {'*'.join(['a'] * factors)} ? a[0] : a[1];\nendmodule\n"


def simulations(folder):
    """The examples of docs/formats.md, what stops a simulation, and what a user sees of it line by line."""
    shown = re.findall(r"^```(?:verilog)?\n(.*?)^```$", documented("Stimulus and trace"), re.M | re.S)
    design, stimulus, trace, public, refused, inverters, turned, ordered = shown
    wrong = stimulus.replace("0 F", "0 10")
    put(folder, "text.v", design)
    for words, given, wanted, status in [([], stimulus, trace, 0), (["--level", "L"], stimulus, public, 0), (["--level=H", "--top=m"], stimulus, trace, 0),
                                         (["--order", "7"], stimulus, trace + "rounds 3\n", 0), (["--order", "7"], "inputs en d\n", "rounds 0\n", 0),
                                         ([], wrong, trace.split("\n")[0] + "\n" + refused, 1), (["--level", "Q"], wrong, "refused 707 level\n", 1),
                                         ([], "start q 9\n", "refused stimulus input 2 header\n", 1), (["--top", "n"], wrong, "refused 310 no-top 1:1\n", 1)]:
        answer = call(folder, ["sim", "text.v", *words], given.encode())
        compare(f"sim {words} {given!r}", (answer.stdout.decode(), answer.returncode), (wanted, status))
        compare("a person is told why not", answer.stderr != b"", status != 0)
    put(folder, "other.v", inverters)
    answer = call(folder, "sim other.v --order 3", turned.encode())
    compare("sim of three inverters in an order", (*ended(answer), answer.stderr), (ordered.encode(), 0, b""))
    is_told_to_be_full(folder, "sim text.v", stimulus.encode())
    answer = call(folder, "sim text.v", preexec_fn=lambda: os.close(0))
    compare("sim without an input", (*ended(answer), answer.stderr), (b"", 4, b"secv: the input could not be read: Bad file descriptor (os error 9)\n"))
    program = subprocess.Popen([SECV, "sim", "text.v"], cwd=folder, stdin=subprocess.PIPE, stdout=subprocess.PIPE)
    program.stdin.write(b"inputs en d\n1 3\n")
    program.stdin.flush()
    compare("a cycle's line comes before the next one is read", program.stdout.readline(), b"0 en=1 d=3 q=0 s=0 n=1\n")
    program.stdin.close()
    compare("the end of the stimulus", (program.stdout.read(), program.wait()), (b"", 0))


def orders(folder):
    put(folder, "text.v", "module m(input a, output y); wire q; assign y = ~q; assign q = ~a; endmodule\n")
    for number, rounds in ((0, 2), (1, 1)):
        answer = call(folder, f"sim text.v --order {number}", b"inputs a\n0\n")
        compare(f"order {number}", ended(answer), (f"0 a=0 y=0 q=1\nrounds {rounds}\n".encode(), 0))


def rules(folder):
    """The texts of the tables of rules in docs/language.md, each with what is printed for it."""
    page = read(TOP, "docs", "language.md").decode()
    for title, least in (("Elaboration", 25), ("Admission", 7)):
        table = page.partition(f"## {title}")[2].partition("\n## ")[0]
        rows = re.findall(r"^\|[^|]*\|[^|]*\| `([^`|]+)` \| (?:`([^`|]+)`)? ?\| `([^`|]+)` \|$", table, re.M)
        compare(f"docs/language.md shows rules: {title}", len(rows) >= least, True)
        for text, option, wanted in rows:
            put(folder, "text.v", text.encode())
            answer = call(folder, ["check", *option.split(), "text.v"])
            compare(f"language.md: {text} {option}", ended(answer), (f"{wanted}\n".encode(), 1))
            compare(f"it is explained, {text}", answer.stderr.decode(), shown_of(folder, "text.v", answer))


if __name__ == "__main__":
    finish([examples, shown_in_readme, told_in_readme, help_texts, wrong_words, wrong_files, odd_names, wrong_texts, failing_outputs, failing_errors, lists,
            long_lists, clauses, many_clauses, simulations, orders, rules])
