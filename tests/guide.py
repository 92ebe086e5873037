#!/usr/bin/env python3
"""Does what the pages of docs/guide/ say, in the order of docs/guide.md and in one folder, and compares whole outputs, standard error among them: each
console block is run, each diff is made in the design of the five steps, each text marked `before` is refused as its last line says, `list` takes every
other one, and those that no command names are accepted. What it says in a sentence is tried too. The numbers of its table stand in the definitions, its
rules have the names that the program gives them, and what it gives to editors matches real messages. Then it looks at all pages: that none is long, that
lines of prose end at 120 columns, and that the files that they name are there. What needs minisat or GNU parallel is told as not run where that is not
installed. The last line is 'N passed, M failed'.
"""
import json
import os
import re
import shutil
import subprocess

from harness import MOST_SECONDS, TOP, compare, finish, leave_out, put, run, told

DESIGN = "dma.v"  # that of the five steps
MOST_BYTES, MOST_COLUMNS = 20000, 120
LONG_PAGES = {"docs/semantics.md": 30000}


def stored(*parts):
    with open(os.path.join(TOP, *parts), encoding="utf-8") as file:
        return file.read()


GUIDE_PAGES = re.findall(r"^\d\. \[\w+\]\((guide/\w+\.md)\)", stored("docs", "guide.md"), re.M)
GUIDE = "\n".join(stored("docs", page) for page in GUIDE_PAGES)
BLOCKS = re.findall(r"^```([^\n]+)\n(.*?)^```$", GUIDE, re.M | re.S)
# How a definition has each number of the table, which stands for @, in the table's order.
LIMITS = [
    ("sv_cli", "Texts", "largest_file = @"),
    ("sv_token", "Numerals", "nat_le 1 n && nat_le n @"),
    ("sv_token", "Numerals", "value_bound None = @"),
    ("sv_token", "Numerals", "value_bound (Some size) = @"),
    ("sv_ast", "GrammarRules", "all_limits = record { levels = Some @;"),
    ("sv_ast", "GrammarRules", "tokens = Some @;"),
    ("sv_ast", "GrammarRules", "arms = Some @;"),
    ("sv_elab_rules", "Lattices", "nat_le (length t.points) @)"),
    ("sv_elab_rules", "LabelMaps", "nat_le bits @)"),
    ("sv_elab_rules", "Declarations", "nat_lt (base + length so_far.signals) @)"),
    ("sv_elab_rules", "InstanceSteps", "nat_lt built.instances @)"),
    ("sv_elab_rules", "Declarations", "is_range @ (whole_number names.scope span.high)"),
    ("sv_elab_rules", "ExpressionSteps", "nat_le (joined_length names.scope es) @)"),
    ("sv_elab_rules", "ExpressionSteps", "is_count (pos n) = nat_le 1 n && nat_le n @"),
    ("sv_paths", "Limits", "nat_lt @ (length found)"),
    ("sv_paths", "Limits", "nat_lt @ path.nodes"),
    ("sv_paths", "Limits", "nat_lt @ (total + length found)"),
    ("sv_gates", "Formulas", "most_variables = @"),
    ("sv_words", "Words", "default_budget = @"),
    ("sv_words", "Lines", "greatest_budget = @"),
    ("sv_cli", "Verifies", "largest_proof = @"),
    ("sv_trace", "Stimulus", "nat_lt @ (length line)"),
    ("sv_sim_run", "Simulated", "largest_stimulus = @"),
    ("sv_cli", "Compares", "largest_compared = @"),
    ("sv_words", "Lines", "greatest = @"),
    ("sv_words", "Lines", "greatest_small = @"),
    ("sv_gen", "Sample", "(lanes ≤ @)"),
]

# What the guide says in a sentence: a text, and the first line of what `check` tells of it.
SENTENCES = [
    ("module m(input a, output reg q); always @(posedge clk or posedge rst) ; endmodule", "refused 202 unsupported 1:55 or"),
    ("module m(input a, output reg q); always @(a or b) ; endmodule", "refused 202 unsupported 1:43 sensitivity-list"),
    ("module m(input [3:0] a, output reg y); always @* case (a) 0, 1: y = 1; default: y = 0; endcase endmodule", "accepted 2 obligations"),
    # a label holds for all bits, and a whole signal of the map's length picks it
    ("module m(input a, input {H} b, output y); wire [1:0] {H} v = {a, b}; assign y = v[1]; endmodule", "refused flow 1 y from v"),
    ("labelmap D [0:0] default: L; endlabelmap\nmodule m(input [1:0] s, input {D(s[0])} a); endmodule", "refused 201 unexpected 2:35"),
    ("labelmap D [0:0] default: L; endlabelmap\nmodule m(input [1:0] s, input {D(s)} a); endmodule", "refused 410 label 2:32 s"),
    # released values are not built, and memories are told behind the rest of the grammar
    ("module m(input {H} a, output y); assign y = $release(a, L); endmodule", "refused 199 not-built 1:1"),
    ("module m; reg s [1:0]; initial ; endmodule", "refused 202 unsupported 1:24 initial"),
    ("module m; reg s [1:0]; endmodule", "refused 199 not-built 1:1"),
    # a signal above its declaration
    ("module m(input a, output y); assign y = t; wire t = a; endmodule", "accepted 2 obligations"),
]

# What is said of `initial`.
INITIAL = "`initial` is left out: reset the register at the clock; for `sim` a line `start` of the stimulus sets it"


def typed(folder, command):
    """What a terminal shows of a command; behind a pipe what is said to a person comes last here."""
    taken = {name: value for name, value in os.environ.items() if name not in ("SECV", "SOLVER", "SLOTS")}
    said = subprocess.PIPE if "|" in command else subprocess.STDOUT
    answer = subprocess.run(["sh", "-c", command], cwd=folder, env=taken, stdin=subprocess.DEVNULL, stdout=subprocess.PIPE, stderr=said,
                            timeout=MOST_SECONDS, check=False)
    return (answer.stdout + (answer.stderr or b"")).decode()


def console(folder, block):
    for command, wanted in re.findall(r"^\$ ([^\n]*)\n((?:(?!\$ )[^\n]*\n)*)", block, re.M):
        if "solve_all.sh" in command and shutil.which("minisat") is None:
            leave_out(command, "minisat is not installed")
        else:
            compare(command, typed(folder, command), wanted)


def changed(text, block):
    """A text with lines of a diff taken out, each run of them where it stands once, and others put in their place."""
    for old, new in re.findall(r"((?:^-[^\n]*\n)+)((?:^\+[^\n]*\n)+)", block, re.M):
        before, after = (re.sub(r"^[-+]", "", lines, flags=re.M) for lines in (old, new))
        compare(f"the design has these lines once: {before}", text.count(before), 1)
        text = text.replace(before, after)
    return text


def obligations(folder, design):
    """What `list` tells of a design, but for the places in its text."""
    return re.sub(r"\d+:\d+", "", run(folder, f"list {design}")[0])


def refused(folder, block):
    put(folder, "text.v", block)
    told, status = run(folder, "check text.v")
    compare(f"before: {block}", (told, status), (block.splitlines()[-1].removeprefix("// ") + "\n", 1))


def taken(folder, block, mark):
    put(folder, "text.v", block)
    if mark in ("", "after"):
        compare(f"check accepts {block}", run(folder, "check text.v")[0].split()[0], "accepted")
    told, status = run(folder, "list text.v")
    compare(f"list takes {block}", status, 0)
    compare(f"it has obligations: {block}", told != "", True)


def in_order(folder):
    for name in ("secv", "examples", "tools"):
        os.symlink(os.path.join(TOP, name), os.path.join(folder, name))
    steps = []
    for kind, block in BLOCKS:
        language, _, mark = kind.partition(" ")
        if kind == "console":
            console(folder, block)
        elif kind == "diff":
            with open(os.path.join(folder, DESIGN), encoding="utf-8") as file:
                text = file.read()
            put(folder, DESIGN, changed(text, block))
            steps.append(obligations(folder, DESIGN))
        elif kind == "verilog before":
            refused(folder, block)
        elif language == "verilog":
            taken(folder, block, mark)
        else:
            compare(f"a block of a kind that is tried: {kind}", kind in ("vim", "json"), True)
        if mark.endswith((".v", ".sh", ".sed")):
            put(folder, mark, block)
    compare("the last steps lead to the pair of examples/", steps[-2:], [obligations(folder, f"examples/dma_{word}.v") for word in ("leak", "mended")])
    marks = [kind for kind, _ in BLOCKS if kind in ("verilog before", "verilog after")]
    compare("behind each text stands what it is rewritten as", marks, ["verilog before", "verilog after"] * 13)


def aligned(text):
    """A design with its declarations in columns, by blanks and tabs, and with lattices and maps that do not begin their lines."""
    columns = re.sub(r"\b(input|output|wire|reg)\b([^;,{\n]*) \{", lambda found: f"{found[1]}\t   {found[2].strip()}   {{", text)
    return re.sub(r"^(?=lattice|labelmap)", " \t", columns, flags=re.M)


def without_labels(folder):
    """The guide's script takes all labels away, and nothing else: what is left of a design of examples/ is accepted, and of the DMA engine it is dma_plain.v.
    So it does where declarations stand in columns."""
    os.symlink(os.path.join(TOP, "examples"), os.path.join(folder, "examples"))
    for name in sorted(os.listdir(os.path.join(TOP, "examples"))):
        if name.endswith(".v") and name != "unknown_value.v":
            put(folder, name, typed(folder, f"sed -E -f examples/plain.sed examples/{name}"))
            compare(f"{name} without labels", run(folder, f"check {name}")[0].split()[0], "accepted")
            put(folder, "aligned", aligned(stored("examples", name)))
            texts = [typed(folder, command) for command in ("sed -E -f examples/plain.sed aligned", f"cat {name}")]
            compare(f"{name} in columns, without labels", *("".join(text.split()) for text in texts))
    lines = [[line.replace("dma_leak", "dma_plain") for line in text.splitlines() if line and not line.startswith("//")]
             for text in (typed(folder, "cat dma_leak.v"), stored("examples", "dma_plain.v"))]
    compare("the DMA engine without labels", *lines)


def in_sentences(folder):
    for text, wanted in SENTENCES:
        put(folder, "text.v", text + "\n")
        compare(text, run(folder, "check text.v")[0].splitlines()[0], wanted)


def solvers(folder):
    """What solve_all.sh says where a solver is missing, has no answer, or answers as a stand-in does, with the jobs handed out in either way: by xargs, since
    `parallel` is another program of that name, and by GNU parallel."""
    os.symlink(os.path.join(TOP, "examples"), os.path.join(folder, "examples"))
    for name in ("a place", "without"):
        os.mkdir(os.path.join(folder, name))
    put(folder, "nothing.v", "module m; endmodule\n")
    for name, script in (("holds", "[ -s \"$1\" ] && exit 20"), ("fails", "[ -s \"$1\" ] && exit 10"), ("without/parallel", "echo another parallel; exit 1")):
        put(folder, name, f"#!/bin/sh\n{script}\n")
        os.chmod(os.path.join(folder, name), 0o755)
    ways = ["PATH=$PWD/without:$PATH "]
    if typed(folder, "parallel --version 2>/dev/null").startswith("GNU parallel"):
        ways.append("")
    else:
        leave_out("solve_all.sh by GNU parallel", "GNU parallel is not installed")
    script, design = os.path.join("examples", "solve_all.sh"), os.path.join("examples", "turn.v")
    for way in ways:
        for words, wanted in ((f"SOLVER=no-solver sh {script} {design}", "no solver: no-solver is not installed; SOLVER=NAME names another\nstatus 2\n"),
                              (f"SOLVER=false sh {script} {design} | tail -n 1", "0 of 2 obligations hold\nstatus 0\n"),
                              (f"SOLVER=false sh {script} {design} >/dev/null", "status 3\n"),
                              (f"SOLVER=./holds TMPDIR='a place' sh {script} {design}", "2 of 2 obligations hold\nstatus 0\n"),
                              (f"SOLVER=./fails SLOTS=1 sh {script} {design}",
                               "obligation 1 fails\nobligation 2 fails\n0 of 2 obligations hold\nstatus 1\n"),
                              (f"SOLVER=./holds sh {script} nothing.v", "0 of 0 obligations hold\nstatus 0\n"),
                              (f"SOLVER=./holds sh {script} examples/unknown_value.v 2>/dev/null", "refused 104 unsupported 3:34 four-state\nstatus 1\n")):
            compare(f"{way}{words}", typed(folder, f"{way}{words}; echo status $?"), wanted)


def limits(_):
    rows = re.findall(r"^\| ([\d,^]+) \| [^|]* \| `([^`]*)` \|$", GUIDE, re.M)
    compare("rows of the table of limits", len(rows), len(LIMITS))
    for (number, _), (crate, file, form) in zip(rows, LIMITS):
        digits = number.replace(",", "").replace("^", " ^ ")
        text = stored("crates", crate, "specs", f"{file}.antt")
        compare(f"{crate} {file}: {form} with {digits}", re.search(re.escape(form.replace("@", digits)) + r"(?!\d)", text) is not None, True)
    names = dict(re.findall(r'\((\d+), codes "([^"]*)"\)', stored("crates", "sv_num", "specs", "Rules.antt")))
    told = re.findall(r"`(?:refused )?(\d{3}) ([a-z-]+)`", GUIDE) + re.findall(r"refused (\d{3}) ([a-z-]+)", GUIDE)
    compare("the rules have these names", {number: name for number, name in told}, {number: names.get(number) for number, _ in told})


def editors(folder):
    """What the guide gives to vim and to VS Code finds the file, the place and the message in lines of standard error."""
    blocks = dict(BLOCKS)
    vim, _, rest = re.search(r"^set errorformat=(.*)$", blocks["vim"], re.M).group(1).replace("\\ ", " ").partition(",")
    compare("vim passes over all other lines", rest, "%-G%.%#")
    for item, form in (("%f", "(.+?)"), ("%l", r"(\d+)"), ("%c", r"(\d+)"), ("%m", "(.+)")):
        vim = vim.replace(item, form)
    pattern = json.loads(blocks["json"])["pattern"]
    compare("the parts of the matcher", [pattern[part] for part in ("file", "line", "column", "message")], [1, 2, 3, 4])
    for name in ("text.v", "a b.v"):
        put(folder, name, "module m;\n  initial ;\nendmodule\n")
        line = told(folder, ["check", name])[1]
        for form in (vim, pattern["regexp"]):
            found = [re.fullmatch(form, shown) for shown in line.splitlines()]
            compare(f"{form} in {line}", [match and match.groups() for match in found], [(name, "2", "3", INITIAL), None, None])


def form(_):
    files = os.listdir(os.path.join(TOP, "examples"))
    rows = re.search(r"\| Pairs of [^\n]*\n[^\n]*\n((?:\|[^\n]*\n)+)", GUIDE).group(1).splitlines()
    for name in [name for row in rows for name in re.findall(r"`(\w+)`", row.split("|")[3])]:
        compare(f"a pair of {name}", f"{name}_mended.v" in files and (f"{name}_leak.v" in files or f"{name}.v" in files), True)


def pages(_):
    """No page is long, its lines of prose are short, and the files that it names or links to are there."""
    names = ["README.md", "examples/README.md"]
    for folder in ("docs", "docs/guide", "docs/promises", "bench"):
        names += [f"{folder}/{name}" for name in sorted(os.listdir(os.path.join(TOP, folder))) if name.endswith(".md")]
    compare("docs/guide.md lists its pages", sorted(GUIDE_PAGES), [name.removeprefix("docs/") for name in names if name.startswith("docs/guide/")])
    for page in names:
        text = stored(page)
        compare(f"{page} is short", len(text.encode()) <= LONG_PAGES.get(page, MOST_BYTES), True)
        prose = re.sub(r"^```.*?^```$", "", text, flags=re.M | re.S)
        lines = [line for line in prose.splitlines() if len(line) > MOST_COLUMNS and not line.startswith("|")]
        compare(f"its lines are short: {page}", lines, [])
        for name in sorted(set(re.findall(r"`((?:docs|examples|bench|tests|tools|crates|sv_\w+)/[\w./-]+\.[a-z0-9]+)`", text))):
            compare(f"{page}: {name} is there", any(os.path.exists(os.path.join(TOP, folder, name)) for folder in (".", "crates")), True)
        for name in sorted(set(re.findall(r"\]\(([^()#:]+)\)", prose))):
            compare(f"{page}: {name} is there", os.path.exists(os.path.join(TOP, os.path.dirname(page), name)), True)


if __name__ == "__main__":
    finish([in_order, without_labels, in_sentences, solvers, limits, editors, form, pages])
