#!/usr/bin/env python3
"""Compares what `./secv` says of the pairs of designs in examples/, one that leaks and one that is mended: the first line of either verdict, what an observer
at the level L sees of two runs that differ in secrets, the certificate that is kept of the mended one, and its trace, which was made by Icarus Verilog. And
the commands of examples/README.md print what it says, and every file stands in it. The last line is 'N passed, M failed'.
"""
import collections
import os
import re

from harness import TOP, compare, finish, run, status_of

EXAMPLES = os.path.join(TOP, "examples")
# The name, the words for the two stimuli, the flow that the leak is refused for, the mended design's obligations, the first difference of the leak's two
# runs, and how many cycles these have.
Pair = collections.namedtuple("Pair", "name first second flow obligations difference cycles")
PAIRS = [
    Pair("cache", "apart", "clash", "36 a.elsewhere from a_third", 134, "17 a.elsewhere", 23),
    Pair("arbiter", "alone", "queued", "1 a_taken from room", 66, "4 a_served", 14),
    Pair("aes_table", "nonzero", "zero", "28 step from column", 296, "2 step", 9),
    Pair("aes_logic", "one", "other", "8 shown from s0", 110, "2 shown", 9),
    Pair("processor", "short", "long", "66 stall from e_y", 88, "7 stall", 20),
    Pair("dma", "one", "other", "13 word0 from word0", 48, "7 data", 14),
    Pair("multiplier", "short", "long", "3 busy from left", 26, "5 busy", 13),
    Pair("counter", "slow", "fast", "2 locked from full", 18, "8 locked", 16),
]


def stored(name):
    with open(os.path.join(EXAMPLES, name), encoding="ascii") as file:
        return file.read()


def simulated(design, stimulus):
    """What `sim` writes of a design of examples/ on a stimulus there, and its status."""
    with open(os.path.join(EXAMPLES, stimulus), "rb") as file:
        return run(EXAMPLES, ["sim", design], stdin=file)


def verdicts(_):
    for pair in PAIRS:
        line = f"refused flow {pair.flow}\n"
        told, status = run(EXAMPLES, f"check {pair.name}_leak.v")
        compare(f"check {pair.name}_leak.v", (told.splitlines(keepends=True)[:1], status), ([line], 1))
        accepted = f"accepted {pair.obligations} obligations\n", 0
        for words in (f"check {pair.name}_mended.v", f"verify {pair.name}_mended.v {pair.name}_mended.proof"):
            compare(words, run(EXAMPLES, words), accepted)


def runs(_):
    """Both orders of the two runs, on both designs; and a level that sees the secrets is given two runs that differ."""
    for pair in PAIRS:
        stimuli = [f"{pair.name}_{word}.stim" for word in (pair.first, pair.second)]
        for one, other in (stimuli, stimuli[::-1]):
            for which, wanted in (("leak", f"differ view {pair.difference}\n"), ("mended", f"equal {pair.cycles} cycles\n")):
                words = f"compare {pair.name}_{which}.v {one} {other} --level L"
                compare(words, run(EXAMPLES, words), (wanted, status_of(wanted)))
        words = f"compare {pair.name}_mended.v {' '.join(stimuli)} --level H"
        told, status = run(EXAMPLES, words)
        compare(words, (told.split()[:2], status), (["differ", "input"], 1))


def traces(_):
    for pair in PAIRS:
        design, stimulus = f"{pair.name}_mended.v", f"{pair.name}_{pair.first}.stim"
        compare(f"sim {design} < {stimulus}", simulated(design, stimulus), (stored(f"{pair.name}_mended.trace"), 0))


def shown(_):
    """The commands of README.md with the first line that each prints, or the file that stands for all of it; and all files stand in it."""
    text = re.sub(r"\s+", " ", stored("README.md"))
    commands = re.findall(r"`\.\./secv (check|verify|list|compare|sim) ([^`]*)`(: | prints )`([^`]*)`", text)
    compare("README.md tells of each command what it prints", len(commands), len(re.findall(r"`\.\./secv (?!check DESIGN)", text)))
    for command, words, how, told in commands:
        design, _, stimulus = words.partition(" < ")
        written, _ = simulated(design, stimulus) if command == "sim" else run(EXAMPLES, f"{command} {words}")
        compare(f"README.md: {command} {words}", written if how == " prints " else written.partition("\n")[0], stored(told) if how == " prints " else told)
    for name in sorted(os.listdir(EXAMPLES)):
        listed = name[:-4] + ".v" if name.endswith(".out") else name
        compare(f"README.md names {name}", name == "README.md" or re.search(rf"(?<![\w.]){re.escape(listed)}(?!\w)", text) is not None, True)
    for name in set(re.findall(r"\b[a-z]\w*\.(?:v|stim|list|trace|proof)\b", text)):
        compare(f"{name} is there", os.path.exists(os.path.join(EXAMPLES, name)), True)


if __name__ == "__main__":
    finish([verdicts, runs, traces, shown])
