#!/bin/sh
# Times `secv compare` on two stimuli of a million cycles which a level cannot tell apart, so that every cycle of both is looked at: of a choice by a signal,
# of the mended multiplier and of the store of tags of examples/. Beside it stands the time of `secv sim` on one of them, without its printing: it prints to
# the null device, and with `--level` so that it picks the same signals. Prints a table of bytes of a stimulus, times and greatest memory, with the ratio of
# the time of `compare` to that of `sim` (asked: at most 2.2), and then the largest ratio. Last come the time and the memory of `secv gen 200` and of
# `secv gen 200 --check` (asked: at most 200 MB). Time is that of the processor, and memory the greatest resident size; GNU time tells both
# (`/usr/bin/time`). The variable SECV may name another program to measure.
set -eu
if ! [ -x /usr/bin/time ]; then
    echo "compare.sh: GNU time is missing; on Debian and Ubuntu it is the package 'time'" >&2
    exit 1
fi
top=$(CDPATH='' cd -- "$(dirname -- "$0")/.." && pwd -P)
work=$(mktemp -d)
trap 'rm -rf "$work"' EXIT
program=${SECV:-$("$top/secv" --path)}
PYTHONPATH="$top/bench" python3 - "$program" "$top" "$work" <<'PY'
import collections, os, random, subprocess, sys

from results import note

secv, top, work = sys.argv[1:4]
CYCLES = 1000000
MOST_RATIO, MOST_MEGABYTES = 2.2, 200
Told = collections.namedtuple("Told", "seconds memory")
# An example: its inputs but the clock, and a cycle of both runs, which look alike to L.
Example = collections.namedtuple("Example", "name inputs cycle")


def turn(draw):
    """`b` is secret."""
    turn, a = draw.getrandbits(1), draw.getrandbits(1)
    return (turn, a, draw.getrandbits(1)), (turn, a, draw.getrandbits(1))


def multiplier(draw):
    """Both operands are secret; a product is asked for and taken at random."""
    public = int(draw.randrange(100) == 0), draw.getrandbits(1), draw.getrandbits(1)
    return (*public, draw.getrandbits(8), draw.getrandbits(8)), (*public, draw.getrandbits(8), draw.getrandbits(8))


def tags(draw):
    """What is asked of the store is secret in the cycles of the secret domain."""
    clear, domain, probe = int(draw.randrange(100) == 0), draw.getrandbits(1), draw.getrandbits(2)
    asked = [(draw.getrandbits(1), draw.getrandbits(1), draw.getrandbits(8)) for _ in range(2)]
    return (clear, domain, *asked[0], probe), (clear, domain, *asked[domain], probe)


EXAMPLES = [Example("turn", "turn a b", turn), Example("multiplier_mended", "rst request take x z", multiplier), Example("tags", "rst dom req fill addr probe", tags)]


def write_stimuli(example, first, second):
    draw = random.Random(1)
    with open(first, "w", encoding="ascii") as one, open(second, "w", encoding="ascii") as other:
        for file in (one, other):
            file.write(f"inputs {example.inputs}\n")
        for _ in range(CYCLES):
            for file, values in zip((one, other), example.cycle(draw)):
                file.write(" ".join(f"{value:x}" for value in values) + "\n")


def measured(words, given=os.devnull, wanted=None):
    """The least processor time of three runs and the greatest memory in MB. What is printed has to be the wanted text, or goes to the null device."""
    best, most, told = None, 0, os.path.join(work, "told")
    for _ in range(3):
        with open(given, "rb") as stimulus:
            child = subprocess.run(["/usr/bin/time", "-f", "%U %S %M", "-o", told, *words], stdin=stimulus,
                                   stdout=subprocess.PIPE if wanted else subprocess.DEVNULL, stderr=subprocess.DEVNULL)
        if child.returncode != 0 or wanted and child.stdout.decode() != wanted:
            sys.exit(f"{words} ended with {child.returncode} and wrote {child.stdout!r}")
        with open(told, encoding="ascii") as text:
            user, system, size = map(float, text.read().split())
        best, most = user + system if best is None else min(best, user + system), max(most, size / 1024)
    return Told(best, most)


worst = 0.0
first, second = os.path.join(work, "A"), os.path.join(work, "B")
print(f"{'design':>18} {'bytes':>9} {'sim':>8} {'MB':>7} {'compare':>8} {'MB':>7} {'ratio':>6}")
for example in EXAMPLES:
    file = os.path.join(top, "examples", f"{example.name}.v")
    write_stimuli(example, first, second)
    alone = measured([secv, "sim", file, "--level", "L"], first)
    both = measured([secv, "compare", file, first, second, "--level", "L"], wanted=f"equal {CYCLES} cycles\n")
    worst = max(worst, both.seconds / alone.seconds)
    print(f"{example.name:>18} {os.path.getsize(first):>9} {alone.seconds:>8.2f} {alone.memory:>7.1f} {both.seconds:>8.2f} {both.memory:>7.1f} "
          f"{both.seconds / alone.seconds:>6.2f}", flush=True)
    note("compare", example.name, sim=f"{alone.seconds:.2f}", compare=f"{both.seconds:.2f}", MB=f"{both.memory:.1f}")
print(f"most times the time of sim that compare takes: {worst:.2f} (asked: at most {MOST_RATIO})")
sample = measured([secv, "gen", "200"])
checked = measured([secv, "gen", "200", "--check"], wanted="accepted 2800 obligations\n")
print(f"gen 200: {sample.seconds:.2f} s, {sample.memory:.1f} MB")
print(f"gen 200 --check: {checked.seconds:.2f} s, {checked.memory:.1f} MB (asked: at most {MOST_MEGABYTES})")
for case, told in (("gen 200", sample), ("gen 200 --check", checked)):
    note("compare", case, seconds=f"{told.seconds:.2f}", MB=f"{told.memory:.1f}")
PY
