#!/bin/sh
# Reads and checks certificates of 500,000 and of 1,000,000 resolutions by `secv verify`, and prints the rates, the memory and how
# the time grows. The first word, 10 unless given and even, is how many resolutions a step has. Each step goes on from the one before,
# over copies of two clauses of the first obligation, one for each fifty resolutions, which are drawn. Reading is what the certificate
# without its last line takes, which is refused there, more than an empty one; checking is what the whole one takes more. Memory is
# the greatest resident size that GNU time tells (`/usr/bin/time`). The variable SECV may name another program to measure.
set -eu
if ! [ -x /usr/bin/time ]; then
    echo "certificate.sh: GNU time is missing; on Debian and Ubuntu it is the package 'time'" >&2
    exit 1
fi
top=$(CDPATH='' cd -- "$(dirname -- "$0")/.." && pwd -P)
work=$(mktemp -d)
trap 'rm -rf "$work"' EXIT
program=${SECV:-$("$top/secv" --path)}
PYTHONPATH="$top/bench" python3 - "$program" "$work" "${1:-10}" <<'PY'
import os, random, resource, subprocess, sys

from results import note

program, work, each = sys.argv[1], sys.argv[2], int(sys.argv[3])
# Its first obligation has the clauses 1, 1 -3, -2 -3, -1 2 3, 2 and 3.
DESIGN = """labelmap Dom [0:0] 0: L; default: H; endlabelmap
module top(input turn, input a, input {H} b, output {Dom(turn)} y);
  assign y = turn ? b : a;
endmodule
"""
CLAUSES = 6


def put(name, text):
    path = os.path.join(work, name)
    with open(path, "w", encoding="ascii") as file:
        file.write(text)
    return path


def certificate(resolutions):
    """Steps of the clause -1 -3, each made from the one before by -1 2 3 and -2 -3 in turns; the last three clauses end in the empty one."""
    copies, steps, draw = resolutions // 100, resolutions // each, random.Random(1)
    made = ["-2 -3 0 3 0", "-1 2 3 0 4 0"] * copies + ["-1 -3 0 3 5 4 3 0"]
    for step in range(steps):
        before = CLAUSES + len(made)
        drawn = [CLAUSES + 1 + 2 * draw.randrange(copies) for _ in range(each // 2)]
        made.append(f"-1 -3 0 {before} " + " ".join(f"{at + 1} {at}" for at in drawn) + " 0")
    made.append(f"0 {CLAUSES + len(made)} 1 6 0")
    return "\n".join(["secv-proof 1", "obligations 2", f"o 1 {len(made)}", *made, "o 2 1", "0 1 3 0", "end", ""])


def measured(text, answer):
    """The least processor seconds of three runs, and the greatest memory in MB."""
    words = ["/usr/bin/time", "-q", "-f", "%M", "-o", os.path.join(work, "told"), program, "verify", os.path.join(work, "design.v"), put("proof", text)]
    seconds, memory = [], []
    for _ in range(3):
        before = resource.getrusage(resource.RUSAGE_CHILDREN)
        said = subprocess.run(words, stdin=subprocess.DEVNULL, capture_output=True, text=True, check=False).stdout
        after = resource.getrusage(resource.RUSAGE_CHILDREN)
        if said != answer:
            sys.exit(f"verify printed {said!r}, and not {answer!r}")
        with open(os.path.join(work, "told"), encoding="ascii") as file:
            memory.append(int(file.read().split()[-1]) / 1024)
        seconds.append(after.ru_utime + after.ru_stime - before.ru_utime - before.ru_stime)
    return min(seconds), max(memory)


put("design.v", DESIGN)
start, _ = measured("", "refused proof 1\n")
before = None
for resolutions in (500000, 1000000):
    text = certificate(resolutions)
    front, _, _ = text.rpartition("end\n")
    read, _ = measured(front, f"refused proof {text.count(chr(10))}\n")
    whole, memory = measured(text, "accepted 2 obligations\n")
    reading, checking, size = max(read - start, 1e-6), max(whole - read, 1e-6), len(text) / 1e6
    print(f"{resolutions} resolutions, {len(text)} bytes: read {size / reading:.1f} MB a second, checked "
          f"{resolutions / 1e6 / checking:.2f} million resolutions and {size / checking:.1f} MB a second")
    print(f"{resolutions} resolutions: {memory:.1f} MB")
    note("certificate", f"{resolutions} resolutions", reading=f"{reading:.3f}", checking=f"{checking:.3f}", MB=f"{memory:.1f}")
    if before:
        print(f"twice the resolutions: reading {reading / before[0]:.2f}, checking {checking / before[1]:.2f}, both "
              f"{(reading + checking) / sum(before):.2f} times the time")
    before = reading, checking
PY
