#!/bin/sh
# Types and evaluates the largest expressions that a text may have: 1,024 tokens, up to 64 levels.
# Prints the processor time of an evaluation beside that of vvp for the same assign, over the same values, and sees that both end
# with the same value; then the time that typing takes where the number of tokens doubles, for expressions of several shapes. Last
# come the greatest ratio against vvp (asked: at most a quarter) and the greatest growth for twice the tokens (asked: at most 2.2).
# An evaluation is what a cycle of `secv sim` takes more than one without the expression; typing is what a text whose last name is
# refused takes more than the same text without its end, which is refused once it is read.
# The first word, 50 unless given, is how often vvp evaluates the first expression, and a twentieth of how often the others. It needs
# Icarus Verilog (`iverilog` and `vvp`). The variable SECV may name another program to measure.
set -eu
top=$(CDPATH='' cd -- "$(dirname -- "$0")/.." && pwd -P)
work=$(mktemp -d)
trap 'rm -rf "$work"' EXIT
program=${SECV:-$("$top/secv" --path)}
python3 "$top/bench/width.py" "$program" "$work" "${1:-50}"
