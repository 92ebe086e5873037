"""Worked rows of every command: the words, the files beside them, the input, and what the program writes and its status where nothing fails."""
import collections

from as_a_user import HELP, HELPS
from comparisons import FIRST, OTHER, SECOND
from machines import ONE_LANE
from outputs import COUNTER, GATE, INVERTED, INVERTERS, STIMULUS, TRACE, TURN, TURNED, TURN_LIST
from verdicts import BY_HAND, SUMS, TURNED_LEAK

LEAK = "refused flow 2 y from b\nin turn 0\nin a 0\nin b 0\n"
CLAUSES = "p cnf 3 6\n1 0\n1 -3 0\n-2 -3 0\n-1 2 3 0\n2 0\n3 0\n"
Row = collections.namedtuple("Row", "words files given answer status", defaults=("", "", 0))
TURNS = {"f": TURN, "A": FIRST, "B": SECOND, "C": OTHER, "p": BY_HAND}
ROWS = [
    Row("check f", {"f": GATE}, "", "accepted 1 obligations\n"),
    Row("check f --top top", TURNS, "", "accepted 2 obligations\n"),
    Row("check f --proof q", TURNS, "", "accepted 2 obligations\n"),
    Row("verify f p", TURNS, "", "accepted 2 obligations\n"),
    Row("verify f p", {**TURNS, "p": BY_HAND.replace("end\n", "")}, "", "refused proof 7\n", 1),
    Row("verify f p", {**TURNS, "p": BY_HAND.replace("3 5 6", "4 3 1")}, "", "refused proof 4\n", 1),
    Row("verify f A", TURNS, "", "refused proof 1\n", 1),
    Row("check f --json", TURNS, "", '{"obligations":2,"verdict":"accepted"}\n'),
    Row("check f", {"f": TURNED_LEAK}, "", LEAK, 1),
    Row("check f --proof q", {"f": SUMS}, "", "accepted 2 obligations\n"),
    Row("check f --budget 1", {"f": SUMS}, "", "unknown obligation 2 budget 1\n", 3),
    Row("check f", {"f": "module m(output y); endmodule"}, "", "refused 604 undriven 1:17 y\n", 1),
    Row("list f", TURNS, "", TURN_LIST),
    Row("cnf f 1", TURNS, "", CLAUSES),
    Row("cnf f 3", TURNS, "", "refused 706 no-obligation\n", 1),
    Row("sim f", {"f": COUNTER}, STIMULUS, TRACE),
    Row("sim f --level L", {"f": COUNTER}, "inputs x\n", "refused stimulus input 1 header\n", 1),
    Row("sim f", {"f": INVERTERS}, TURNED, INVERTED),
    Row("sim f --order 1", {"f": INVERTERS}, TURNED, f"{INVERTED}rounds 4\n"),
    Row("compare f A B --level L", TURNS, "", "equal 2 cycles\n"),
    Row("compare f A B --level L", {**TURNS, "f": TURNED_LEAK}, "", "differ view 0 y\n", 1),
    Row("compare f A C --level L", TURNS, "", "differ input 0 a\n", 1),
    Row("compare f A C --level Q", TURNS, "", "refused 707 level\n", 1),
    Row("gen 1", {}, "", ONE_LANE),
    Row("gen 1 --check", {}, "", "accepted 14 obligations\n"),
    Row("check f g", {}, "", "usage words\n", 2),
    Row("check none", {}, "", "", 4),
    Row("--help", {}, "", HELP.decode()),
    Row("check --help", {}, "", HELPS["check"].decode()),
]
