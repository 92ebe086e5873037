#!/bin/sh
# Asks a SAT solver of each obligation of the design in a file, two at a time: solve_all.sh FILE.
# The jobs are handed out by GNU parallel, or by xargs where that is not installed. SOLVER may name
# another one than minisat that ends with status 20 where no values meet the clauses and with 10
# where some do, SECV the program, and SLOTS how many run at once. Here the solver is believed;
# `secv check --proof` and `secv verify` believe none.
[ $# = 1 ] || { echo "usage: solve_all.sh FILE" >&2; exit 2; }
FILE=$1 SOLVER=${SOLVER:-minisat} SECV=${SECV:-$(cd -P "$(dirname "$0")/.." && pwd)/secv}
command -v "$SOLVER" >/dev/null || { echo "no solver: $SOLVER is not installed; SOLVER=NAME names another" >&2; exit 2; }
WORK=$(mktemp -d) || exit 2
trap 'rm -rf "$WORK"' EXIT
export FILE SOLVER SECV WORK
"$SECV" list "$FILE" >"$WORK/list" || { status=$?; cat "$WORK/list"; exit $status; }

# one obligation: a line of its number and of the status that the solver ends with
cat >"$WORK/job" <<'END'
"$SECV" cnf "$FILE" "$1" >"$WORK/$1.cnf" && "$SOLVER" "$WORK/$1.cnf" >"$WORK/$1.log" 2>&1
echo "$1 $?" >"$WORK/$1.answer"
rm -f "$WORK/$1.cnf" "$WORK/$1.log"
END
# another program of that name has other words
case $(parallel --version 2>/dev/null </dev/null) in
  "GNU parallel"*) set -- parallel --will-cite --quote --jobs "${SLOTS:-2}" ;;
  *) set -- xargs -P "${SLOTS:-2}" ;;
esac
cut -d ' ' -f 1 "$WORK/list" | "$@" -I NUMBER sh "$WORK/job" NUMBER

cut -d ' ' -f 1 "$WORK/list" | while read -r number; do cat "$WORK/$number.answer"; done | awk '
  $2 == 10 { print "obligation " $1 " fails"; fail++; next }
  $2 != 20 { print "obligation " $1 " has no answer: status " $2; open++ }
  END { print NR - fail - open " of " NR " obligations hold"; exit fail ? 1 : open ? 3 : 0 }'
