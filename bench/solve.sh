#!/bin/sh
# Decides pigeonholes, random clauses of three literals near the threshold, and pairs of circuits that compute the same, with
# a budget of conflicts: the first word, 20000 unless given. Prints answers, conflicts, seconds and peak memory, beside those
# of minisat where that is installed. Last come the ratios of the total times (asked: at most 3) and conflicts (at most 2), the
# largest ratio of memory (at most 4), and what was spent though minisat needed less than half the budget (none). Memory is the
# greatest resident size that GNU time tells (`/usr/bin/time`).
if ! [ -x /usr/bin/time ]; then
    echo "solve.sh: GNU time is missing; on Debian and Ubuntu it is the package 'time'" >&2
    exit 1
fi
top=$(CDPATH='' cd -- "$(dirname -- "$0")/.." && pwd -P)
cd "$top/crates/solve_bench" || exit 1
budget=${1:-20000}
mkdir -p out
rt run -- 20000 <stdin >out/build.log 2>&1 || { cat out/build.log; exit 1; }
work=$(mktemp -d)
trap 'rm -rf "$work"' EXIT

# Runs a program on the clauses, and prints its seconds and its peak memory in kB.
measure() {
    start=$(date +%s%N)
    /usr/bin/time -q -o "$work/memory" -f %M "$@" <"$work/clauses" >"$work/answer" 2>/dev/null
    end=$(date +%s%N)
    echo "$start $end $(tail -n 1 "$work/memory")" | awk '{ printf "%.4f %d\n", ($2 - $1) / 1e9, $3 }'
}

# The conflicts before values were found. The answer does not tell, but the budget only cuts the search off: so they are one
# fewer than the least budget that suffices.
conflicts_before_found() {
    low=0
    high=1
    until ./out/solve_bench "$high" <"$work/clauses" | grep -q found; do
        low=$high
        high=$((2 * high))
    done
    while [ $((high - low)) -gt 1 ]; do
        middle=$(((low + high) / 2))
        if ./out/solve_bench "$middle" <"$work/clauses" | grep -q found; then high=$middle; else low=$middle; fi
    done
    echo $((high - 1))
}

# One instance, as the words of clauses.py name it: its name, then answer, conflicts, seconds and memory of each program.
row() {
    python3 "$top/bench/clauses.py" "$@" >"$work/clauses" || exit 1
    mine=$(measure ./out/solve_bench "$budget")
    read -r answer _in steps _rest <"$work/answer"
    [ "$answer" = spent ] && steps=$budget
    [ "$answer" = found ] && steps=$(conflicts_before_found)
    line="$*|$answer|$steps|$mine"
    if command -v minisat >/dev/null; then
        other=$(measure minisat)
        line="$line|$(tail -n 1 "$work/answer")|$(awk '/^conflicts/ { print $3 }' "$work/answer")|$other"
    fi
    echo "$line"
}

{
    for holes in 6 7 8; do row pigeons "$holes"; done
    for variables in 75 100 150; do
        for seed in 1 2 3 4 5 6 7 8 9 10; do row random "$variables" "$seed"; done
    done
    for bits in 4 5 6; do row multiplier "$bits"; done
    for bits in 8 16 32; do row adder "$bits"; done
} | awk -F'[| ]' -v budget="$budget" -v keep="python3 '$top/bench/results.py' solve" '
    function ratio(a, b) { return b ? sprintf("%.2f", a / b) : "none" }
    BEGIN { printf "%-14s %8s %9s %9s %8s    minisat: %9s %9s %8s\n", "clauses", "answer", "conflicts", "seconds", "kB", "conflicts", "seconds", "kB" }
    {
        split($0, part, "|"); split(part[4], mine, " "); split(part[7], other, " ")
        name = part[1]; answer = part[2]; conflicts = part[3]; compared = part[5] != ""
        printf "%-14s %8s %9d %9.4f %8d", name, answer, conflicts, mine[1], mine[2]
        if (compared) printf "             %9d %9.4f %8d", part[6], other[1], other[2]
        print ""
        printf "%s\tconflicts=%d seconds=%s kB=%d%s\n", name, conflicts, mine[1], mine[2],
            compared ? sprintf(" minisat_conflicts=%d minisat=%s", part[6], other[1]) : "" | keep
        if (!compared) next
        if ((answer == "found" && part[5] != "SATISFIABLE") || (answer == "refuted" && part[5] != "UNSATISFIABLE"))
            wrong = wrong " " name ","
        all++; all_time += mine[1]; all_other_time += other[1]; all_conflicts += conflicts; all_other_conflicts += part[6]
        if (other[2] && mine[2] / other[2] > memory) { memory = mine[2] / other[2]; largest = name }
        if (answer == "spent") { if (part[6] < budget / 2) spent = spent " " name ","; next }
        decided++; time += mine[1]; other_time += other[1]; sum += conflicts; other_sum += part[6]
    }
    END {
        if (!all) exit
        print "decided: " decided " of " all ". The ratios are over these, and over all where a spent budget counts as it is."
        print "times the time of minisat: " ratio(time, other_time) ", over all " ratio(all_time, all_other_time)
        print "times the conflicts of minisat: " ratio(sum, other_sum) ", over all " ratio(all_conflicts, all_other_conflicts)
        if (memory) printf "most times the memory of minisat: %.2f (%s)\n", memory, largest
        print "spent where minisat needed fewer than " budget / 2 " conflicts:" (spent ? substr(spent, 1, length(spent) - 1) : " none")
        if (wrong) { print "ANSWERS DIFFER:" wrong; exit 1 }
    }'
