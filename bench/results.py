#!/usr/bin/env python3
"""Keeps what the scripts of this folder read, so that later runs can be held to earlier ones.

    results.py SCRIPT < LINES    keeps lines 'CASE<tab>NAME=VALUE ..' of a script

bench/results/runs.tsv has a line for each case of a run: the day (UTC), the machine, which is its
number of processors and their model, the script, the case, and the figures, of which the last is
the load of the machine. Nothing is kept where the variable SECV names another program than
`./secv`. plot.py draws what is kept.
"""
import datetime
import os
import sys

RUNS = os.path.join(os.path.dirname(os.path.abspath(__file__)), "results", "runs.tsv")


def machine():
    """How many processors there are for this process, and their model."""
    with open("/proc/cpuinfo", encoding="utf-8") as file:
        models = [line.partition(":")[2].strip() for line in file if line.startswith("model name")]
    return f"{len(os.sched_getaffinity(0))} x {models[0] if models else 'unknown'}"


def note(script, case, **figures):
    """Keeps the figures of a case, but for those that are None."""
    told = [f"{name}={value}" for name, value in figures.items() if value is not None]
    keep(script, f"{case}\t{' '.join(told)}")


def keep(script, line):
    """Keeps a case with its figures, which stand behind a tab."""
    if "SECV" in os.environ:
        return
    day = datetime.datetime.now(datetime.timezone.utc).date()
    with open(RUNS, "a", encoding="utf-8") as file:
        load = f"load={os.getloadavg()[0]:.1f}"
        file.write(f"{day}\t{machine()}\t{script}\t{line.strip()} {load}\n")


def runs(script, figure):
    """The runs of a script that read this figure: of each its day, machine, case and value."""
    with open(RUNS, encoding="utf-8") as file:
        rows = [line.rstrip("\n").split("\t") for line in file]
    for day, where, name, case, figures in rows:
        told = dict(word.split("=") for word in figures.split())
        if name == script and figure in told:
            yield day, where, case, float(told[figure])


if __name__ == "__main__":
    for given in sys.stdin:
        keep(sys.argv[1], given)
