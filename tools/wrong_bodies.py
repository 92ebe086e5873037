#!/usr/bin/env python3
"""Reads the record of the wrong bodies that the gate does not try (`must-fail-slow/record`, written by `tools/wrong-bodies`). One line says which crates
changed since theirs were tried. It fails where a wrong body, there or in `crates/*/must-fail/`, cannot be applied, where the record and
the folders do not name the same ones, and where the gate tries more than 30. The last line is 'N passed, M failed'.
"""
import hashlib
import os
import re
import sys

sys.dont_write_bytecode = True
TOP = os.path.dirname(os.path.dirname(os.path.abspath(__file__)))
sys.path.insert(0, os.path.join(TOP, "tests"))

from harness import end_look

SLOW = "must-fail-slow"
MOST_TRIED = 30


def crates(top):
    """The crates of crates.txt, lowest first, each with the repository's libraries that it names."""
    found = {}
    with open(os.path.join(top, "crates.txt"), encoding="utf-8") as file:
        for line in file:
            name, colon, below = line.split("#")[0].partition(":")
            if colon:
                found[name.split()[0]] = below.split()
    return {name: [it for it in below if it in found] for name, below in found.items()}


def edits(folder):
    """The names of a folder's edits, and what else stands there."""
    names = sorted(os.listdir(folder)) if os.path.isdir(folder) else []
    return [it.removesuffix(".edit") for it in names if it.endswith(".edit")], [it for it in names if not it.endswith(".edit")]


def files_below(folder):
    """The files below a folder, in one order."""
    for at, folders, names in os.walk(folder):
        folders.sort()
        yield from (os.path.join(at, name) for name in sorted(names))


def sum_of(top, name):
    """A sum of what the record on a crate's wrong bodies stands on: the crate's src/ and specs/, the specs/ of all crates below it, and the wrong bodies.

    What a crate promises is said by its own clauses and by the definitions that these cite. Of the src/ below it a check reads statements alone, and
    what it could use to prove a wrong body there would make that body right; so a change of code below does not make the record old."""
    known, below, left = crates(top), set(), [name]
    while left:
        for it in known[left.pop()]:
            if it not in below:
                below.add(it)
                left.append(it)
    folders = [f"crates/{name}/src", f"crates/{name}/specs", f"{SLOW}/{name}", *(f"crates/{it}/specs" for it in sorted(below))]
    total = hashlib.sha256()
    for folder in folders:
        for path in files_below(os.path.join(top, folder)):
            with open(path, "rb") as file:
                total.update(repr((os.path.relpath(path, top), file.read())).encode())
    return total.hexdigest()


def reason(crate, edit):
    """Why an edit cannot be applied to the crate in that folder, or None. As `rt` applies it: each old text stands in the file once when its turn comes."""
    texts, path, old, changed = {}, None, None, False
    with open(edit, encoding="utf-8") as file:
        lines = file.read().split("\n")
    for line in lines:
        if line.startswith("file: "):
            path = line.removeprefix("file: ").strip()
            if path.split("/")[0] not in ("src", "specs", "proofs") or not os.path.isfile(os.path.join(crate, path)):
                return f"the crate has no file {path}"
            if path not in texts:
                with open(os.path.join(crate, path), encoding="utf-8") as file:
                    texts[path] = file.read()
        elif line.startswith("old: "):
            old = line.removeprefix("old: ")
        elif line.startswith("new:"):
            if path is None or not old:
                return "a new text stands before any file or old text"
            new, found = line.removeprefix("new:").removeprefix(" "), texts[path].count(old)
            if found != 1:
                return f"the text {old.strip()!r} stands in {path} {found} times, and not once"
            texts[path], changed, old = texts[path].replace(old, new), changed or old != new, None
    return None if changed else "it changes nothing"


def read_record(path):
    """The record's crates: for each the day, the sum, and how each wrong body was refused. ValueError where a line is none of it."""
    found, name = {}, None
    if not os.path.isfile(path):
        return found
    with open(path, encoding="utf-8") as file:
        for line in file.read().splitlines():
            head = re.fullmatch(r"(\w+) (\d{4}-\d\d-\d\d) ([0-9a-f]{64})", line)
            edit = re.fullmatch(r"  ([\w.-]+): (.+)", line)
            if head and head[1] not in found:
                name = head[1]
                found[name] = head[2], head[3], {}
            elif edit and name and edit[1] not in found[name][2]:
                found[name][2][edit[1]] = edit[2]
            elif line and not line.startswith("#"):
                raise ValueError(line)
    return found


def faults_of_edits(top, name):
    """For each wrong body of a crate what is wrong with it, or None."""
    tried, odd = edits(os.path.join(top, "crates", name, "must-fail"))
    slow, more = edits(os.path.join(top, SLOW, name))
    for folder, names in ((f"crates/{name}/must-fail", tried), (f"{SLOW}/{name}", slow)):
        for it in names:
            twice = folder.startswith(SLOW) and it in tried
            why = reason(os.path.join(top, "crates", name), os.path.join(top, folder, f"{it}.edit"))
            yield f"{folder}/{it}.edit: the gate tries one of that name" if twice else why and f"{folder}/{it}.edit cannot be applied: {why}"
    for it in (*odd, *more):
        yield f"{name}: {it} among its wrong bodies is none: the name of one ends in .edit"


def faults_of_record(top, record):
    """For each crate of the record what is wrong with its names, or None."""
    for name, (_, _, refused) in record.items():
        there = set(edits(os.path.join(top, SLOW, name))[0])
        gone, new = sorted(set(refused) - there), sorted(there - set(refused))
        told = [f"names {' '.join(gone)}, which is not there"] * bool(gone) + [f"lacks {' '.join(new)}"] * bool(new)
        yield f"{SLOW}/record on {name} {' and '.join(told)}: tools/wrong-bodies {name} tries them" if told else None


def since(top, names, record):
    """In one line: which crates changed since their wrong bodies were tried, and which were never tried."""
    changed = [it for it in names if it in record and record[it][1] != sum_of(top, it)]
    never = [it for it in names if it not in record]
    told = [f"changed since they were tried: {' '.join(changed)}"] * bool(changed) + [f"never tried: {' '.join(never)}"] * bool(never)
    days = sorted({record[it][0] for it in names if it in record})
    return "; ".join(told) or f"the wrong bodies of all {len(names)} crates were tried on what stands here ({' to '.join(dict.fromkeys((days[0], days[-1])))})"


def main():
    known = crates(TOP)
    slow = sorted(it for it in os.listdir(os.path.join(TOP, SLOW)) if os.path.isdir(os.path.join(TOP, SLOW, it)))
    told = [f"{SLOW}/{it}: crates.txt has no such crate" for it in slow if it not in known]
    for name in known:
        told += faults_of_edits(TOP, name)
    tried = sum(len(edits(os.path.join(TOP, "crates", it, "must-fail"))[0]) for it in known)
    told.append(f"the gate tries {tried} wrong bodies, and {MOST_TRIED} are the most" if tried > MOST_TRIED else None)
    try:
        record = read_record(os.path.join(TOP, SLOW, "record"))
        told += faults_of_record(TOP, record)
        print(since(TOP, [it for it in known if it in slow], record))
    except ValueError as line:
        told.append(f"{SLOW}/record has a line that is none of a record: {line}")
    faults = [it for it in told if it is not None]
    end_look(len(told) - len(faults), faults)


if __name__ == "__main__":
    main()
