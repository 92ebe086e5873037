#!/usr/bin/env python3
"""Looks whether release/ is of the sources and the kit as they are, and holds the bytes of the program that the gate built. The last line is 'N passed,
M failed'.
"""
import gzip
import hashlib
import os
import subprocess
import sys
import zlib

sys.dont_write_bytecode = True
TOP = os.path.dirname(os.path.dirname(os.path.abspath(__file__)))
sys.path.insert(0, os.path.join(TOP, "tests"))

from harness import COUNTS, compare, end, end_look, printed

RENEW = "run tools/release, commit release/, and run .ci/run again"


def here(call):
    """What a call of tools/sources.sh prints."""
    return printed("sh", "-c", f'top=$1; . "$top/tools/sources.sh"; {call}', "sh", TOP).strip()


def git(*words):
    return subprocess.run(["git", "-C", TOP, *words], stdout=subprocess.PIPE, stderr=subprocess.DEVNULL, text=True, check=False)


def read(*path):
    try:
        with open(os.path.join(TOP, *path), "rb") as file:
            return file.read()
    except FileNotFoundError:
        return None


def unpacked(data):
    """What was compressed, or None where that cannot be told."""
    try:
        return gzip.decompress(data)
    except (OSError, EOFError, zlib.error):
        return None


def sum_of(data):
    return data if data is None else hashlib.sha256(data).hexdigest()


def is_of_commit(commit):
    """Whether the sources are those of the commit; one that is not kept here says nothing."""
    if git("cat-file", "-e", f"{commit}^{{commit}}").returncode:
        return True
    return git("diff", "--quiet", commit, "--", *here("folders").split()).returncode == 0


def main():
    text, program = read("release", "ABOUT"), read("release", "secv.gz")
    if text is None or program is None:
        end_look(0, [f"there is no release/ of the program: {RENEW}"])
    about = dict(line.split(": ", 1) for line in text.decode().splitlines() if ": " in line)
    built = sum_of(read("crates", "secv", "out", "secv"))
    compare("release/ is of the sources as they are", about.get("sources"), here("sum_of_sources"))
    compare("release/ is of this kit", about.get("kit"), here("kit_here"))
    compare("release/ is for this machine", about.get("machine"), here("machine_here"))
    compare("release/ABOUT names the bytes that the gate built", about.get("sha256"), built)
    compare("release/secv.gz holds them", sum_of(unpacked(program)), built)
    compare("the commit that release/ABOUT names has these sources", is_of_commit(about.get("commit", "")), True)
    if COUNTS["failed"]:
        print(f"release/ has to be renewed: {RENEW}")
    end()


if __name__ == "__main__":
    main()
