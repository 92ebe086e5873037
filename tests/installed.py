#!/usr/bin/env python3
"""Tries tools/install, holds the page and the completions of share/ to the program's own help and to what tools/completions writes, and looks that the
launcher prints the program's texts where no program stands. The last line is 'N passed, M failed'.
"""
import os
import re
import shutil
import subprocess

from harness import SECV, TOP, compare, finish, leave_out, printed, program_here, put

INSTALLED = ["bin/secv", "share/bash-completion/completions/secv", "share/fish/vendor_completions.d/secv.fish", "share/man/man1/secv.1",
             "share/zsh/site-functions/_secv"]
# Asks a file of completions what stands behind these words, the last of which is begun.
ASK = 'source "$1"; shift; COMP_WORDS=("$@"); COMP_CWORD=$(($# - 1)); _secv; printf "%s\\n" "${COMPREPLY[@]}"'


def read(*path):
    with open(os.path.join(TOP, *path), encoding="utf-8") as file:
        return file.read()


class Help:
    """What the program itself says of its words."""

    def __init__(self):
        text = printed(SECV, "--help")
        self.version = printed(SECV, "--version").strip()
        usage, _, ends = text.partition("usage:\n")[2].partition("\nexit status: ")
        # What a row does may stand on lines of its own.
        rows = re.findall(r"^  (secv(?: \S+)+)(?:  +|\n {10,})((?:.*\n {10,})*.*)$", usage, re.M)
        found = [(line, re.sub(r"\n +", " ", what)) for line, what in rows]
        self.usages = [line for line, _ in found]
        # What each first word does: a command's name, or an option that stands alone.
        self.words = {line.split()[1]: what for line, what in found if "COMMAND" not in line}
        # What each option of a command does, with the name of its value, which a flag has none of.
        self.options = {}
        for name in [word for word in self.words if not word.startswith("-")]:
            rows = re.findall(r"^ +(--[a-z]+)(?: <([A-Z]+)>)? +(\S.*)$", printed(SECV, name, "--help"), re.M)
            self.options[name] = {option: (value, what) for option, value, what in rows}
        self.statuses = re.findall(r"([0-9]) ([a-z ,]+?)(?:, (?=[0-9])|$)", re.sub(r",?\s*\n\s*", ", ", ends.strip()))

    def of(self, name):
        return {option: what for option, (_, what) in self.options[name].items()}

    def flags(self, name):
        return {option for option, (value, _) in self.options[name].items() if not value}


def installs(folder):
    for _ in range(2):
        printed(os.path.join(TOP, "tools", "install"), "a place", cwd=folder)
    place = os.path.join(folder, "a place")
    found = sorted(os.path.relpath(os.path.join(at, name), place) for at, _, names in os.walk(place) for name in names)
    compare("what is installed", found, INSTALLED)
    with open(os.path.join(place, "bin", "secv"), "rb") as file, open(program_here(), "rb") as other:
        compare("its program", file.read() == other.read(), True)
    compare("it runs by itself", printed(os.path.join(place, "bin", "secv"), "--version", cwd=folder, env={}), printed(SECV, "--version"))
    answer = subprocess.run([os.path.join(TOP, "tools", "install")], stderr=subprocess.PIPE, text=True, check=False)
    compare("no PREFIX", (answer.stderr, answer.returncode), ("usage: tools/install PREFIX\n", 2))


def written(folder):
    """What stands in share/ is what tools/completions writes."""
    printed(os.path.join(TOP, "tools", "completions"), folder)
    names = sorted(os.listdir(folder))
    compare("the files of share/", sorted(os.listdir(os.path.join(TOP, "share"))), names)
    for name in names:
        with open(os.path.join(folder, name), encoding="utf-8") as file:
            compare(f"share/{name} is what tools/completions writes", file.read() == read("share", name), True)
    answer = subprocess.run([os.path.join(TOP, "tools", "completions"), "a", "b"], stderr=subprocess.PIPE, text=True, check=False)
    compare("two folders", (answer.stderr, answer.returncode), ("usage: tools/completions [FOLDER]\n", 2))


def page(_):
    told = Help()
    text = read("share", "secv.1").replace("\\-", "-")
    parts = dict(re.findall(r"^\.SH ([A-Z ]+)\n(.*?)(?=^\.SH|\Z)", text, re.M | re.S))
    compare("the page's version", re.search(r'^\.TH SECV 1 "" "(.*?)"', text)[1], told.version)
    # `.RB [ --top` sets its words without spaces.
    lines = [("" if len(macro) > 1 else " ").join(words.split()) for macro, words in re.findall(r"^\.([A-Z]{1,2}) (.*)$", parts["SYNOPSIS"].replace(".br", ".B \n"), re.M)]
    usages = [re.sub(r" +", " ", it).strip() for it in re.split(r"(?:^|(?<= ))(?=secv)", " ".join(lines)) if it.strip()]
    compare("the page's synopsis", usages, told.usages)
    compare("the page's commands", re.findall(r"^\.TP\n\.B (\S+)\n", parts["COMMANDS"], re.M), list(told.options))
    rows = re.findall(r'^\.TP\n\.B[I]? (--[a-z]+)(?: " ([A-Z]+)")?\n(.*?)\.\n', parts["OPTIONS"], re.M)
    wanted = {(option, value, what) for options in told.options.values() for option, (value, what) in options.items()}
    compare("the page's options", sorted(row for row in rows if row[0] != "--version"), sorted(wanted))
    alone = re.findall(r"^\.TP\n\.BR? (.*)\nAs the only word: (.*)\.$", parts["OPTIONS"], re.M)
    compare("the page's words that stand alone", alone, [('--help ", " -h', "print what the words are"), ("--version", told.words["--version"])])
    compare("the page's statuses", re.findall(r"^\.TP\n\.B ([0-9])\n(.*)$", parts["EXIT STATUS"], re.M), told.statuses)


def bash(folder):
    if not shutil.which("bash"):
        leave_out("share/secv.bash", "bash is not installed")
        return
    told, file = Help(), os.path.join(TOP, "share", "secv.bash")
    for name in ("a.v", "b.txt"):
        put(folder, name, "")
    os.mkdir(os.path.join(folder, "sub"))

    def behind(*words):
        return sorted(printed("bash", "-c", ASK, "bash", file, "secv", *words, cwd=folder).split())

    compare("bash: the first word", behind(""), sorted(told.words))
    for name, options in told.options.items():
        compare(f"bash: {name} --", behind(name, "--"), sorted([*options, "--help"]))
        compare(f"bash: {name} a.v --", behind(name, "a.v", "--"), sorted(options))
        compare(f"bash: {name}", behind(name, ""), [] if name == "gen" else ["a.v", "sub/"])
        for option in options:
            wanted = ["a.v", "b.txt", "sub"] if option == "--proof" else ["a.v", "sub/"] if option == "--json" else []
            compare(f"bash: {name} {option}", behind(name, option, ""), wanted)
    for words in (("verify", "a.v"), ("compare", "a.v"), ("compare", "a.v", "b.txt")):
        compare(f"bash: any file behind {words}", behind(*words, ""), ["a.v", "b.txt", "sub"])
    compare("bash: no command", behind("other", "--"), [])


def zsh(_):
    told = Help()
    text = read("share", "secv.zsh")
    compare("zsh: the first word", dict(re.findall(r"^      '([a-z-]+):(.*)'$", text, re.M)), told.words)
    for name, value in re.findall(r"^  local (\w+)='(.*)'$", text, re.M):
        text = text.replace(f"${name} ", f"'{value}' ")
    arms = dict(re.findall(r"^    ([a-z]+)\)\s(.*?);;$", text, re.M | re.S))
    rows = {name: re.findall(r"'(--[a-z]+)(=?)\[(.*?)\](?:'|:[a-z]+:(?: |_files)')", arm) for name, arm in arms.items()}
    compare("zsh: options", {name: {option: what for option, _, what in found} for name, found in rows.items()}, {name: told.of(name) for name in told.options})
    compare("zsh: flags", {name: {option for option, takes, _ in found if not takes} for name, found in rows.items()}, {name: told.flags(name) for name in told.options})
    compare("zsh: --help", [name for name, arm in arms.items() if "'(-)--help[" not in arm], [])
    if shutil.which("zsh"):
        compare("zsh reads it", printed("zsh", "-n", os.path.join(TOP, "share", "secv.zsh")), "")
    else:
        leave_out("zsh reads share/secv.zsh", "zsh is not installed")


def fish(_):
    told = Help()
    rows = re.findall(r"^complete -c secv -n (?:'.*?_from ([a-z ]+)'|__fish_use_subcommand)(?: -f -a| -l) (\S+)( -[rx])? -d '(.*)'$", read("share", "secv.fish"), re.M)
    first = {word if word in told.options else f"--{word}": what for names, word, _, what in rows if not names}
    compare("fish: the first word", first, told.words)
    found = {name: {f"--{word}": (takes, what) for names, word, takes, what in rows if word != "help" and name in names.split()} for name in told.options}
    compare("fish: options", {name: {word: what for word, (_, what) in options.items()} for name, options in found.items()}, {name: told.of(name) for name in told.options})
    compare("fish: flags", {name: {word for word, (takes, _) in options.items() if not takes} for name, options in found.items()},
            {name: told.flags(name) for name in told.options})
    compare("fish: --help", [names.split() for names, word, takes, _ in rows if names and not takes and word == "help"], [list(told.options)])
    if shutil.which("fish"):
        compare("fish reads it", printed("fish", "--no-execute", os.path.join(TOP, "share", "secv.fish")), "")
    else:
        leave_out("fish reads share/secv.fish", "fish is not installed")


def texts_of_source(folder):
    """Where no program stands and none is released, the launcher prints the program's texts, from its source."""
    os.makedirs(os.path.join(folder, "crates", "secv"))
    for name in ("secv", "crates.txt"):
        shutil.copy(os.path.join(TOP, name), folder)
    for name in ("tools", "crates/secv/src"):
        shutil.copytree(os.path.join(TOP, name), os.path.join(folder, name))
    for word in ("--help", "-h", "--version"):
        compare(f"{word} of the source", printed(os.path.join(folder, "secv"), word), printed(SECV, word))


if __name__ == "__main__":
    finish([installs, written, page, bash, zsh, fish, texts_of_source])
