#!/usr/bin/env python3
"""Tries the launcher ./secv on a small checkout of four crates, with a stand-in for the kit that proves nothing: when it builds and when
not, two first builds at once, a build that is stopped or fails, a kit or a tool that is missing, and a checkout that cannot be written; when
the program of release/ is used and when not, and tools/release, which makes it. The last line is 'N passed, M failed'.
"""
import gzip
import hashlib
import os
import re
import shutil
import signal
import subprocess
import time

from harness import MOST_SECONDS, TOP, compare, end, in_folders, printed

NOBODY = 65534
BUILDING = "secv: building, once: every function is proved to meet its contract before the program is made, which takes an hour or more\n"
STOPPED = "secv: the build was stopped; what it has proved is kept\n"
RELEASED = "secv: this is the program of release/, made from commit {}; 'rt ci' or './secv --build' proves and builds it again\n"
BROKEN = "secv: release/secv.gz is broken, and not used: it does not hold the bytes that release/ABOUT names\n"
NO_RUN = "secv: the program of release/ does not run on this machine, and is not used\n"
NO_TEXT = "secv: this text is the program's, which is not built, and release/ is not of these sources; './secv --build' builds it\n"
# Keeps each call of it. What it does at the first of a build is what the file `then` says: nothing, or to wait, or to fail with these lines.
KIT = r"""#!/bin/sh
echo "$*" >>"$KIT/calls"
case $1 in
  version) cat "$KIT/version" ;;
  lib | run)
    [ -e "$KIT/proved" ] || sh -c 'echo $$ >"$KIT/child"; . "$KIT/then"' || exit
    [ "$1" = run ] || { mkdir -p out/rlib && basename "$PWD" >>"$KIT/proved"; exit; }
    mv "$KIT/proved" "$KIT/last" 2>/dev/null
    mkdir -p out && printf '#!/bin/sh\necho "made of $(cat "%s/low/src/lib.rt"): $*$(cat)"; exit 3\n' "$(cd .. && pwd)" >out/secv && chmod +x out/secv ;;
esac
"""
# The program's texts stand in its source so.
MAIN = r'''const HELP: &str =
    "secv checks.

usage:
  secv --version
";

const VERSION: &str = "secv 1.2\n";

fn main() {}
'''
OPEN = """checked low::f, 1 of 1
note: src/lib.rt:9:16: it is not proved that the product fits its type; values at which this goal is false
fn low::f: no proof: expected answers in ./proofs/f/Answers.antt
help: write ./proofs/f/Answers.antt
"""


class Checkout:
    """A checkout of the launcher and four crates, of which the program stands on three, and the stand-in."""

    def __init__(self, folder):
        os.chmod(folder, 0o755)
        self.top, self.kit = os.path.join(folder, "a checkout"), os.path.join(folder, "kit")
        for crate in ("low", "other", "sv_cli", "secv"):
            os.makedirs(os.path.join(self.top, "crates", crate, "src"))
            self.write(f"crates/{crate}/src/lib.rt", "one")
        self.write("crates/secv/src/main.rt", MAIN)
        self.write("crates.txt", "# crates, lowest first\nlow: thiserror\nother: low\nsv_cli: low\nsecv: low sv_cli\n")
        shutil.copy(os.path.join(TOP, "secv"), self.top)
        for name in ("tools", "tests"):
            shutil.copytree(os.path.join(TOP, name), os.path.join(self.top, name), ignore=shutil.ignore_patterns("__pycache__"))
        os.mkdir(self.kit)
        self.of_kit("rattle-kit")
        with open(os.path.join(self.kit, "rt"), "w", encoding="ascii") as file:
            file.write(KIT)
        os.chmod(os.path.join(self.kit, "rt"), 0o755)
        self.then("")

    def write(self, path, text):
        with open(os.path.join(self.top, path), "w", encoding="ascii") as file:
            file.write(text)

    def then(self, text):
        with open(os.path.join(self.kit, "then"), "w", encoding="ascii") as file:
            file.write(text)

    def of_kit(self, line):
        with open(os.path.join(self.kit, "version"), "w", encoding="ascii") as file:
            file.write(f"{line}\n")

    def start(self, *words, path=None, env=None, tool="secv", stdin=subprocess.DEVNULL, **more):
        env = {**os.environ, "KIT": self.kit, "PATH": path or f"{self.kit}:{os.environ['PATH']}", **(env or {})}
        return subprocess.Popen([os.path.join(self.top, tool), *words], stdin=stdin, stdout=subprocess.PIPE, stderr=subprocess.PIPE, text=True, env=env, **more)

    def run(self, *words, **more):
        """What it prints, what it says without the times, and its status."""
        return ended(self.start(*words, **more))

    def calls(self):
        """The calls that proved or built something since the last time."""
        path = os.path.join(self.kit, "calls")
        told = []
        if os.path.exists(path):
            with open(path, encoding="ascii") as file:
                told = [line.split()[0] for line in file if not line.startswith("version")]
            os.remove(path)
        return told

    def proved(self):
        """The libraries that the last build proved before the program, in their order."""
        with open(os.path.join(self.kit, "last"), encoding="ascii") as file:
            return file.read().split()

    def logs(self):
        out = os.path.join(self.top, "crates", "secv", "out")
        return sorted(name for name in os.listdir(out) if name.endswith(".log"))

    def child(self):
        """The stand-in's process that waits, once it is there."""
        path = os.path.join(self.kit, "child")
        until = time.time() + MOST_SECONDS
        while time.time() < until:
            if os.path.exists(path):
                with open(path, encoding="ascii") as file:
                    number = file.read()
                if number.endswith("\n"):
                    os.remove(path)
                    return int(number)
            time.sleep(0.05)
        raise TimeoutError("no build began")


def ended(process):
    out, said = process.communicate(timeout=MOST_SECONDS)
    return out, re.sub(r"(?m)^secv: .*, \d+:\d\d so far\n", "", said), process.returncode


def is_there(number):
    try:
        with open(f"/proc/{number}/stat", encoding="ascii") as file:
            return file.read().split()[2] not in "ZX"
    except FileNotFoundError:
        return False


def goes(number):
    """Whether it ends soon."""
    until = time.time() + MOST_SECONDS / 10
    while is_there(number) and time.time() < until:
        time.sleep(0.05)
    return not is_there(number)


def builds(at):
    """It builds the first time and where a source changed, also while it built; a touched file or another crate is no reason."""
    compare("a first build", at.run("a", "b c"), ("made of one: a b c\n", BUILDING, 3))
    calls = at.calls()
    compare("one build of the program", calls[-1:], ["run"])
    # With one job all is one call.
    if calls != ["run"]:
        compare("what the program stands on comes first", (calls, at.proved()), (["lib", "lib", "run"], ["low", "sv_cli"]))
    compare("its log", len(at.logs()), 1)
    compare("no second build", (at.run("d"), at.calls()), (("made of one: d\n", "", 3), []))
    for crate, text in (("low", "one"), ("other", "two")):
        at.write(f"crates/{crate}/src/lib.rt", text)
        compare(f"no build for {crate}, {text}", (at.run(), at.calls()), (("made of one: \n", "", 3), []))
    at.write("crates/low/src/lib.rt", "two")
    compare("a build for a change", at.run(), ("made of two: \n", BUILDING, 3))
    compare("a log of its own", len(at.logs()), 2)
    at.then(f"echo three >'{at.top}/crates/low/src/lib.rt'\n")
    at.write("crates/low/src/lib.rt", "2")
    at.run()
    at.then("")
    at.calls()
    compare("a build for a change while it built", (at.run()[1:], "run" in at.calls()), ((BUILDING, 3), True))
    link = os.path.join(at.kit, "link")
    os.symlink(os.path.join(at.top, "secv"), link)
    answer = subprocess.run([link, "e"], stdout=subprocess.PIPE, check=False, cwd=at.kit)
    compare("through a link, without a kit", (answer.stdout, answer.returncode), (b"made of three: e\n", 3))


def replaced(at):
    """It builds again where another build left a program of other sources, and keeps what a gate left where no source is newer."""
    program, stamp = (os.path.join(at.top, "crates", "secv", "out", name) for name in ("secv", "built-from"))
    at.run()
    with open(program, "a", encoding="ascii") as file:
        file.write("# of other sources\n")
    at.write("crates/low/src/lib.rt", "one")
    at.calls()
    compare("another build's program", (at.run()[1:], "run" in at.calls()), ((BUILDING, 3), True))
    os.remove(stamp)
    compare("a gate's program", (at.run(), at.calls()), (("made of one: \n", "", 3), []))
    at.write("crates/low/src/lib.rt", "one")
    compare("a gate's program, and a touched file", (at.run(), at.calls()), (("made of one: \n", "", 3), []))
    os.remove(stamp)
    at.write("crates/low/src/lib.rt", "two")
    os.utime(program, (time.time() - 60, time.time() - 60))
    compare("a source that changed while a gate ran", (at.run()[1:], "run" in at.calls()), ((BUILDING, 3), True))


def at_once(at):
    """Of two first builds the second waits, says so, and builds nothing."""
    at.then('while [ ! -e "$KIT/go" ]; do sleep 0.05; done\n')
    first = at.start("first")
    at.child()
    second = at.start("second")
    said = second.stderr.readline()
    open(os.path.join(at.kit, "go"), "w", encoding="ascii").close()
    compare("the first build", ended(first), ("made of one: first\n", BUILDING, 3))
    compare("the second says that it waits", said, "secv: another build of it runs; waiting for its end\n")
    compare("the second", ended(second), ("made of one: second\n", "", 3))
    compare("built once", at.calls().count("run"), 1)


def stopped(at):
    """A signal ends the build with all that it started, and one that waits for a build too."""
    at.then("sleep 50 & wait\n")
    for number in (signal.SIGINT, signal.SIGTERM, signal.SIGHUP):
        build = at.start()
        child = at.child()
        waiting = at.start()
        waiting.stderr.readline()
        waiting.send_signal(number)
        compare(f"{number.name} while it waits", ended(waiting), ("", "secv: stopped while it waited; the other build goes on\n", 70))
        compare("the build goes on", is_there(child), True)
        build.send_signal(number)
        compare(f"{number.name} while it builds", ended(build), ("", BUILDING + STOPPED, 70))
        compare(f"{number.name} ends the build", goes(child), True)
        compare(f"{number.name} leaves no lane", os.path.exists(out_of(at, "lanes")), False)
    at.then("")
    compare("it builds then", at.run(), ("made of one: \n", BUILDING, 3))


def fails(at):
    """A failed proof shows the open goal, and is tried again the next time."""
    at.then(f"cat <<'end'\n{OPEN}end\nexit 1\n")
    for _ in range(2):
        out, said, status = at.run()
        log = os.path.join(at.top, "crates", "secv", "out", at.logs()[-1])
        goal = "".join(OPEN.splitlines(True)[1:3])
        compare("a failed proof", (out, said, status), ("", f"{BUILDING}{goal}secv: the build failed; all of it is in {log}\n", 70))
        compare("a failed proof leaves no lane", os.path.exists(out_of(at, "lanes")), False)
    at.then("")
    compare("it builds then", at.run(), ("made of one: \n", BUILDING, 3))


def tools_but(at, missing):
    """A folder with every command of the PATH but this one."""
    tools = os.path.join(at.kit, f"without {missing}")
    os.mkdir(tools)
    for folder in reversed(os.get_exec_path()):
        for name in os.listdir(folder) if os.path.isdir(folder) else []:
            if name != missing:
                path = os.path.join(tools, name)
                if os.path.lexists(path):
                    os.remove(path)
                os.symlink(os.path.join(folder, name), path)
    return tools


def without_a_kit(at):
    tools = tools_but(at, "rt")
    said = "secv: it has to be built, and building needs the Rattle kit: install it and put its bin folder on the PATH, so that 'rt version' answers\n"
    compare("without a kit", at.run(path=tools), ("", said, 70))
    at.run()
    compare("without a kit, once it is built", at.run("a", path=tools), ("made of one: a\n", "", 3))
    at.write("crates/low/src/lib.rt", "two")
    compare("without a kit, after a change", at.run(path=tools), ("", said, 70))


def without_a_tool(at):
    """It does not take a missing tool for another build that runs."""
    said = "secv: it has to be built, and building needs flock and setsid (util-linux)\n"
    paths = {missing: f"{at.kit}:{tools_but(at, missing)}" for missing in ("flock", "setsid")}
    for missing, path in paths.items():
        compare(f"without {missing}", (at.run(path=path), at.calls()), (("", said, 70), []))
    at.run()
    for missing, path in paths.items():
        compare(f"without {missing}, once it is built", at.run("a", path=path), ("made of one: a\n", "", 3))


def not_writable(at):
    out = os.path.join(at.top, "crates", "secv", "out")
    more = {"user": NOBODY, "group": NOBODY, "extra_groups": []} if os.geteuid() == 0 else {}
    said = f"secv: it has to be built, and {out} cannot be written, so it cannot be built here\n"
    folders = [folder for folder, _, _ in os.walk(at.top)]

    def allow(mode):
        for folder in folders:
            os.chmod(folder, mode)

    allow(0o555)
    compare("a checkout that cannot be written", at.run(**more), ("", said, 70))
    allow(0o755)
    os.mkdir(out)
    open(os.path.join(out, "lock"), "w", encoding="ascii").close()
    os.chmod(os.path.join(out, "lock"), 0o444)
    os.chmod(out, 0o777)
    compare("a lock that cannot be written", at.run(**more), ("", said, 70))
    os.remove(os.path.join(out, "lock"))
    at.run()
    allow(0o555)
    compare("one that is built and cannot be written", at.run("a", **more), ("made of one: a\n", "", 3))
    at.write("crates/low/src/lib.rt", "one")
    compare("the same with a touched file", at.run("a", **more), ("made of one: a\n", "", 3))
    allow(0o755)


def git(at, *words):
    """What git prints in the checkout."""
    return printed("git", "-c", "user.name=a", "-c", "user.email=a@b", *words, cwd=at.top, stderr=subprocess.DEVNULL).strip()


def out_of(at, *name):
    return os.path.join(at.top, "crates", "secv", "out", *name)


def gate(at):
    """Does what the gate does where all passes: leaves the program, and what it was made from."""
    at.run("--build")
    at.calls()
    here = 'top=$1; . "$1/tools/sources.sh"; stamp_of "$(sum_of_sources)" "$(kit_here)" "$1/crates/secv/out/secv"'
    told = printed("sh", "-c", here, "sh", at.top, env={**os.environ, "KIT": at.kit, "PATH": f"{at.kit}:{os.environ['PATH']}"})
    at.write("crates/secv/out/passed", told)


def release(at):
    """Makes release/ by tools/release from what a gate left, and removes what was built. Gives the commit."""
    at.write(".gitignore", "out/\n")
    for words in (["init"], ["add", "."], ["commit", "-m", "one"]):
        git(at, *words)
    gate(at)
    compare("release/ is made", at.run(tool="tools/release")[2], 0)
    shutil.rmtree(out_of(at))
    at.calls()
    return git(at, "rev-parse", "HEAD")


def released(at):
    """The program of release/ is unpacked once, is used without a kit and is said once; what is built goes before it."""
    commit = release(at)
    tools = tools_but(at, "rt")
    with open(os.path.join(at.top, ".gitignore"), encoding="ascii") as file:
        compare("the first answer", (at.run("a", "b c", path=tools, stdin=file), at.calls()), (("made of one: a b cout/\n", RELEASED.format(commit), 3), []))
    compare("the second", (at.run("a", path=tools), at.calls()), (("made of one: a\n", "", 3), []))
    compare("where it stands", at.run("--path"), (out_of(at, "released") + "\n", "", 0))
    at.write("crates/low/src/lib.rt", "one")
    compare("a touched file", (at.run("a"), at.calls()), (("made of one: a\n", "", 3), []))
    for word in ("--help", "--version"):
        compare(word, at.run(word), (f"made of one: {word}\n", "", 3))
    os.utime(os.path.join(at.top, "release", "ABOUT"))
    compare("a touched release/", at.run("a"), ("made of one: a\n", "", 3))
    with open(out_of(at, "released"), "a", encoding="ascii") as file:
        file.write("# of other bytes\n")
    at.write("crates/low/src/lib.rt", "one")
    compare("other bytes where it was unpacked", at.run("a"), ("made of one: a\n", RELEASED.format(commit), 3))
    build = at.run("--build")
    compare("--build gives its bytes", build, ("", f"{BUILDING}secv: built {out_of(at, 'secv')}; its bytes are those of release/\n", 0))
    compare("it was built", "run" in at.calls(), True)
    compare("what is built goes first", at.run("--path"), (out_of(at, "secv") + "\n", "", 0))
    at.write("crates/low/src/lib.rt", "two")
    compare("other sources", (at.run("a"), "run" in at.calls()), (("made of two: a\n", BUILDING, 3), True))
    compare("--build of other sources", at.run("--build"),
            ("", f"{BUILDING}secv: built {out_of(at, 'secv')}; release/ is of other sources or another kit\n", 0))
    at.write("crates/low/src/lib.rt", "one")
    shutil.rmtree(out_of(at))
    compare("the first sources again", at.run("a"), ("made of one: a\n", RELEASED.format(commit), 3))


def not_released(at):
    """Another kit, another kind of machine, a broken file, a program that does not run and other bytes: each is told where it is a fault, and it builds."""
    release(at)
    built = ("made of one: a\n", BUILDING, 3)

    def anew(what, wanted, **more):
        shutil.rmtree(out_of(at), ignore_errors=True)
        compare(what, (at.run("a", **more), "run" in at.calls()), (wanted, True))

    at.of_kit("another-kit")
    anew("another kit", built)
    at.of_kit("rattle-kit")
    for answer in ("Linux aarch64", "Darwin x86_64"):
        with open(os.path.join(at.kit, "uname"), "w", encoding="ascii") as file:
            file.write(f'#!/bin/sh\nset -- "$1" {answer}\n[ "$1" = -s ] && echo "$2" || echo "$3"\n')
        os.chmod(os.path.join(at.kit, "uname"), 0o755)
        anew(answer, built)
    os.remove(os.path.join(at.kit, "uname"))
    path = os.path.join(at.top, "release", "secv.gz")
    with open(path, "rb") as file:
        whole = file.read()
    for what, data in (("half a file", whole[: len(whole) // 2]), ("other bytes", gzip.compress(b"#!/bin/sh\n")), ("no packed file", b"")):
        with open(path, "wb") as file:
            file.write(data)
        anew(what, ("made of one: a\n", BROKEN + BUILDING, 3))
        compare(f"{what}: what was unpacked is removed", [name for name in os.listdir(out_of(at)) if name.startswith("released")], [])
    os.remove(path)
    anew("a packed file that is missing", ("made of one: a\n", BROKEN + BUILDING, 3))
    with open(path, "wb") as file:
        file.write(gzip.compress(b"#!/nowhere/sh\n"))
    about = os.path.join(at.top, "release", "ABOUT")
    with open(about, encoding="ascii") as file:
        text = file.read()
    other = hashlib.sha256(b"#!/nowhere/sh\n").hexdigest()
    at.write("release/ABOUT", re.sub("(?m)^sha256: .*$", f"sha256: {other}", text))
    anew("a program that does not run here", ("made of one: a\n", NO_RUN + BUILDING, 3))
    said = f"{BUILDING}secv: built {out_of(at, 'secv')}; its bytes are NOT those of release/, which is of the same sources and the same kit\n"
    compare("--build with other bytes", at.run("--build"), ("", said, 71))
    os.remove(about)
    anew("no release/ABOUT", built)


def makes_release(at):
    """tools/release takes only what was built, or a gate passed, of these sources, this kit and this commit, and leaves what is the same."""
    def refuses(what, why):
        out, said, status = at.run(tool="tools/release")
        compare(what, (out, said, status, os.path.exists(os.path.join(at.top, "release"))), ("", f"tools/release: {why}\n", 1, False))

    at.write(".gitignore", "out/\n")
    for words in (["init"], ["add", "."], ["commit", "-m", "one"]):
        git(at, *words)
    refuses("nothing built", "no program was built here: run ./secv --build first")
    for build in (lambda: at.run("--build"), lambda: gate(at)):
        at.write("crates/low/src/lib.rt", "one")
        build()
        at.of_kit("another-kit")
        refuses("another kit", "the program here was built by another kit: run ./secv --build again")
        at.of_kit("rattle-kit")
        at.write("crates/low/src/lib.rt", "two")
        refuses("other sources", "the program here was built of other sources: run ./secv --build again")
        build()
        refuses("sources of no commit", "the sources are not those of the last commit: commit them first")
        git(at, "commit", "-am", "two")
        with open(out_of(at, "secv"), "a", encoding="ascii") as file:
            file.write("# of other bytes\n")
        refuses("other bytes", "crates/secv/out/secv is not what was built: run ./secv --build again")
        build()
        commit = git(at, "rev-parse", "HEAD")
        compare("made", at.run(tool="tools/release"), (f"release/ is of commit {commit}; commit it, and run .ci/run\n", "", 0))
        shutil.rmtree(os.path.join(at.top, "release"))
        at.write("crates/low/src/lib.rt", "one")
        git(at, "commit", "-am", "one")
        shutil.rmtree(out_of(at))
    build()
    compare("made of the sources before", at.run(tool="tools/release")[2], 0)
    compare("two files", sorted(os.listdir(os.path.join(at.top, "release"))), ["ABOUT", "secv.gz"])
    git(at, "add", ".")
    git(at, "commit", "-m", "release")
    compare("made again", at.run(tool="tools/release"), ("release/ is of these sources already\n", "", 0))
    compare("it is left as it is", git(at, "status", "--porcelain"), "")


def looks(at):
    """The gate's look at release/ passes where it is of these sources and this kit and has the bytes that were built, and else says what to do."""
    renew = "run tools/release, commit release/, and run .ci/run again\n"

    def look(what, passes, fails):
        out, _, status = at.run(tool="tools/release.py")
        wanted = (f"{passes} passed, {fails} failed", not fails or f"release/ has to be renewed: {renew}" in out, 1 if fails else 0)
        compare(f"the look at {what}", (out.splitlines()[-1], not fails or f"release/ has to be renewed: {renew}" in out, status), wanted)

    compare("the look at no release/", at.run(tool="tools/release.py"), (f"there is no release/ of the program: {renew}0 passed, 1 failed\n", "", 1))
    release(at)
    gate(at)
    look("one of the same", 6, 0)
    at.of_kit("another-kit")
    look("one of another kit", 5, 1)
    at.of_kit("rattle-kit")
    at.write("crates/other/src/lib.rt", "two")
    look("one of the same, where another crate changed", 6, 0)
    at.write("crates/low/src/lib.rt", "two")
    look("one of other sources", 4, 2)
    at.write("crates/low/src/lib.rt", "one")
    with open(out_of(at, "secv"), "a", encoding="ascii") as file:
        file.write("# of other bytes\n")
    look("one of other bytes", 4, 2)
    gate(at)
    path = os.path.join(at.top, "release", "secv.gz")
    with open(path, "rb") as file:
        whole = file.read()
    with open(path, "wb") as file:
        file.write(whole[: len(whole) // 2])
    look("a broken one", 5, 1)


def texts(at):
    """No text about the program is a reason to build; where no program stands, it is the one of the source."""
    help_text = MAIN.partition('"')[2].partition('";')[0]
    for _ in range(2):
        for word in ("--help", "-h"):
            compare(word, (at.run(word), at.calls()), ((help_text, "", 0), []))
        compare("--version", (at.run("--version"), at.calls()), (("secv 1.2\n", "", 0), []))
        compare("check --help", (at.run("check", "--help"), at.calls()), (("", NO_TEXT, 70), []))
        at.write("crates/secv/out/secv" if os.path.isdir(out_of(at)) else "crates/low/src/lib.rt", "of other sources")
    with open("/dev/full", "wb") as full:
        answer = subprocess.run([os.path.join(at.top, "secv"), "--version"], stdout=full, stderr=subprocess.PIPE, check=False)
        compare("--version to a full device", (answer.stderr, answer.returncode), (b"secv: the output could not be written\n", 5))
    at.write("crates/secv/src/main.rt", MAIN.replace("checks.", "checks \\u{41}."))
    compare("a text that is not plain", (at.run("--help"), at.calls()), (("", NO_TEXT, 70), []))
    at.run()
    compare("--help, once it is built", at.run("--help"), ("made of of other sources: --help\n", "", 3))
    compare("more words than --help", at.run("--help", "a"), ("made of of other sources: --help a\n", "", 3))


def in_own_place(at):
    """Where the checkout cannot be written the released program is unpacked into a folder of the user's own, and into none that others can write."""
    commit = release(at)
    more = {"user": NOBODY, "group": NOBODY, "extra_groups": []} if os.geteuid() == 0 else {}
    cache, rest = os.path.join(at.kit, "cache"), os.path.join(at.kit, "rest")
    for folder in (cache, rest):
        os.mkdir(folder)
        os.chmod(folder, 0o777)
    folders = [folder for folder, _, _ in os.walk(at.top)]
    for folder in folders:
        os.chmod(folder, 0o555)
    env = {"XDG_CACHE_HOME": cache, "TMPDIR": rest}
    for what, given, at_folder in (("the cache", env, cache), ("no cache", {**env, "XDG_CACHE_HOME": "/dev/null"}, rest)):
        compare(f"{what}, first", (at.run("a", env=given, **more), at.calls()), (("made of one: a\n", RELEASED.format(commit), 3), []))
        compare(f"{what}, then", (at.run("a", env=given, **more), at.calls()), (("made of one: a\n", "", 3), []))
        path = at.run("--path", env=given, **more)[0]
        compare(f"{what}, its place", (path.startswith(at_folder + os.sep), os.stat(os.path.dirname(path.strip())).st_mode & 0o777), (True, 0o700))
    os.chmod(os.path.join(cache, "secv"), 0o777)
    compare("a cache that others can write", at.run("--path", env=env, **more)[0].startswith(rest + os.sep), True)
    said = f"secv: it has to be built, and {out_of(at)} cannot be written, so it cannot be built here\n"
    compare("no place at all", at.run(env={"XDG_CACHE_HOME": "/dev/null", "TMPDIR": "/dev/null"}, **more), ("", said, 70))
    for folder in folders:
        os.chmod(folder, 0o755)


def main():
    # What was begun by nohup or in the background has signals ignored, and a shell that has one so from the start cannot take it back. They stay without
    # effect here, by a handler, which what is started does not get.
    for number in (signal.SIGINT, signal.SIGTERM, signal.SIGHUP):
        if signal.getsignal(number) == signal.SIG_IGN:
            signal.signal(number, lambda *_: None)
    signal.pthread_sigmask(signal.SIG_SETMASK, [])
    groups = (builds, replaced, at_once, stopped, fails, without_a_kit, without_a_tool, not_writable, released, not_released, makes_release, looks, texts,
              in_own_place)
    in_folders(lambda folder, group=group: group(Checkout(folder)) for group in groups)
    end()


if __name__ == "__main__":
    main()
