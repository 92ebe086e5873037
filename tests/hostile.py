#!/usr/bin/env python3
"""What `./secv` answers to an enemy who writes the design, the stimulus and the certificate, and takes files, disk and streams away: texts and certificates
that are cut or damaged, a small one of each damaged at each byte, outputs and certificates of which the system takes so many bytes and no more, for each
number, streams that are closed, full or no longer read, files of every kind, and signals while a certificate is stored. Wider damage and want of memory are
tried by tools/damage and tools/refuse-memory. The last line is 'N passed, M failed'.
"""
import fcntl
import os
import re
import resource
import shutil
import signal
import subprocess
import threading
import time

import damage
import harness
from harness import MOST_SECONDS, compare, finish, held, program_here, put, status_of
from outputs import GATE, STIMULUS, TURN
from verdicts import BY_HAND, LANES
from worked import ROWS

# A way into an accepted text of so many levels.
LEVELS = "module m(input a, output reg y); always @* {}y = a;{} endmodule"
CUT = [
    ("labelmap Dom [0:0] 0: L; def", "refused 201 unexpected 1:26\n"),
    ("module m; /* x", "refused 103 open-comment 1:11\n"),
    (LEVELS.format("begin " * 64, " end" * 64), "accepted 1 obligations\n"),
    (LEVELS.format("begin " * 65, " end" * 65), "refused 203 too-deep 1:428\n"),
]
PROOFS = [
    ("", "refused proof 1\n"),
    (BY_HAND.replace("o 1 1", "o 01 1"), "refused proof 3\n"),
    (BY_HAND.replace("obligations 2", "obligations 3"), "refused proof 7\n"),
    (BY_HAND.replace("obligations 2", "obligations 1").replace("o 2 1\n0 1 3 0\n", ""), "refused proof 2\n"),
]
SYNTAX = re.compile(r"refused (?:10[1-4]|20[1-4]) [a-z-]+ \d+:\d+(?: \S+)*\n")
FULL = "secv: the output could not be written: No space left on device (os error 28)\n"
CLOSED = "secv: the output could not be written: Bad file descriptor (os error 9)\n"
UNREAD = "secv: the output could not be written: Broken pipe (os error 32)\n"
TOO_LARGE = "File too large (os error 27)"
NO_INPUT = "secv: the input could not be read: Bad file descriptor (os error 9)\n"
MISSING, FOLDER, LOOP = "No such file or directory (os error 2)", "Is a directory (os error 21)", "Too many levels of symbolic links (os error 40)"
LONG, DENIED, NO_DEVICE = "File name too long (os error 36)", "Permission denied (os error 13)", "No such device or address (os error 6)"
FILES = {"f": TURN, "p": BY_HAND, "A": "inputs turn a b\n0 1 0\n", "B": "inputs turn a b\n0 1 1\n"}
# Words whose file `?` is read, and such as store a certificate in it.
READERS = ["check ?", "verify ? p", "verify f ?", "list ?", "cnf ? 1", "sim ?", "compare ? A B --level L", "compare f ? B --level L", "compare f A ? --level L"]
STORERS = ["check f --proof ?", "check f --json --proof ?"]
NOBODY = 65534


def told(folder, words, given="", **more):
    """What the program itself writes, without the launcher, what it says to a person, and its status."""
    return harness.told(folder, words, given=given.encode(), program=program_here(), **more)


def cut(folder):
    """Texts and certificates that are cut or damaged, and every front of a text that ends before the last byte of its last word."""
    for text, wanted in CUT:
        put(folder, "f", text)
        compare(f"check f: {text[:60]!r}", told(folder, "check f")[::2], (wanted, status_of(wanted)))
    for end in range(len(TURN.rstrip("\n"))):
        put(folder, "f", TURN[:end])
        answer, _, status = told(folder, "check f")
        compare(f"a front of {end} bytes: {answer}", (SYNTAX.fullmatch(answer) is not None, status), (True, 1))
    put(folder, "f", TURN)
    for proof, wanted in PROOFS:
        put(folder, "p", proof)
        compare(f"verify f p: {proof!r}", told(folder, "verify f p")[::2], (wanted, 1))


def damages(folder):
    """A small design, stimulus and certificate, damaged at each byte; tools/damage tries larger ones."""
    place = damage.Place(folder, program_here())
    damage.designs(place, {"a gate": GATE})
    damage.stimuli(place, [row for row in damage.STIMULI if row[3] == STIMULUS])
    damage.certificates(place, [TURN])
    damage.sizes(place, {"1 MB": 1 << 20})


def fill(folder, row):
    for name, text in row.files.items():
        put(folder, name, text)


def unlink(folder, name):
    path = os.path.join(folder, name)
    if os.path.lexists(path):
        os.remove(path)


def most_bytes(count):
    """Lets files have so many bytes, behind which a write fails, and does not end the program by a signal."""
    signal.signal(signal.SIGXFSZ, signal.SIG_IGN)
    resource.setrlimit(resource.RLIMIT_FSIZE, (count, count))


def limited(folder, row, count):
    """What the output holds, what is said to a person, and the status, where it takes so many bytes."""
    path = os.path.join(folder, "told")
    with open(path, "wb") as out:
        _, said, status = told(folder, row.words, row.given, stdout=out, restore_signals=False, preexec_fn=lambda: most_bytes(count))
    return held(folder, "told"), said, status


def fronts(folder):
    """Outputs that take so many bytes, for each number: these bytes of the answer are there, and the status is 5. So with NAME of `check --proof`, too."""
    for row in ROWS:
        if "--proof" in row.words or len(row.answer) > 500:
            continue
        fill(folder, row)
        wrong = [count for count in range(len(row.answer))
                 if limited(folder, row, count) != (row.answer[:count], f"secv: the output could not be written: {TOO_LARGE}\n", 5)]
        compare(f"{row.words}: an output of so many bytes", wrong, [])
        compare(f"{row.words}: an output of all bytes", limited(folder, row, len(row.answer))[::2], (row.answer, row.status))
    put(folder, "f", TURN)
    words = "check f --proof q"
    told(folder, words)
    whole = held(folder, "q")
    for before in (None, "old text that is longer than what is stored\n" * 9):
        for count in range(len(whole)):
            unlink(folder, "q")
            if before:
                put(folder, "q", before)
            answer = told(folder, words, restore_signals=False, preexec_fn=lambda most=count: most_bytes(most))
            compare(f"{words}, of which {count} bytes are stored", (*answer, held(folder, "q")), ("", f"secv: q: {TOO_LARGE}\n", 5, whole[:count]))


def streams(folder):
    """An output that is closed, full, or no longer read, and an input that is closed, for each row."""
    for row in ROWS:
        fill(folder, row)
        fault = 5 if row.answer else row.status
        with open("/dev/full", "wb") as full:
            answer = told(folder, row.words, row.given, stdout=full)
        compare(f"{row.words}: a full output", answer[1:], (FULL if row.answer else answer[1], fault))
        answer = told(folder, row.words, row.given, stdout=None, preexec_fn=lambda: os.close(1))
        compare(f"{row.words}: a closed output", answer[1:], (CLOSED if row.answer else answer[1], fault))
        reading, writing = os.pipe()
        os.close(reading)
        answer = told(folder, row.words, row.given, stdout=writing)
        os.close(writing)
        compare(f"{row.words}: an output that nobody reads", answer[1:], (UNREAD if row.answer else answer[1], fault))
        answer = told(folder, row.words, stdin=None, preexec_fn=lambda: os.close(0))
        if row.words.startswith("sim") and row.given:
            compare(f"{row.words}: a closed input", answer, ("", NO_INPUT, 4))
        else:
            compare(f"{row.words}: a closed input", (answer[0], answer[2]), (row.answer, row.status))
        closed = told(folder, row.words, stdin=None, stdout=None, stderr=None, preexec_fn=lambda: [os.close(number) for number in (0, 1, 2)])
        wanted = 4 if row.words.startswith("sim") and row.given else fault
        compare(f"{row.words}: all closed", closed[2], wanted)


def lay_out(folder):
    """Files of every kind; None where the name is of no file that can be."""
    for name, text in FILES.items():
        put(folder, name, text)
    os.mkdir(os.path.join(folder, "d"))
    for name, target in (("loop", "pool"), ("pool", "loop"), ("lost", "none"), ("link", "f")):
        os.symlink(target, os.path.join(folder, name))
    with open(os.path.join(folder, "mute"), "wb"):
        os.chmod(os.path.join(folder, "mute"), 0)


def files(folder):
    """Names that stand for no file, or for one that cannot be read or written: the file is named, nothing is written, and no file changes."""
    lay_out(folder)
    before = sorted(os.listdir(folder))
    none = [("d", FOLDER), (".", FOLDER), ("/", FOLDER), ("none", MISSING), ("none/f", MISSING), ("f/f", "Not a directory (os error 20)"), ("loop", LOOP),
            ("a" * 4096, LONG), ("a" * 256, LONG), ("d/" * 2048 + "f", LONG), ("./" * 2047 + "f/", "File name too long (os error 36)")]
    for lines, status, more in ((READERS, 4, [("lost", MISSING), ("", MISSING)]), (STORERS, 5, [("none/q", MISSING), ("/dev/full", "No space left on device (os error 28)")])):
        for line in lines:
            for name, cause in [*none, *more]:
                if status == 5 and name == "none":
                    continue
                words = [name if word == "?" else word for word in line.split()]
                compare(f"{line}, ? is {name[:20]!r}", told(folder, words), ("", f"secv: {name}: {cause}\n", status))
    compare("no file was left, changed or made", ({name: held(folder, name) for name in FILES}, sorted(os.listdir(folder))), (FILES, before))
    for line in READERS:
        for name, wanted in (("link", None), ("/dev/null", 1), ("/dev/full", 1), ("/dev/zero", 1)):
            words = [name if word == "?" else word for word in line.split()]
            answer = told(folder, words)
            compare(f"{line}, ? is {name}: {answer}", answer[2] in ((0, 1) if wanted is None else (wanted,)) and answer[0] != "", True)


def denied(folder):
    """Files without leave to read or to write them, where the program is run by somebody who has none."""
    lay_out(folder)
    tool = shutil.copy(program_here(), os.path.join(folder, "secv"))
    for name in (folder, tool):
        os.chmod(name, 0o755)
    someone = {"user": NOBODY} if os.geteuid() == 0 else {}
    if not someone:
        os.chmod(os.path.join(folder, "f"), 0o644)
        os.chmod(folder, 0o555)
    for line, status, name in [*((line, 4, "mute") for line in READERS), *((line, 5, name) for line in STORERS for name in ("mute", "q"))]:
        words = [name if word == "?" else word for word in line.split()]
        answer = harness.told(folder, words, program=tool, **someone)
        compare(f"{line}, ? is {name}, without leave", answer, ("", f"secv: {name}: {DENIED}\n", status))
    os.chmod(folder, 0o755)


def feed(path, pieces):
    with open(path, "wb") as pipe:
        for piece in pieces:
            pipe.write(piece)
            pipe.flush()
            time.sleep(0.01)


def pipes(folder):
    """Pipes as files, that come in pieces, are empty or go on without end; NAME as a pipe; a file that grows while it is read."""
    put(folder, "f", TURN)
    os.mkfifo(os.path.join(folder, "pipe"))
    path = os.path.join(folder, "pipe")
    for words, pieces, wanted in (("check pipe", [TURN[:50].encode(), TURN[50:].encode()], "accepted 2 obligations\n"), ("check pipe", [], "refused 201 unexpected 1:1\n"),
                                  ("verify f pipe", [line.encode() + b"\n" for line in BY_HAND.split("\n")[:-1]], "accepted 2 obligations\n"),
                                  ("verify f pipe", [BY_HAND[:40].encode()], "refused proof 4\n")):
        writer = threading.Thread(target=feed, args=(path, pieces))
        writer.start()
        compare(f"{words}, {len(pieces)} pieces", told(folder, words)[::2], (wanted, status_of(wanted)))
        writer.join()
    endless = subprocess.Popen(["sh", "-c", "exec yes >pipe"], cwd=folder, stderr=subprocess.DEVNULL)
    compare("a pipe without end", told(folder, "check pipe")[::2], ("refused 701 file-size\n", 1))
    compare("its writer is let go", endless.wait(MOST_SECONDS) != 0, True)
    store = subprocess.Popen([program_here(), "check", "f", "--proof", "pipe"], cwd=folder, stdout=subprocess.PIPE)
    with open(path, encoding="ascii") as pipe:
        stored = pipe.read()
    compare("NAME as a pipe", (stored.startswith("secv-proof 1\n"), stored.endswith("end\n"), store.communicate()[0], store.returncode), (True, True, b"accepted 2 obligations\n", 0))
    grown = os.path.join(folder, "grown")
    for _ in range(20):
        with open(grown, "wb") as file:
            file.write(b" " * 500000)
            file.flush()
            ends = threading.Event()
            writer = threading.Thread(target=grow, args=(file, ends))
            writer.start()
            answer, _, status = told(folder, "check grown")
            ends.set()
            writer.join()
        size = os.path.getsize(grown)
        found = re.fullmatch(r"refused 201 unexpected 1:(\d+)\n", answer)
        compare(f"a file that grows to {size}: {answer}", (answer == "refused 701 file-size\n" or 500000 < int(found[1] if found else 0) <= 1048577, status), (True, 1))


def grow(file, ends):
    while not ends.is_set():
        file.write(b" " * 4096)
        file.flush()


def signals(folder):
    """A signal while a certificate is stored: NAME holds what it held, or a front of the certificate, and the program ends by the signal or is done."""
    put(folder, "f", LANES)
    begun = time.monotonic()
    told(folder, "check f --proof whole")
    took, whole = time.monotonic() - begun, held(folder, "whole")
    os.mkfifo(os.path.join(folder, "pipe"))
    for number in (signal.SIGINT, signal.SIGTERM):
        for part in range(24):
            put(folder, "q", "old\n")
            program_run = subprocess.Popen([program_here(), "check", "f", "--proof", "q"], cwd=folder, stdout=subprocess.PIPE, stderr=subprocess.PIPE)
            time.sleep(took * part / 20)
            program_run.send_signal(number)
            answer, _ = program_run.communicate()
            after, status = held(folder, "q"), program_run.returncode
            good = (status == -number and answer in (b"", b"accepted 2800 obligations\n") and (after == "old\n" or whole.startswith(after))) or (
                status == 0 and answer == b"accepted 2800 obligations\n" and after == whole)
            compare(f"{number.name} after {part} parts of 20: {status} {answer!r} {after[:40]!r}", good, True)
        # a pipe that takes a page, of which a few bytes are read
        with open(os.open(os.path.join(folder, "pipe"), os.O_RDONLY | os.O_NONBLOCK), "rb", buffering=0) as pipe:
            fcntl.fcntl(pipe, fcntl.F_SETPIPE_SZ, 4096)
            os.set_blocking(pipe.fileno(), True)
            program_run = subprocess.Popen([program_here(), "check", "f", "--proof", "pipe"], cwd=folder, stdout=subprocess.PIPE)
            first = b""
            while len(first) < 100:
                first += pipe.read(100 - len(first))
            program_run.send_signal(number)
            answer = program_run.communicate()[0]
            stored = (first + pipe.readall()).decode()
        compare(f"{number.name} in the middle of the store: {len(stored)} bytes", (program_run.returncode, answer, whole.startswith(stored), stored != whole),
                (-number, b"", True, True))


if __name__ == "__main__":
    # (where it was begun in the background INT is ignored, and so it would be by all that it starts)
    signal.signal(signal.SIGINT, signal.default_int_handler)
    finish((cut, damages, fronts, streams, files, denied, pipes, signals))
