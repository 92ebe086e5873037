"""What the programs of tests/ share, and tools/ with them: the program that is run in a folder,
what it answers compared with what is wanted, and how many comparisons passed and failed.
"""
import functools
import os
import subprocess
import sys
import tempfile
import unicodedata

TOP = os.path.dirname(os.path.dirname(os.path.abspath(__file__)))
SECV = os.path.join(TOP, "secv")
MOST_SECONDS = 60
STATUS = {"accepted": 0, "equal": 0, "refused": 1, "differ": 1, "usage": 2, "unknown": 3}
COUNTS = {"passed": 0, "failed": 0, "not run": 0}


def compare(what, got, wanted):
    """Counts whether both are the same, and shows them where they are not."""
    if got == wanted:
        COUNTS["passed"] += 1
        return
    COUNTS["failed"] += 1
    print(f"{what}\n  wanted {wanted!r}"[:600] + f"\n  got    {got!r}"[:600])


def judge(what, good, seen):
    """Counts whether a run is as it is to be, and shows what was seen where it is not."""
    COUNTS["passed" if good else "failed"] += 1
    if not good:
        print(f"{what}: {seen!r}"[:600])


def leave_out(what, why):
    """Tells of what cannot be run on this machine, which has neither passed nor failed."""
    COUNTS["not run"] += 1
    print(f"not run: {what}: {why}")


def excerpt(text, place):
    """The line of a text at a place `LINE:COLUMN` and a caret below it, as they are shown to a
    person; nothing where the line is empty."""
    number, column = (int(part) for part in place.split(":"))
    lines = (text if isinstance(text, bytes) else text.encode()).split(b"\n")
    line = (lines + [b""] * number)[number - 1]
    at = min(column - 1, len(line))
    # of a long line 160 bytes, 100 of them at most before the place
    front = line[max(at - 100, 0) if len(line) > 160 else 0:at].decode(errors="replace")
    rest = line[at:max(at - 100, 0) + 160].decode(errors="replace").rstrip()
    shown = "".join(char if is_shown(char) else "\ufffd" for char in front + rest)
    return f"  {shown}\n  {''.join(room(char) for char in front)}^\n" if line else ""


def is_shown(char):
    """Whether a character can be seen, and leaves the line and the cursor as they are."""
    return char == "\t" or unicodedata.category(char) not in ("Cc", "Cf", "Zl", "Zp")


def room(char):
    """Blanks as wide as a character."""
    if char == "\t":
        return char
    if unicodedata.combining(char):
        return ""
    return "  " if unicodedata.east_asian_width(char) in "WF" else " "


def explained(path, place, text, said):
    """What is to be said of a refusal with a place. The words behind that are taken from what was
    said: `tests/messages.py` has them."""
    words = said.partition("\n")[0].removeprefix(f"{path}:{place}: ")
    return f"{path}:{place}: {words}\n{excerpt(text, place)}"


def status_of(text):
    """The status that goes with a verdict."""
    return STATUS[text.split()[0]]


def put(folder, name, text):
    """Writes a file in a folder, a byte for each character, and gives its path."""
    path = os.path.join(folder, name)
    with open(path, "wb") as file:
        file.write(text if isinstance(text, bytes) else text.encode("latin-1"))
    return path


def put_zeros(folder, name, size):
    """Writes a file of so many zero bytes, which takes no room."""
    with open(os.path.join(folder, name), "wb") as file:
        file.truncate(size)


def held(folder, name):
    """What a file in a folder holds, or None where there is none."""
    path = os.path.join(folder, name)
    if not os.path.exists(path):
        return None
    with open(path, encoding="latin-1", newline="") as file:
        return file.read()


def limits(megabytes, stack=None):
    """What a shell is told so that a run has so many MB of memory, and so many KB of stack."""
    memory = f"ulimit -v {megabytes * 1024}"
    return f"ulimit -S -s {stack}; {memory}" if stack else memory


def call(folder, words, given=b"", bounds="", seconds=MOST_SECONDS, program=SECV, **more):
    """A run of the program: what it writes and what it says, in bytes, and its status, which is
    None where it takes too long. The words are a list, or a text where none has a blank or is
    empty; `given` is the input, and `bounds` what a shell is told before."""
    listed = [program, *(words.split() if isinstance(words, str) else words)]
    if bounds:
        listed = ["sh", "-c", f'{bounds}; exec "$@"', "sh", *listed]
    streams = {"stdout": subprocess.PIPE, "stderr": subprocess.PIPE, **more}
    if "stdin" not in streams:
        streams["input"] = given
    try:
        return subprocess.run(listed, cwd=folder, timeout=seconds, check=False, **streams)
    except subprocess.TimeoutExpired:
        late = f"nothing in {seconds} seconds".encode()
        return subprocess.CompletedProcess(listed, None, late, b"")


def told(folder, words, **more):
    """What the program writes, what it says to a person, and its status."""
    answer = call(folder, words, **more)
    return (answer.stdout or b"").decode(), (answer.stderr or b"").decode(), answer.returncode


def run(folder, words, **more):
    """What the program writes, and its status."""
    written, _, status = told(folder, words, **more)
    return written, status


def printed(*words, **more):
    """What another program prints, which has to end with status 0."""
    given = {"stdin": subprocess.DEVNULL, "stdout": subprocess.PIPE, "text": True, **more}
    return subprocess.run(words, check=True, **given).stdout


@functools.cache
def program_here():
    """The program itself: the launcher would look at the sources at each run."""
    return printed(SECV, "--path").strip()


def documented(section, page="formats.md"):
    """What stands in a section of a page of docs/."""
    with open(os.path.join(TOP, "docs", page), encoding="utf-8") as file:
        text = "\n" + file.read()
    return text.partition(f"\n# {section}\n")[2].partition("\n# ")[0]


def in_folders(groups):
    """Runs each group of comparisons in a folder of its own."""
    for group in groups:
        with tempfile.TemporaryDirectory() as folder:
            group(folder)


def end():
    """Ends with how many comparisons passed and failed; before that, where something was not run,
    how much."""
    if COUNTS["not run"]:
        print(f"{COUNTS['not run']} not run")
    print(f"{COUNTS['passed']} passed, {COUNTS['failed']} failed")
    sys.exit(1 if COUNTS["failed"] else 0)


def finish(groups):
    """Runs each group in a folder of its own, and ends."""
    # the first run builds the program, which takes more than a run may
    if subprocess.run([SECV, "--path"], stdout=subprocess.DEVNULL, check=False).returncode:
        sys.exit("secv could not be built")
    in_folders(groups)
    end()


def end_look(passed, wrong):
    """Ends a look at the sources: so much is as it is to be, and each line says what is not."""
    for line in wrong:
        print(line)
    COUNTS["passed"] += passed
    COUNTS["failed"] += len(wrong)
    end()
