"""Damage: what a damaged design, stimulus or certificate is answered, worked out beside the program; tools/damage and tests/hostile.py try it.

Each byte in turn becomes another one, or is removed or doubled. Of a certificate the answer is worked out here, from docs/formats.md and the clauses that
`cnf` prints; of a stimulus its first wrong line, how many cycles stand before it, and the lines of those that come before the damage. Of a design the answer
has a defined form, with a place that the text has; `check --json` says the same in its own form; `list` tells the same broken rule or a list of as many lines
as are accepted; and what `check --proof` stores `verify` accepts.
"""
import json
import os
import re
import resource
import subprocess

from harness import STATUS, TOP, call, judge, put
from outputs import COUNTER, COUNTERS, GATE, INVERTERS, REGISTER, TURN, WIRE
from verdicts import BOTH, CLEARED, COMPLETE, MULTIPLIER, SUMS

# Of the processor; and how long is waited for it, where others have it.
MOST_SECONDS, MOST_WAIT, MOST_MEGABYTES = 2, 60, 200
OTHERS = [b"\0", b"\n", b"(", b"}", b"9", b"\xff"]
DESIGNS = {"a gate": GATE, "a register": REGISTER, "a wire": WIRE, "a label by value": TURN, "two counters": COUNTERS, "a register that is cleared": CLEARED,
           "a case": COMPLETE, "two sums": SUMS, "a multiplier": MULTIPLIER, "a block": BOTH}
# A design, its registers and inputs with their widths, and a stimulus.
STIMULI = [
    (GATE, {}, {"a": 1, "b": 1}, "inputs a b\n0 1\n1 1\n"),
    (REGISTER, {"r": 1}, {"k": 1}, "start r 1\ninputs k\n0\n1\n01\n"),
    (WIRE, {}, {"a": 1, "b": 1}, "inputs a b\n0 1\n1 0\n1 1"),
    (TURN, {}, {"turn": 1, "a": 1, "b": 1}, "inputs turn a b\n0 1 0\n1 1 1\n"),
    (COUNTERS, {"u.q": 4, "v.q": 8}, {"en": 1}, "start u.q f\nstart v.q f\ninputs en\n1\n0\n1\n"),
    (CLEARED, {"owner": 1, "r": 8}, {"nxt": 1, "k": 8}, "start owner 1\nstart r 12\ninputs nxt k\n0 1\n1 ff\n0 0A\n"),
    (COUNTER, {"q": 4, "s": 4}, {"en": 1, "d": 4}, "start q 9\ninputs en d\n1 3\n0 F\n1 0\n"),
    (INVERTERS, {}, {"a": 1}, "inputs a\n0\n1\n"),
    (MULTIPLIER, {"busy": 1, "p": 16, "m": 8, "s": 16}, {"go": 1, "x": 8, "z": 8}, "start m 3\ninputs go x z\n1 ff 3\n0 0 0\n0 0 0\n"),
    ("module m(output y); assign y = 1; endmodule\n", {}, {}, "inputs\n\n\n\n"),
]
PROVED = [GATE, REGISTER.replace("{L}", "{H}"), WIRE, TURN, COUNTERS, CLEARED, COMPLETE, SUMS, INVERTERS, MULTIPLIER]
SIZES = {"1 MB": 1 << 20, "100 MB": 100 << 20, "1 GB": 1 << 30}
BYTES = [b"\0", b"\n", b" ", b"(", b"a", b"9", b"\xff"]
# A line for each row that was tried.
said = []


def damaged(text):
    """Each damage to the text: the place of the byte, what was done, and the new text."""
    for at in range(len(text)):
        front, byte, behind = text[:at], text[at : at + 1], text[at + 1 :]
        for other in OTHERS:
            if other != byte:
                yield at, other, front + other + behind
        yield at, "removed", front + behind
        yield at, "doubled", front + byte + byte + behind


class Place:
    """A folder in which the program runs."""

    def __init__(self, folder, program):
        self.folder, self.program = folder, program

    def put(self, name, text):
        put(self.folder, name, text)

    def run(self, words, given=b""):
        """What is written, and the status, which is below 0 where it is that of a signal, or where the processor took longer than it may."""
        before = resource.getrusage(resource.RUSAGE_CHILDREN)
        answer = call(self.folder, words, given, seconds=MOST_WAIT, program=self.program)
        after = resource.getrusage(resource.RUSAGE_CHILDREN)
        took = after.ru_utime + after.ru_stime - before.ru_utime - before.ru_stime
        in_time = answer.returncode is not None and took <= MOST_SECONDS
        return answer.stdout, answer.returncode if in_time else -100

    def measured(self, words, name):
        """What is written, the status, the seconds of the processor and the megabytes, where the file is the input."""
        with open(os.path.join(self.folder, name), "rb") as given, open(os.path.join(self.folder, "told"), "w+b") as told:
            program = subprocess.Popen([self.program, *words.split()], cwd=self.folder, stdin=given, stdout=told, stderr=subprocess.DEVNULL)
            _, status, used = os.wait4(program.pid, 0)
            program.returncode = os.waitstatus_to_exitcode(status)
            told.seek(0)
            return told.read(1 << 20), program.returncode, used.ru_utime + used.ru_stime, used.ru_maxrss / 1024


# Designs.

def rules():
    """The rules of a text, each with its word, as they are shown in docs/."""
    shown = set()
    for name in ("formats.md", "language.md"):
        with open(os.path.join(TOP, "docs", name), encoding="utf-8") as file:
            shown.update(re.findall(r"refused ([1-6]\d\d) ([a-z]+(?:-[a-z]+)*)", file.read()))
    return shown


def is_place(text, line, column):
    """Whether a token of the text may begin there, or the text ends there."""
    lines = text.split(b"\n")
    return 1 <= line <= len(lines) and 1 <= column <= len(lines[line - 1]) + 1


def is_defined(text, answer, status, known):
    """Whether the answer to a text has a defined form: what is accepted, a broken rule at a place of the text, or a flow with its values."""
    if not answer.endswith(b"\n"):
        return False
    first, *lines = answer.decode("ascii", "replace")[:-1].split("\n")
    if STATUS.get(first.split(" ")[0]) != status:
        return False
    if re.fullmatch(r"accepted \d+ obligations", first) or re.fullmatch(r"unknown obligation \d+ budget 20000", first):
        return not lines
    broken = re.fullmatch(r"refused ([1-6]\d\d) ([a-z0-9-]+) (\d+):(\d+)((?: \S+)*)", first)
    if broken:
        return not lines and (broken[1], broken[2]) in known and is_place(text, int(broken[3]), int(broken[4]))
    return bool(re.fullmatch(r"refused flow \d+ \S+ from \S+", first)) and all(re.fullmatch(r"(reg|in|next) \S+ [0-9a-f]{1,16}", line) for line in lines)


def from_json(line, words):
    """The first line of the verdict that a line of JSON says; a rule has this word."""
    told = json.loads(line)
    if told["verdict"] == "accepted":
        return f"accepted {told['obligations']} obligations"
    if told["verdict"] == "unknown":
        return f"unknown obligation {told['obligation']} budget {told['budget']}"
    if "rule" in told:
        return " ".join([f"refused {told['rule']} {words[str(told['rule'])]} {told['line']}:{told['column']}", *told["names"]])
    return f"refused flow {told['obligation']} {told['target']} from {told['from']}"


def designs(place, rows=DESIGNS):
    known = rules()
    for name, text in rows.items():
        text, runs = text.encode(), 0
        for at, what, new in damaged(text):
            place.put("f", new)
            answer, status = place.run("check f --proof p")
            judge(f"{name}, byte {at}, {what}: a defined answer", is_defined(new, answer, status, known), (answer, status))
            first = answer.decode("ascii", "replace").partition("\n")[0]
            told, same = place.run("check f --json")
            judge(f"{name}, byte {at}, {what}: as JSON", (from_json(told, dict(known)), same) == (first, status), (answer, told, same))
            listed, status = place.run("list f")
            broken = re.match(r"refused \d", first)
            judge(f"{name}, byte {at}, {what}: as a list", (listed, status) == (answer, 1) if broken else status == 0, (answer, listed, status))
            if first.startswith("accepted"):
                judge(f"{name}, byte {at}, {what}: as many as are listed", first.split()[1] == str(listed.count(b"\n")), (first, listed))
                judge(f"{name}, byte {at}, {what}: its certificate", place.run("verify f p") == (answer, 0), answer)
            runs += 1
        said.append(f"{name}: {len(text)} bytes, {runs} damages")


# Stimuli.

def is_value(word, width):
    return re.fullmatch(rb"[0-9a-fA-F]{1,16}", word) is not None and int(word, 16) < 1 << width


def fault_of_start(rest, registers, begun):
    """The kind of what is wrong with a start, if anything is; what it starts is noted."""
    name, _, value = rest.partition(b" ")
    width = registers.get(name.decode("latin-1"))
    if width is None or name in begun:
        return "name"
    begun.add(name)
    return None if is_value(value, width) else "value"


def read_stimulus(text, registers, inputs):
    """How many cycles are read, and the first wrong line with its kind, if there is one."""
    lines = text.split(b"\n")
    if lines[-1] == b"":
        lines.pop()
    header = b" ".join([b"inputs", *(name.encode() for name in inputs)])
    begun, number = set(), 0
    for number, line in enumerate(lines, 1):
        if line == header:
            break
        fault = fault_of_start(line[6:], registers, begun) if line.startswith(b"start ") else "header"
        if fault:
            return 0, (number, fault)
    else:
        return 0, (len(lines) + 1, "header")
    for cycle, line in enumerate(lines[number:]):
        words = line.split(b" ") if line else []
        if len(words) != len(inputs) or not all(is_value(word, width) for word, width in zip(words, inputs.values())):
            return cycle, (number + cycle + 1, "value")
    return len(lines) - number, None


def stimuli(place, rows=STIMULI):
    for design, registers, inputs, text in rows:
        place.put("f", design)
        text, runs = text.encode(), 0
        whole, _ = place.run("sim f", text)
        first_cycle = text[: text.index(b"inputs")].count(b"\n") + 1
        for at, what, new in damaged(text):
            answer, status = place.run("sim f", new)
            cycles, fault = read_stimulus(new, registers, inputs)
            *lines, last = answer.split(b"\n")
            told = lines.pop() if fault and lines else None
            wanted = f"refused stimulus input {fault[0]} {fault[1]}".encode() if fault else None
            good = last == b"" and told == wanted and len(lines) == cycles and status == (1 if fault else 0)
            same = max(0, text[:at].count(b"\n") - first_cycle)
            judge(f"{text!r}, byte {at}, {what}: its front", lines[: min(same, cycles)] == whole.split(b"\n")[: min(same, cycles)], answer)
            judge(f"{text!r}, byte {at}, {what}", good, (answer, status, cycles, fault))
            runs += 1
        said.append(f"{text[:30]!r}: {len(text)} bytes, {runs} damages")


# Certificates.

NUMBER = rb"(0|[1-9][0-9]*)"
SIGNED = re.compile(rb"-?[1-9][0-9]*")


def is_number(word, most):
    return re.fullmatch(NUMBER, word) is not None and int(word) <= most


def read_step(line):
    """The literals and the chain of a step, or None where the line is none."""
    words = line.split(b" ")
    if b"0" not in words:
        return None
    at = words.index(b"0")
    literals, chain = words[:at], words[at + 1 :]
    if not all(SIGNED.fullmatch(word) for word in literals) or len(chain) < 2 or chain[-1] != b"0":
        return None
    numbers = [int(word) for word in literals]
    variables = [abs(number) for number in numbers]
    if any(variable > 2147483647 for variable in variables) or any(a >= b for a, b in zip(variables, variables[1:])):
        return None
    if not all(re.fullmatch(rb"[1-9][0-9]*", word) and int(word) <= 18446744073709551615 for word in chain[:-1]):
        return None
    return numbers, [int(word) for word in chain[:-1]]


def read_certificate(text):
    """The logs, each with the number of its line, or the number of the first line that breaks the text."""
    lines = text.split(b"\n")
    last = lines.pop()
    if not lines or lines[0] != b"secv-proof 1":
        return 1
    head = re.fullmatch(rb"obligations " + NUMBER, lines[1]) if len(lines) > 1 else None
    if not head or int(head[1]) > 4294967295:
        return 2
    at, logs = 2, []
    for number in range(1, int(head[1]) + 1):
        words = lines[at].split(b" ") if at < len(lines) else []
        if len(words) != 3 or words[:2] != [b"o", str(number).encode()] or not is_number(words[2], 4294967295):
            return at + 1
        steps = []
        for line in range(at + 1, at + 1 + int(words[2])):
            step = read_step(lines[line]) if line < len(lines) else None
            if step is None:
                return line + 1
            steps.append(step)
        logs.append((at + 1, steps))
        at += 1 + len(steps)
    if at >= len(lines) or lines[at] != b"end":
        return at + 1
    if at + 1 < len(lines) or last:
        return at + 2
    return logs


def resolvent(clauses, chain):
    """The clause that the chain derives, or None."""
    if any(number > len(clauses) for number in chain):
        return None
    held = set(clauses[chain[0] - 1])
    for number in chain[1:]:
        other = set(clauses[number - 1])
        clashing = [literal for literal in held if -literal in other]
        if len(clashing) != 1:
            return None
        held = (held - {clashing[0]}) | (other - {-clashing[0]})
    return held


def verdict_of(text, encodings):
    """What `verify` writes for the certificate, of which each obligation has these clauses."""
    logs = read_certificate(text)
    if isinstance(logs, int):
        return f"refused proof {logs}\n"
    if len(logs) != len(encodings):
        return "refused proof 2\n"
    for (line, steps), clauses in zip(logs, encodings):
        clauses = list(clauses)
        for number, (literals, chain) in enumerate(steps, 1):
            if resolvent(clauses, chain) != set(literals):
                return f"refused proof {line + number}\n"
            clauses.append(literals)
        if not steps or clauses[-1]:
            return f"refused proof {line + len(steps)}\n"
    return f"accepted {len(logs)} obligations\n"


def encodings_of(place, count):
    """The clauses of each obligation, as `cnf` prints them."""
    for number in range(1, count + 1):
        printed, _ = place.run(f"cnf f {number}")
        yield [[int(word) for word in line.split()[:-1]] for line in printed.split(b"\n")[1:-1]]


def certificates(place, rows=PROVED):
    for design in rows:
        place.put("f", design)
        accepted, _ = place.run("check f --proof p")
        with open(os.path.join(place.folder, "p"), "rb") as file:
            text = file.read()
        encodings, runs = list(encodings_of(place, int(accepted.split()[1]))), 0
        judge("the whole one", verdict_of(text, encodings).encode() == accepted, accepted)
        for at, what, new in damaged(text):
            place.put("p", new)
            wanted = verdict_of(new, encodings)
            answer = place.run("verify f p")
            judge(f"{design[:40]!r}, byte {at}, {what}", answer == (wanted.encode(), STATUS[wanted.split()[0]]), (answer, wanted))
            runs += 1
        said.append(f"{len(encodings)} obligations: {len(text)} bytes, {runs} damages")


# Sizes.

def answers_of(byte, size):
    """What `check`, `verify`, `compare` and `sim` write for a design, a certificate and a stimulus of so many of these bytes."""
    refused = {b"\0": "101 bad-byte 1:1", b"\xff": "101 bad-byte 1:1", b" ": f"201 unexpected 1:{size + 1}", b"\n": f"201 unexpected {size + 1}:1",
               b"9": "102 bad-number 1:1"}.get(byte, "201 unexpected 1:1")
    long = byte != b"\n" and size > 1 << 20
    return {"check b": "refused 701 file-size\n" if size > 1 << 20 else f"refused {refused}\n",
            "verify f b": "refused 710 proof-size\n" if size > 268435456 else "refused proof 1\n",
            "compare f b b --level L": "refused 711 stimulus-file A\n" if size > 67108864 else f"refused stimulus A 1 {'too-long' if long else 'header'}\n",
            "sim f": f"refused stimulus input 1 {'too-long' if long else 'header'}\n"}


def fill(path, byte, size):
    piece = byte * (1 << 20)
    with open(path, "wb") as file:
        for _ in range(size >> 20):
            file.write(piece)


def sizes(place, rows=SIZES):
    place.put("f", TURN)
    for name, size in rows.items():
        seconds, megabytes = {}, {}
        for byte in BYTES:
            path = os.path.join(place.folder, "b")
            fill(path, byte, size)
            for words, wanted in answers_of(byte, size).items():
                answer, status, took, held = place.measured(words, "b")
                judge(f"{words}, {name} of {byte!r}", (answer.decode(), status) == (wanted, 1), (answer, status, wanted))
                command = words.split()[0]
                seconds[command], megabytes[command] = max(took, seconds.get(command, 0)), max(held, megabytes.get(command, 0))
            os.remove(path)
        said.append(f"{name} of one byte: " + ", ".join(f"{command} {seconds[command]:.2f} s and {megabytes[command]:.0f} MB" for command in seconds))
        judge(f"{name}: in time", max(seconds.values()) <= MOST_SECONDS, seconds)
