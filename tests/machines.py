#!/usr/bin/env python3
"""Compares whole outputs and statuses of `./secv check --json` and `./secv gen`. Each object that is printed is held to docs/verdict.schema.json by a
small validator here, which is tried on wrong objects first; its keys stand in byte order and no blank stands in it. The wanted objects are those of the
verdicts that tests/verdicts.py wants as texts, and others that were worked by hand from docs/formats.md; the sample is written out here. The last line is
'N passed, M failed'.
"""
import json
import os
import re
import string

from as_a_user import SYNTAX, product_of
from harness import TOP, compare, documented, finish, put, run, status_of
from outputs import GATE
from verdicts import CHECKS, FALSIFIED, LANES, LIMITS, SUMS, TURN, TURNED_LEAK, lanes

# Every character that a name may have, a letter and an underscore first.
LONG = "A_$" + string.digits + string.ascii_uppercase + string.ascii_lowercase
LONG_TOO = "_" + LONG[::-1]
# Paths of registers, each of which stands before the next one by their bytes: `$`, `.`, digits, capitals, `_`, small letters.
ORDERED = ["R", "_", "a", "a$", "a0", "aA", "a_", "aa", "b$.q", "b.a.q", "b.q", "b0.q"]
PART = "module part(input clk, input k);\n  reg q;\n  always @(posedge clk) q <= k;\nendmodule\n"
OUTER = "module outer(input clk, input k);\n  reg q;\n  always @(posedge clk) q <= k;\n  part a(clk, k);\nendmodule\n"
LEAF = "module leaf(input clk, input {H} d, output reg {L} q);\n  always @(posedge clk) q <= d;\nendmodule\n"
INNER = "module inner(input clk, input {H} d, output {L} y);\n  leaf u(clk, d, y);\nendmodule\n"

# The sample of one lane.
ONE_LANE = """labelmap Dom [0:0] 0: L; default: H; endlabelmap
module lane(input clk, input turn, input req, input bin, input [7:0] {Dom(turn)} d,
  output reg g, output reg [7:0] lo, output reg [7:0] {H} hi, output bout);
  assign bout = bin | req;
  always @(posedge clk) begin
    g <= req & ~bin & ~turn;
    if (turn) hi <= d; else lo <= d;
  end
endmodule
module top(input clk, input turn
  , input r0, input [7:0] {Dom(turn)} d0, output g0, output [7:0] l0, output [7:0] {H} h0
  );
  wire b0;
  lane u0(.clk(clk), .turn(turn), .req(r0), .bin(1'b0), .d(d0), .g(g0), .lo(l0), .hi(h0), .bout(b0));
endmodule
"""
# What the sample of three lanes has for the last two.
SECOND_LANE = "  lane u1(.clk(clk), .turn(turn), .req(r1), .bin(b0), .d(d1), .g(g1), .lo(l1), .hi(h1), .bout(b1));\n"
THIRD_LANE = "  lane u2(.clk(clk), .turn(turn), .req(r2), .bin(b1), .d(d2), .g(g2), .lo(l2), .hi(h2), .bout(b2));\n"
PORTS = "  , input r0, input [7:0] {Dom(turn)} d0, output g0, output [7:0] l0, output [7:0] {H} h0\n"


class Schema:
    """The keywords of JSON Schema that docs/verdict.schema.json uses; any other one is an error."""

    REMARKS = {"$schema", "$defs", "title", "description"}

    def __init__(self, path):
        with open(path, encoding="utf-8") as file:
            self.whole = json.load(file)

    def kinds(self):
        """The names of the kinds of objects."""
        return [self.target(part["$ref"])[0] for part in self.whole["oneOf"]]

    def target(self, reference):
        name = re.fullmatch(r"#/\$defs/([a-z]+)", reference)[1]
        return name, self.whole["$defs"][name]

    def kinds_of(self, value):
        """The kinds that the value is of: one, where it is valid."""
        return [name for name in self.kinds() if self.holds(value, self.whole["$defs"][name])]

    def holds(self, value, schema):
        if isinstance(schema, bool):
            return schema
        return all(getattr(self, "is_" + key.strip("$"))(value, schema[key], schema) for key in schema if key not in self.REMARKS)

    def is_ref(self, value, reference, _):
        return self.holds(value, self.target(reference)[1])

    def is_oneOf(self, value, parts, _):
        return sum(self.holds(value, part) for part in parts) == 1

    def is_type(self, value, name, _):
        wanted = {"object": dict, "array": list, "string": str, "integer": int}[name]
        return isinstance(value, wanted) and not isinstance(value, bool)

    def is_const(self, value, wanted, _):
        return type(value) is type(wanted) and value == wanted

    def is_enum(self, value, those, _):
        return any(self.is_const(value, wanted, None) for wanted in those)

    def is_minimum(self, value, least, _):
        return not isinstance(value, int) or value >= least

    def is_maximum(self, value, most, _):
        return not isinstance(value, int) or value <= most

    def is_pattern(self, value, pattern, _):
        assert pattern[0] == "^" and pattern[-1] == "$", pattern
        return not isinstance(value, str) or re.fullmatch(pattern[1:-1], value) is not None

    def is_required(self, value, names, _):
        return not isinstance(value, dict) or all(name in value for name in names)

    def is_properties(self, value, parts, _):
        return not isinstance(value, dict) or all(self.holds(value[name], part) for name, part in parts.items() if name in value)

    def is_additionalProperties(self, value, part, schema):
        others = [name for name in value if name not in schema.get("properties", {})] if isinstance(value, dict) else []
        return all(self.holds(value[name], part) for name in others)

    def is_propertyNames(self, value, part, _):
        return not isinstance(value, dict) or all(self.holds(name, part) for name in value)

    def is_items(self, value, part, _):
        return not isinstance(value, list) or all(self.holds(item, part) for item in value)


SCHEMA = Schema(os.path.join(TOP, "docs", "verdict.schema.json"))
# An object of each kind.
OBJECTS = {
    "accepted": {"obligations": 66, "verdict": "accepted"},
    "flow": {"from": "u.d", "in": {"d": "0", "a.b.c$": "f"}, "next": {}, "obligation": 3, "reg": {"u.q": "fedcba9876543210"}, "target": "_q", "verdict": "refused"},
    "rule": {"column": 17, "line": 1, "names": ["p", "four-state"], "rule": 604, "verdict": "refused"},
    "limit": {"names": ["1"], "rule": 709, "verdict": "refused"},
    "unknown": {"budget": 20000, "obligation": 2, "verdict": "unknown"},
}
# What makes an object of a kind a wrong one: a key with another value.
WRONG = [("accepted", {"obligations": value}) for value in (-1, 65537, "66", 1.5, True, None)] + [
    ("accepted", {"verdict": "refused"}), ("accepted", {"verdict": "unknown"}), ("accepted", {"names": []}),
    *(("flow", {key: value}) for key in ("in", "next", "reg") for value in (
        [], {"a": 0}, {"a": ""}, {"a": "00"}, {"a": "01"}, {"a": "F"}, {"a": "0x1"}, {"a": "10000000000000000"}, {"": "0"}, {"0a": "0"}, {"a.": "0"}, {"a..b": "0"},
        {"a b": "0"}, {"a": "0\n"})),
    *(("flow", {key: value}) for key in ("from", "target") for value in ("", "a.", ".a", "$a", "9", "a-b", "a\n", "é", 1, ["a"])),
    ("flow", {"obligation": 0}), ("flow", {"obligation": 65537}), ("flow", {"verdict": "accepted"}), ("flow", {"budget": 1}),
    *(("rule", {key: value}) for key in ("column", "line") for value in (0, "1", 1.5)), ("rule", {"rule": 100}), ("rule", {"rule": 701}), ("rule", {"rule": "604"}),
    ("rule", {"names": "p"}), ("rule", {"names": [""]}), ("rule", {"names": [1]}), ("rule", {"names": ["a b"]}), ("rule", {"from": "a"}),
    ("limit", {"rule": 704}), ("limit", {"rule": 604}), ("limit", {"line": 1}), ("limit", {"names": None}),
    ("unknown", {"budget": 0}), ("unknown", {"budget": 4000000001}), ("unknown", {"obligation": 0}), ("unknown", {"verdict": "refused"}), ("unknown", {"rule": 1}),
]


def line_of(value):
    """The line of an object: its keys in byte order, which for ASCII is that of characters, and no blanks."""
    return json.dumps(value, sort_keys=True, separators=(",", ":")) + "\n"


def object_of(text):
    """The object of a verdict that is written as text."""
    first, *lines = text.rstrip("\n").split("\n")
    words = first.split(" ")
    if words[0] == "accepted":
        return {"obligations": int(words[1]), "verdict": "accepted"}
    if words[0] == "unknown":
        return {"budget": int(words[4]), "obligation": int(words[2]), "verdict": "unknown"}
    if words[1] == "flow":
        values = {"in": {}, "next": {}, "reg": {}}
        for kind, name, value in (line.split(" ") for line in lines):
            values[kind][name] = value
        return {"from": words[5], "obligation": int(words[2]), "target": words[3], "verdict": "refused", **values}
    rule = int(words[1])
    if rule > 700:
        return {"names": words[3:], "rule": rule, "verdict": "refused"}
    line, column = map(int, words[3].split(":"))
    return {"column": column, "line": line, "names": words[4:], "rule": rule, "verdict": "refused"}


def printed(what, folder, words, wanted, status):
    """Compares what is printed with an object, and holds it to the schema."""
    said, ended = run(folder, words)
    compare(what, (said, ended), (line_of(wanted), status))
    try:
        kinds = SCHEMA.kinds_of(json.loads(said))
    except ValueError:
        kinds = ["no JSON"]
    compare(f"{what}: one kind of the schema", kinds, SCHEMA.kinds_of(wanted))
    compare(f"{what}: the wanted one is valid", len(SCHEMA.kinds_of(wanted)), 1)


def schema(_):
    """The validator takes an object of each kind and refuses wrong ones, so that it tells what is printed."""
    compare("the kinds of the schema", sorted(SCHEMA.kinds()), sorted(OBJECTS))
    for kind, value in OBJECTS.items():
        compare(f"an object: {kind}", (SCHEMA.kinds_of(value), SCHEMA.holds(value, SCHEMA.whole)), ([kind], True))
        for key in value:
            less = {name: other for name, other in value.items() if name != key}
            compare(f"{kind} without {key}", kind in SCHEMA.kinds_of(less), False)
        compare(f"{kind} with one key more", SCHEMA.holds({**value, "more": 1}, SCHEMA.whole), False)
    for kind, change in WRONG:
        compare(f"{kind} with {change}", SCHEMA.holds({**OBJECTS[kind], **change}, SCHEMA.whole), False)
    for value in ({}, [], "accepted", 1, None):
        compare(f"no object: {value!r}", SCHEMA.holds(value, SCHEMA.whole), False)


def verdicts(folder):
    """What `check` writes as text, as objects."""
    for words, text, wanted in CHECKS:
        put(folder, "f", text)
        line = f"check f --json {words}"
        if wanted.startswith("usage"):
            compare(line, run(folder, line), (wanted, 2))
        else:
            printed(f"{line}: {text[:80]!r}", folder, line, object_of(wanted), status_of(wanted))
    for text, wanted in SYNTAX:
        put(folder, "f", text.decode("latin-1"))
        printed(f"check f --json: {text[:80]!r}", folder, "check f --json", object_of(wanted.decode()), 1)
    limits = [*LIMITS, (" " * 1048577, "refused 701 file-size\n"), (product_of(190), "refused 709 encoding 1\n"),
              ("module m(input a, output y); invariant a; assign y = a; endmodule\n", "refused 199 not-built 1:1\n")]
    for text, wanted in limits:
        put(folder, "f", text)
        printed(f"check f --json: {wanted}", folder, "check f --json", object_of(wanted), 1)


def falsified(folder):
    """The values of an object falsify the obligation, where several lists of them do."""
    for text, first, names, holds in FALSIFIED:
        put(folder, "f", text)
        said, status = run(folder, "check f --json")
        try:
            value = json.loads(said)
            valid = SCHEMA.kinds_of(value)
        except ValueError:
            value, valid = {}, ["no JSON"]
        compare(f"{first}: an object", (valid, status, said), (["flow"], 1, line_of(value)))
        words = first.split(" ")
        compare(f"{first}: what it is of", [value.get(key) for key in ("obligation", "target", "from")], [int(words[2]), words[3], words[5]])
        kinds = {kind: [name for key, name in (each.split(" ") for each in names) if key == kind] for kind in ("reg", "in", "next")}
        compare(f"{first}: its signals", {kind: list(value.get(kind, {})) for kind in kinds}, {kind: sorted(those) for kind, those in kinds.items()})
        values = [int(value.get(kind, {}).get(name, "0"), 16) for kind, name in (each.split(" ") for each in names)]
        compare(f"{first}: its values {values}", holds(*values), True)


def names(folder):
    """Names of every character, and paths of instances."""
    for name in (LONG, LONG_TOO, "a", "_", "_$$"):
        put(folder, "f", f"module m(input {{H}} {name}, output y); assign y = {name}; endmodule\n")
        printed(f"a read {name}", folder, "check f --json",
                {"from": name, "in": {name: "0"}, "next": {}, "obligation": 1, "reg": {}, "target": "y", "verdict": "refused"}, 1)
        put(folder, "f", f"module m(input clk, input {{H}} k, output reg {name}); always @(posedge clk) {name} <= k; endmodule\n")
        printed(f"a register {name}", folder, "check f --json",
                {"from": "k", "in": {"k": "0"}, "next": {"k": "0"}, "obligation": 1, "reg": {name: "0"}, "target": name, "verdict": "refused"}, 1)
        put(folder, "f", f"module m(output {name}); endmodule\n")
        printed(f"undriven {name}", folder, "check f --json", {"column": 17, "line": 1, "names": [name], "rule": 604, "verdict": "refused"}, 1)
    put(folder, "f", f"module m(output {LONG}, output {LONG_TOO});\n  assign {LONG} = ~{LONG_TOO};\n  assign {LONG_TOO} = ~{LONG};\n" + "endmodule\n")
    printed("a circle", folder, "check f --json", {"column": 17, "line": 1, "names": [LONG, LONG_TOO], "rule": 607, "verdict": "refused"}, 1)
    put(folder, "f", LEAF + INNER + f"module top(input clk, input {{H}} d, output {{L}} y);\n  inner {LONG}(clk, d, y);\nendmodule\n")
    path = f"{LONG}.u"
    # y and the instance's own signals come first: y, d, y, and then d and q of the instance in it
    printed("a path", folder, "check f --json", {"from": f"{path}.d", "in": {"d": "0"}, "next": {"d": "0"}, "obligation": 5, "reg": {f"{path}.q": "0"},
                                                 "target": f"{path}.q", "verdict": "refused"}, 1)
    printed("a path below another top", folder, "check f --json --top inner", {"from": "u.d", "in": {"d": "0"}, "next": {"d": "0"}, "obligation": 3,
                                                                              "reg": {"u.q": "0"}, "target": "u.q", "verdict": "refused"}, 1)


def ordered(folder):
    """The keys of an object in byte order, where the text has the signals and the instances in another one."""
    compare("the names are in byte order", sorted(ORDERED, key=str.encode), ORDERED)
    registers = [name for name in reversed(ORDERED) if "." not in name]
    put(folder, "f", PART + OUTER + f"module top(input clk, input k, input {{H}} h, output z);\n  assign z = h;\n  reg {', '.join(registers)};\n"
        + "".join(f"  always @(posedge clk) {name} <= k;\n" for name in registers) + "  part b0(clk, k);\n  outer b(clk, k);\n  part b$(clk, k);\nendmodule\n")
    wanted = '{"from":"h","in":{"h":"0","k":"0"},"next":{},"obligation":1,"reg":{' + ",".join(f'"{name}":"0"' for name in ORDERED) + '},"target":"z","verdict":"refused"}\n'
    compare("registers in byte order", run(folder, "check f --json"), (wanted, 1))


def words(folder):
    """The word --json beside others, and what is printed where there is no verdict."""
    put(folder, "f", GATE)
    for line in ("check --json f", "check f --json --budget 1", "check f --budget=1 --json --top m", "check --json -- f"):
        printed(line, folder, line, {"obligations": 1, "verdict": "accepted"}, 0)
    for line in ("check f --json --json", "check f --json=1", "check f --json=", "check f --jso", "check --json", "check -- f --json", "list f --json", "sim f --json",
                 "verify f p --json", "cnf f 1 --json", "gen 1 --json", "compare f A B --level L --json"):
        compare(line, run(folder, line), ("usage words\n", 2))
    compare("a missing file", run(folder, "check none --json"), ("", 4))
    for text, status, verdict in ((TURN, 0, {"obligations": 2, "verdict": "accepted"}), (TURNED_LEAK, 1, None), (SUMS, 3, {"budget": 1, "obligation": 2, "verdict": "unknown"})):
        put(folder, "f", text)
        line = "check f --json --proof p --budget 1"
        printed(f"{line}: {text[:60]!r}", folder, line, verdict or object_of("refused flow 2 y from b\nin turn 0\nin a 0\nin b 0\n"), status)
        if status == 0:
            compare("the certificate is stored", run(folder, "verify f p"), ("accepted 2 obligations\n", 0))
            os.remove(os.path.join(folder, "p"))
        else:
            compare("no certificate is stored", os.path.exists(os.path.join(folder, "p")), False)
    put(folder, "f", TURN)
    compare("the certificate cannot be stored", run(folder, "check f --json --proof none/p"), ("", 5))
    with open("/dev/full", "wb") as full:
        compare("a full device", run(folder, "check f --json", stdout=full)[1], 5)


def samples(folder):
    """The sample as text and its verdict; it is read from no file."""
    compare("one lane", run(folder, "gen 1"), (ONE_LANE, 0))
    three = ONE_LANE.replace(PORTS, PORTS + PORTS.replace("0,", "1,").replace("h0", "h1") + PORTS.replace("0,", "2,").replace("h0", "h2"))
    three = three.replace("  wire b0;\n", "  wire b0;\n  wire b1;\n  wire b2;\n").replace("bout(b0));\n", "bout(b0));\n" + SECOND_LANE + THIRD_LANE)
    compare("three lanes", run(folder, "gen 3"), (three, 0))
    for count in (1, 2, 10, 11, 100, 199):
        compare(f"{count} lanes", run(folder, f"gen {count}"), (lanes(count), 0))
    compare("200 lanes", run(folder, "gen 200"), (LANES, 0))
    for count in (1, 2, 100, 200):
        compare(f"gen {count} --check", run(folder, f"gen {count} --check"), (f"accepted {14 * count} obligations\n", 0))
    for line in ("gen 0", "gen 201", "gen 4294967295", "gen 0 --check", "gen 201 --check", "gen -- -0", "gen --check 000"):
        compare(line, run(folder, line), ("refused 705 gen\n", 1))
    for line in ("gen 01 --check", "gen +1 --check", "gen --check 1", "gen --check -- 1"):
        compare(line, run(folder, line), ("accepted 14 obligations\n", 0))
    for line in ("gen", "gen --check", "gen 1 1", "gen -1", "gen -0", "gen 1x", "gen x", "gen 0x1", "gen 1.0", "gen 4294967296", "gen 1 --check --check", "gen 1 --check=",
                 "gen 1 --top m", "gen 1 --proof p", "gen 1 --budget 5", "gen 1 --help", "gen 1 -h"):
        compare(line, run(folder, line), ("usage words\n", 2))
    compare("an empty number", run(folder, ["gen", ""]), ("usage words\n", 2))
    compare("nothing is stored", os.listdir(folder), [])
    put(folder, "f", run(folder, "gen 3")[0])
    compare("the sample is accepted as a file", run(folder, "check f"), ("accepted 42 obligations\n", 0))
    compare("its obligations are listed", len(run(folder, "list f")[0].splitlines()), 42)
    for line in ("gen 1", "gen 1 --check", "gen 0"):
        with open("/dev/full", "wb") as full:
            compare(f"a full device: {line}", run(folder, line, stdout=full)[1], 5)


def examples(folder):
    """The objects and the sample that docs/formats.md shows."""
    shown = re.findall(r"^```json\n(.*?)^```$", documented("Verdicts as JSON"), re.M | re.S)
    compare("docs/formats.md shows an object of each kind", [SCHEMA.kinds_of(json.loads(line)) for line in shown], [[kind] for kind in SCHEMA.kinds()])
    compare("as they are printed", [line_of(json.loads(line)) for line in shown], shown)
    for line, told in zip(("turn.v", "owner.v", "unknown_value.v"), shown):
        compare(f"examples/{line}", run(TOP, f"check examples/{line} --json")[0], told)
    for text, told in ((product_of(190), shown[3]), (SUMS, shown[4])):
        put(folder, "f", text)
        compare(f"docs/formats.md shows {told}", run(folder, "check f --json --budget 1")[0], told)
    compare("docs/formats.md shows the sample", re.findall(r"^```verilog\n(.*?)^```$", documented("Samples"), re.M | re.S), [ONE_LANE])


if __name__ == "__main__":
    finish([schema, verdicts, falsified, names, ordered, words, samples, examples])
