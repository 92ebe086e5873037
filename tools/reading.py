#!/usr/bin/env python3
"""What a reader has to believe of `run` and of the law on the whole language: the definitions that their clauses cite, and those that these cite.

Walks from the clauses over the definitions of `specs/`, name by name, and over the types of the code that they name. Fails where it meets a file that is
private (its first line begins '-- Private:'), or where the list that stands in docs/reading.md between its two markers is another one. With --list it
prints the list, with --write it puts it there. The last line is 'N passed, M failed'.
"""
import os
import re
import sys
from functools import cache

sys.dont_write_bytecode = True
TOP = os.path.dirname(os.path.dirname(os.path.abspath(__file__)))
sys.path.insert(0, os.path.join(TOP, "tests"))

from harness import end_look

PAGE = os.path.join(TOP, "docs", "reading.md")
BEGIN, END = "<!-- reading list: made by tools/reading.py --write -->", "<!-- end of the reading list -->"

# What is read, from which function of which file, by which of its clauses (None: by all).
READINGS = [
    ("The headline: `noninterference` of `run`", "sv_cli/src/top.rt", "run", "noninterference"),
    ("The whole language: `valid_bytes_are_noninterferent`", "sv_run_laws/src/lib.rt", "valid_bytes_are_noninterferent", None),
    ("All clauses of `run`", "sv_cli/src/top.rt", "run", None),
]
USE = re.compile(r"^\s*(?:pub |ghost )?use ([\w.+-]+?)(?:\.\{([^}]*)\})?(?: as (\S+?))?;?$", re.M)
WORD = re.compile(r"[^\s(){},;∷→λ«»]+")
# Where a name of specs/ begins to be defined: a line that begins an item, a type, and another definition or a variant.
BEGINS = re.compile(r"^(?:abbrev |unfoldable )*(?:pub |mutual$|data |record )|^\S+ :(?: |$)|^infix")
DATA = re.compile(r"^\s*(?:abbrev |unfoldable )*(?:pub )?(data|record) (\S+)")
DEFINES = re.compile(r"^\s*(?:abbrev |unfoldable )*(?:pub )?([^\s({]\S*)(?: \{[^}]*\})* :(?: |$)")
# Where a term binds a name or gives a field its value: no definitions. A word counts wherever else it stands, also where it is bound, so that nothing is left out.
BOUND = [re.compile(r"(?<=[({])[\w ]+(?= : )"), re.compile(r"λ [\w ]+\."), re.compile(r"(?<=[{;])\s*\w+(?= = )")]
# What a contract sees of a type of the code: the type itself, and its view.
TYPE = r"^\s*(?:pub(?:\([a-z]+\))? )?(?:struct|enum|trait|const|static) {0}\b|^\s*impl(?:<[^>]*>)? Model for {0}\b"
CLAUSE = re.compile(r"^    (?:ensures|requires)\b *(\w*) *\{((?:.|\n)*?)\}(?=\n(?:    (?:ensures|requires|//)|\n|\{))", re.M)


class File:
    """A file of definitions: what each of its names is imported from, and its lines, by the item that they belong to."""

    def __init__(self, path):
        with open(os.path.join(TOP, "crates", path), encoding="utf-8") as file:
            self.text = file.read()
        self.path = path
        self.imports = imports(self.text)
        self.items = items(self.text)
        self.names = {name: number for number, (names, _, _) in enumerate(self.items) for name in names}

    def is_private(self):
        return self.text.startswith("-- Private:")


def imports(text):
    """Of each imported name: the module that it comes from, and its name there (None: the module itself)."""
    found = {}
    for module, names, other in USE.findall(text):
        if names:
            for name in names.split(","):
                name, _, alias = name.strip().partition(" as ")
                found[alias or name] = (module, name)
        else:
            found[other or module.rpartition(".")[2]] = (module, None)
    return found


def items(text):
    """The items of a file: the names that each defines, its text, and how many lines it has. An item ends before the comment of the next one."""
    blocks, record = [], None
    for line in text.split("\n"):
        if line.startswith(("use ", "open ")) or not line.strip():
            continue
        indent = len(line) - len(line.lstrip())
        opens = indent == 0 and not line.startswith(("--", "}", "]", ")")) and BEGINS.match(line)
        if opens or (indent == 0 and line.startswith("--")) or not blocks:
            if not blocks or not all(old.startswith("--") for old in blocks[-1][1]):
                blocks.append((set(), []))
        blocks[-1][1].append(line)
        head = DATA.match(line)
        if head:
            record = indent if head[1] == "record" else None
            blocks[-1][0].add(head[2])
        elif record is None or indent <= record:
            record = None
            found = DEFINES.match(line)
            if found:
                blocks[-1][0].add(found[1])
    return [(names, "\n".join(line for line in lines if not line.strip().startswith("--")), len(lines)) for names, lines in blocks]


def words(text):
    """The words of a text that may stand for definitions; of a word with dots also its fronts."""
    for bound in BOUND:
        text = bound.sub(" ", text)
    found = set()
    for word in WORD.findall(text):
        parts = word.split(".")
        found.update(".".join(parts[:end]) for end in range(1, len(parts) + 1))
    if "← " in text:
        found.add(">>=")
    return found


def parts_of(name):
    """What stands in a text where the name is used: for an operator its signs."""
    return [part for part in name.split("◌") if part] if "◌" in name else [name]


def cited(file, text):
    """The names of modules that a text of the file cites: of each its module, and the name there."""
    there = words(text)
    for name, (module, original) in file.imports.items():
        if original is not None:
            if all(part in there for part in parts_of(name)):
                yield module, original
        else:
            for word in there:
                if word.startswith(name + "."):
                    yield module, word[len(name) + 1 :].split(".")[0]


@cache
def file_of(path):
    return File(path)


def spec_path(module):
    """The file of definitions that a module is, if the repository has it."""
    parts = module.split(".")
    if parts[0] != "Rattle" or len(parts) < 4 or parts[2] != "specs" or parts[3] == "declared":
        return None
    path = "/".join([parts[1], "specs", *parts[3:]]) + ".antt"
    return path if os.path.isfile(os.path.join(TOP, "crates", path)) else None


def is_ours(module):
    """Whether a module is of this repository."""
    return os.path.isdir(os.path.join(TOP, "crates", module.split(".")[1]))


def declared_type(module, name):
    """The file of code that a declared type stands in, and its name, if it is one of the repository's."""
    parts = module.split(".")
    if parts[0] != "Rattle" or len(parts) < 5 or parts[2:4] != ["specs", "declared"]:
        return None
    base = os.path.join(TOP, "crates", parts[1], "src")
    inner = parts[4:]
    for end in range(len(inner), -1, -1):
        for path in ("/".join([*inner[:end]]) + ".rt", "/".join([*inner[:end], "mod"]) + ".rt", "lib.rt" if end == 0 else ""):
            if path and os.path.isfile(os.path.join(base, path)):
                rest = [part for part in inner[end:] if part != "TheConstants"]
                return f"{parts[1]}/src/{path}", (rest[0] if rest else name)
    return None


def type_lines(path, name):
    """The text of a type and of what a contract sees of it, and how many lines they have."""
    with open(os.path.join(TOP, "crates", path), encoding="utf-8") as file:
        lines = file.read().split("\n")
    taken, depth, inside = [], 0, False
    for line in lines:
        if not inside and re.match(TYPE.replace("{0}", re.escape(name)), line):
            inside, depth = True, 0
        if inside:
            taken.append(line)
            depth += line.count("{") + line.count("(") + line.count("[") - line.count("}") - line.count(")") - line.count("]")
            if depth <= 0 and (line.rstrip().endswith(("}", ";")) or "{" not in line and line.strip() == ""):
                inside = False
    return "\n".join(taken), len([line for line in taken if line.strip()])


def clauses(path, function, wanted):
    """The clauses of a function, or the one that is wanted, as text."""
    text = file_of(path).text
    begin = re.search(rf"^pub fn {function}\b", text, re.M).start()
    body = re.search(r"^\{", text[begin:], re.M).start() + begin
    found = CLAUSE.findall(text[begin : body + 1])
    if len(found) != len(re.findall(r"^    (?:ensures|requires)\b", text[begin:body], re.M)):
        raise SystemExit(f"{path}: not every clause of {function} is read")
    taken = [clause for name, clause in found if wanted in (None, name)]
    if not taken:
        raise SystemExit(f"{path}: {function} has no clause {wanted or ''}")
    return "\n".join(taken), traits(text, text[begin:body], "\n".join(taken))


def traits(text, header, taken):
    """The traits whose ghost members the clauses of a function name: of each the file and the name."""
    for parameter, name in re.findall(r"\b(\w+): (\w+)", re.search(r"<([^>]*)>", header)[1] if "<" in header else ""):
        crate = re.search(rf"^use (\w+)::(?:\{{[^}}]*\b{name}\b[^}}]*\}}|{name});", text, re.M)
        if not crate or not re.search(rf"\b{parameter}\.\w", taken):
            continue
        base = os.path.join(TOP, "crates", crate[1], "src")
        for file in sorted(os.listdir(base)):
            if file.endswith(".rt") and re.search(rf"^pub trait {name}\b", file_of(f"{crate[1]}/src/{file}").text, re.M):
                yield f"{crate[1]}/src/{file}", name


def reading(path, function, wanted):
    """What the clauses of a function lead to: of each file the lines of what is read there; and what is wrong on the way, as a private file that is met."""
    lines, wrong, seen = {}, [], set()
    begun, bounds = clauses(path, function, wanted)
    left = [(path, *pair) for pair in cited(file_of(path), begun)]

    def take_code(file, name):
        if (file, name) not in seen:
            seen.add((file, name))
            text, count = type_lines(file, name)
            if not count:
                wrong.append(f"{file} has no {name}")
            lines[file] = lines.get(file, 0) + count
            left.extend((file, *pair) for pair in cited(file_of(file), text))

    for bound in bounds:
        take_code(*bound)
    while left:
        source, module, name = left.pop()
        found = spec_path(module)
        if not found:
            declared = declared_type(module, name)
            if declared:
                take_code(*declared)
            elif is_ours(module):
                wrong.append(f"{source} cites {name} of {module}, which is nowhere")
            continue
        file = file_of(found)
        if name not in file.names:
            if name in file.imports:
                left.append((source, *file.imports[name]))
            else:
                wrong.append(f"{source} cites {name} of {found}, which has none")
            continue
        item = (found, file.names[name])
        if item in seen:
            continue
        seen.add(item)
        if file.is_private():
            wrong.append(f"{source} cites {name} of {found}, which is private")
        _, text, count = file.items[item[1]]
        lines[found] = lines.get(found, 0) + count
        left += [(found, *pair) for pair in cited(file, text)]
        own = "Rattle." + found.removesuffix(".antt").replace("/", ".")
        there = words(text)
        left += [(found, own, other) for other in file.names if all(part in there for part in parts_of(other))]
    return lines, wrong


def listed():
    """The reading list as the page has it, and why it is not as it should be."""
    rows, wrong, known = [], [], {}
    readings = [(title, *reading(path, function, wanted)) for title, path, function, wanted in READINGS]
    order = crate_order()
    for title, lines, faults in readings:
        known[title] = lines
        wrong += [f"{title}: {fault}" for fault in sorted(set(faults))]
    files = sorted({path for lines in known.values() for path in lines}, key=lambda path: (order.index(path.split("/")[0]), "/src/" in path, path))
    heads = ["headline", "whole language", "all of `run`"]
    rows.append("| file in `crates/` | " + " | ".join(heads) + " |")
    rows.append("|---" * (len(heads) + 1) + "|")
    for path in files:
        rows.append(f"| `{path}` | " + " | ".join(str(known[title].get(path, "")) for title, _, _ in readings) + " |")
    rows.append("| all | " + " | ".join(f"{sum(lines.values())} in {len(lines)} files" for _, lines, _ in readings) + " |")
    return "\n".join(rows), wrong, len(files)


def crate_order():
    """The crates, lowest first."""
    with open(os.path.join(TOP, "crates.txt"), encoding="utf-8") as file:
        return [line.partition(":")[0].split()[0] for line in file if line.strip() and not line.startswith("#")]


def main():
    table, wrong, passed = listed()
    with open(PAGE, encoding="utf-8") as file:
        page = file.read()
    if page.count(BEGIN) != 1 or page.count(END) != 1:
        wrong.append("docs/reading.md has no place for the reading list")
    else:
        front, behind = page.partition(BEGIN)[0], page.partition(END)[2]
        made = f"{front}{BEGIN}\n\n{table}\n\n{END}{behind}"
        if "--write" in sys.argv[1:]:
            with open(PAGE, "w", encoding="utf-8") as file:
                file.write(made)
        elif made != page:
            wrong.append("the reading list in docs/reading.md is another one: python3 tools/reading.py --write puts it right")
    if "--list" in sys.argv[1:]:
        print(table)
    end_look(passed, wrong)


if __name__ == "__main__":
    main()
