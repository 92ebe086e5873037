#!/usr/bin/env python3
"""What each public call of each crate promises of its end: the clause that says what it gives, when it refuses, and what a refused call leaves behind.

Reads the contracts and makes the pages of docs/promises/, a row for each call that a crate exports. Fails where a page is another one, where a call may wait
or end the process, where no clause speaks of what a call gives, of one of its refusals, or of what it leaves in something that it was lent to change, and
where the list of what is open (OPEN) names what a clause says. With --write it makes the pages. The last line is 'N passed, M failed'.
"""
import os
import re
import sys
from functools import cache

sys.dont_write_bytecode = True
TOP = os.path.dirname(os.path.dirname(os.path.abspath(__file__)))
sys.path.insert(0, os.path.join(TOP, "tests"))

from harness import end_look
from reading import cited, crate_order, file_of, spec_path

PAGES = os.path.join(TOP, "docs", "promises")
MOST_BYTES = 20000
# The pages, each with its crates.
GROUPS = {
    "outside": ("The outside, numbers and lattices", ["sv_num", "sv_io", "sv_lattice", "sv_system"]),
    "texts": ("Reading a text", ["sv_token", "sv_ast", "sv_parse_machine", "sv_parse_expr", "sv_parse_stmt", "sv_parse"]),
    "elaboration": ("Elaboration", ["sv_elab_rules", "sv_width", "sv_elab_stmt", "sv_elab_decl", "sv_elab", "sv_elab_laws", "sv_run_laws"]),
    "designs": ("Flat designs, runs and traces", ["sv_flat", "sv_graph", "sv_rules", "sv_design", "sv_sim", "sv_event", "sv_trace", "sv_sim_run", "sv_tworun", "sv_compare"]),
    "obligations": ("Obligations, their clauses and proofs",
                    ["sv_obl", "sv_paths", "sv_clause", "sv_gates", "sv_circuits", "sv_encoding", "sv_encoding_laws", "sv_blast", "sv_proof", "sv_solve",
                     "sv_decide", "sv_accept", "sv_judge"]),
    "program": ("Verdicts, words, samples and the top call", ["sv_texts", "sv_report", "sv_words", "sv_gen", "sv_cli", "sv_hints", "sv_messages"]),
}
# Types whose variants are the ways in which a call can end.
ANSWERS = {"Outcome", "Checked", "Verified", "Decided", "Solved", "Compared", "Ending"}
# The calls that say something to a person, or find its cause; behind the name stands what is open besides what it gives.
NONE, LINES, SELF = "when it answers None", "what it leaves in lines", "what it leaves in self"
TOLD = {
    "sv_hints": [("instance_words",), ("Case::name",), ("owned",), ("push_excerpt", LINES), ("port_link", NONE), ("Origin::tree", NONE),
                 ("first_unbuilt", NONE), ("place_of",), ("shown",), ("file_name",), ("shown_word",), ("Row::new",),
                 ("Row::of_points",), ("Row::add", SELF), ("Row::finish",), ("words_of",), ("told",)],
    "sv_messages": [("message",), ("spent_message",)],
}
# What is lent to a call of graphs or rules, which its caller drops where memory runs out.
LENT = [("sv_graph", "BitSet::add", SELF), ("sv_graph", "BitSet::add_all", SELF), ("sv_graph", "push_if", "what it leaves in signals"),
        ("sv_graph", "Queue::settle_all", SELF), ("sv_graph", "Search::add_way_back", "what it leaves in way"),
        ("sv_rules", "add_pieces", "what it leaves in set")]
# What no clause says, and why that stands.
OPEN = {
    ("sv_words", "help_text", "what it gives"): "the text is that of `clap`, and is only tested",
    **{(crate, name, what): "what a person is told is only tested" for crate, names in TOLD.items() for name, *more in names
       for what in ("what it gives", *more)},
    **{lent: "admission ends where memory runs out, and drops it" for lent in LENT},
}
HANDLES = re.compile(r"\b(Abort|Wait|Threads|Net|Processes)\b")
MEMORY = {"OutOfMemory", "AllocError", "AllocFailed"}
ITEM = re.compile(r"^( {4})?(pub(?:\([a-z]+\))? )?(?:unsafe )?fn (\w+)", re.M)
OWNER = re.compile(r"^(?:impl\b|pub trait |trait )[^{]*\{", re.M)
CLAUSE = re.compile(r"\b(requires|ensures)\*?(?: (\w+))? \{")
# Words that speak of what a call gives, or of its refusal; those of reading stand in sv_parse_expr/specs/Parses.antt.
SUCCESS = re.compile(r"\b(?:IfOk|OnOk|IfSome|OnSome|IfAnswered|Gives(?:As|All)?|Shortens|NoLonger|Leads(?:By|In)?)\s+result\b\s*")
REFUSAL = re.compile(r"\b(?:IfErr|OnErr|IsErr|IsErrOf|IfLong|IfFull|IfRefused|result_err|IsNone|IfNone|OnNone|Halts(?:By|On|In))\s+result\b")
# What a function that reads gives: an alias of sv_parse_expr/src/stop.rt.
READ = re.compile(r"^Read<'\w+, (.*)>$")
PAREN = {"(": ")", "{": "}", "[": "]"}


def closing(text, at):
    """Behind the bracket that closes the one at this place."""
    depth = 0
    for place in range(at, len(text)):
        if text[place] in PAREN:
            depth += 1
        elif text[place] in PAREN.values():
            depth -= 1
            if depth == 0:
                return place + 1
    return len(text)


def parts(text):
    """What stands between the commas of a text, those inside of brackets left aside."""
    found, depth, begun = [], 0, 0
    for at, sign in enumerate(text):
        if sign in "([{<":
            depth += 1
        elif sign in ")]}" or (sign == ">" and text[at - 1] not in "-="):
            depth -= 1
        elif sign == "," and depth == 0:
            found.append(text[begun:at].strip())
            begun = at + 1
    return [part for part in [*found, text[begun:].strip()] if part]


class Call:
    """A function: the type or trait that it belongs to, its parameters, what it answers, and its clauses."""

    def __init__(self, crate, path, owner, name, header):
        self.crate, self.path, self.owner, self.name, self.header = crate, path, owner, name, header
        first = CLAUSE.search(header)
        signature = header[: first.start()] if first else header
        begun = signature.index("(", signature.index(f"fn {name}") + len(name) + 3) if "<" not in signature.partition("(")[0] else self.open_of(signature)
        ended = closing(signature, begun)
        self.parameters = parts(signature[begun + 1 : ended - 1])
        given = re.match(r"\s*->\s*(.*?)(?:\bwhere\b.*)?$", signature[ended:], re.S)
        self.given = " ".join(given[1].split()) if given else "()"
        self.bounds = signature[: begun] + (signature[ended:].partition("where")[2])
        self.clauses = [(found[1], found[2], " ".join(header[found.end() : closing(header, found.end() - 1) - 1].split())) for found in CLAUSE.finditer(header)]

    @staticmethod
    def open_of(signature):
        """Where the parameters begin, behind those of types."""
        at, depth = signature.index("<"), 0
        while True:
            if signature[at] == "<":
                depth += 1
            elif signature[at] == ">" and signature[at - 1] not in "-=":
                depth -= 1
                if depth == 0:
                    return signature.index("(", at)
            at += 1

    @property
    def title(self):
        return f"{self.owner}::{self.name}" if self.owner else self.name

    def asks(self):
        return [name or "requires" for kind, name, _ in self.clauses if kind == "requires"]

    def ensures(self):
        return [(name or "ensures", text) for kind, name, text in self.clauses if kind == "ensures"]

    def lent(self):
        """The parameters that it may change, by their names."""
        for parameter in self.parameters:
            found = re.match(r"(?:&(?:'\w+ )?mut self$)|(?:(?:mut )?(\w+): &(?:'\w+ )?mut )", parameter)
            if found:
                yield found[1] or "self"

    def answers(self):
        """What it gives where it gives something, and what else it may answer: of a Result the error, and of an Option that there is none."""
        found = re.match(r"(?:io::)?(Result|Option)<(.*)>$", READ.sub(r"Result<(\1, &[Token]), Stop>", self.given))
        if not found:
            return self.given, None
        inner = parts(found[2])
        return inner[0], ("None" if found[1] == "Option" else inner[-1])


def unguarded(text):
    """What a clause says where the call is refused, too: without what stands behind a word as IfOk."""
    found = SUCCESS.search(text)
    while found:
        at = found.end()
        end = closing(text, at) if text[at : at + 1] in PAREN else at + len(re.match(r"\S*", text[at:])[0])
        text = text[: found.start()] + text[end:]
        found = SUCCESS.search(text)
    return text


def guarded(text):
    """Whether a clause speaks of what is given where the call is not refused."""
    return SUCCESS.search(text) is not None or ("result" in re.findall(r"\w+", text) and not REFUSAL.search(text))


class Owner:
    """An impl or a trait: the trait that an impl is of, if any, the type, and the clauses that stand in it for a function of the library's trait."""

    def __init__(self, head, text):
        head = " ".join(head.split())
        self.is_trait = head.startswith("pub trait")
        inner = head.partition(" ")[2] if not head.startswith("impl<") else head[closing_angle(head) :]
        trait, _, kind = inner.strip().partition(" where ")[0].rpartition(" for ")
        self.shown = trait.split("::")[-1]
        self.trait, self.kind = re.match(r"\w*", self.shown)[0], re.match(r"\w*", kind.split("::")[-1])[0]
        if self.is_trait:
            self.kind = re.match(r"pub trait (\w+)", head)[1]
        self.promises = [("ensures", found[1], "result " + " ".join(text[found.end() : closing(text, found.end() - 1)].split()))
                         for found in re.finditer(r"^    ghost (from_gives|hash_input|respects_eq) = \{", text, re.M)]


def functions(path):
    """The functions of a file, each with its owner and whether it is public."""
    text = re.sub(r"^\s*//.*\n", "", file_of(path).text, flags=re.M)
    owners = [(found.start(), closing(text, found.end() - 1), Owner(found[0][:-1], text[found.end() : closing(text, found.end() - 1)]))
              for found in OWNER.finditer(text)]
    for found in ITEM.finditer(text):
        at = found.end()
        while text[at] != ";":
            if text[at] in PAREN:
                opens = text[at] == "{" and not re.search(r"\b(?:requires|ensures)\*?(?: \w+)?\s*$", text[:at])
                if opens:
                    break
                at = closing(text, at)
            else:
                at += 1
        owner = next((head for begun, ended, head in owners if begun < found.start() < ended), None)
        if (owner is None) == (found[1] is None):
            yield owner, (found[2] or "").strip(), found[3], text[found.start() : at]


def closing_angle(text):
    depth = 0
    for at, sign in enumerate(text):
        depth += sign == "<"
        if sign == ">" and text[at - 1] not in "-=":
            depth -= 1
            if depth == 0:
                return at + 1
    return len(text)


@cache
def sources(crate):
    base = os.path.join(TOP, "crates", crate, "src")
    return [f"{crate}/src/{file}" for file in sorted(os.listdir(base)) if file.endswith(".rt")]


@cache
def exports(crate):
    """The names that a crate exports, of each the module, and the modules that it exports whole."""
    text = file_of(f"{crate}/src/lib.rt").text
    names = {}
    for path, listed in re.findall(r"^pub use ([\w:]+?)(?:::\{([^}]*)\})?;", text, re.M):
        inner = [name.strip() for name in listed.split(",") if name.strip()] if listed else [path.rpartition("::")[2]]
        module = path if listed else path.rpartition("::")[0]
        if module.split("::")[0] != "std" and not module.startswith("sv_"):
            names.update({name: module.replace("crate::", "") for name in inner})
    return names, set(re.findall(r"^pub mod (\w+)", text, re.M))


def defines(path, name):
    return re.search(rf"^pub (?:struct|enum|trait) {name}\b", file_of(path).text, re.M) is not None


def calls(crate):
    """The public calls of a crate, in the order of its files; a method that a trait's impl does not write clauses of has those of the trait."""
    names, modules = exports(crate)
    for path in sources(crate):
        module = path.rpartition("/")[2].removesuffix(".rt")
        whole = module in modules
        for owner, seen, name, header in functions(path):
            if owner is None:
                if seen == "pub" and (whole or module == "lib" or names.get(name) == module):
                    yield Call(crate, path, None, name, header)
                continue
            kind = owner.kind
            exported = whole and defines(path, kind) or names.get(kind) == module or (kind in names and not defines(path, kind))
            if exported and owner.trait:
                home = home_of(owner.trait)
                if home is None or owner.trait in exports(home[0])[0]:
                    call = Call(crate, path, f"<{kind} as {owner.shown}>", name, header)
                    call.clauses += owner.promises
                    yield with_trait(call, *home) if home and not call.clauses else call
            elif exported and (seen == "pub" or owner.is_trait):
                yield Call(crate, path, kind, name, header)


@cache
def home_of(trait):
    """The crate and the file that a trait of the repository stands in, if it is one, and its name."""
    for crate in crate_order():
        for path in sources(crate) if crate.startswith("sv_") else []:
            if re.search(rf"^pub(?:\(crate\))? trait {trait}\b", file_of(path).text, re.M):
                return crate, path, trait
    return None


def with_trait(call, crate, path, trait):
    """The call with the clauses of the trait."""
    for owner, _, name, header in functions(path):
        if owner and owner.is_trait and owner.kind == trait and name == call.name:
            call.clauses, call.path = Call(crate, path, trait, name, header).clauses, path
    return call


@cache
def variants(crate, name):
    """The variants of an enum of the repository, the crate's own first."""
    for other in [crate, *crate_order()]:
        if not other.startswith("sv_"):
            continue
        for path in sources(other):
            found = re.search(rf"^pub enum {name}(?:<[^>]*>)? \{{\n(.*?)^\}}", file_of(path).text, re.M | re.S)
            if found:
                return [variant for variant in re.findall(r"^    (\w+)(?:[({].*|,)$", found[1], re.M)]
    return []


@cache
def meanings(path, text):
    """The definitions that a clause leads to, as modules and names, and their texts."""
    seen, left, texts = set(), list(cited(file_of(path), text)), [text]
    while left:
        module, name = left.pop()
        if (module, name) in seen:
            continue
        seen.add((module, name))
        found = spec_path(module)
        if not found or name not in file_of(found).names:
            if found and name in file_of(found).imports:
                left.append(file_of(found).imports[name])
            continue
        file = file_of(found)
        # a case of which nothing is said
        inner = re.sub(r"^.*= Unit(?: \{0\})?$", "", file.items[file.names[name]][1], flags=re.M)
        texts.append(inner)
        left += cited(file, inner)
        there = set(re.findall(r"[\w']+", inner))
        own = "Rattle." + found.removesuffix(".antt").replace("/", ".")
        left += [(own, other) for other in file.names if other in there]
    return seen, "\n".join(texts)


def names_variant(call, text, kind, variant):
    """Whether a clause names a variant, or a definition does that it leads to."""
    seen, texts = meanings(call.path, text)
    return any(name == variant and kind in module or name == f"{kind}.{variant}" for module, name in seen) or re.search(rf"\b{kind}\.{variant}\b", texts) is not None


def never(call):
    """The clauses by which a call is never refused."""
    return [name for name, text in call.ensures() if text.startswith("result ≡ Ok ")]


def refusals(call):
    """What else a call may answer, each with the clauses that say when."""
    given, other = call.answers()
    for kind in ANSWERS & set(re.findall(r"\w+", given)):
        for variant in variants(call.crate, kind):
            if variant not in MEMORY:
                yield f"{kind}::{variant}", [name for name, text in call.ensures() if names_variant(call, text, kind, variant)]
    if other is None:
        return
    speaking = [(name, text) for name, text in call.ensures() if "result" in re.findall(r"\w+", unguarded(text))]
    if other == "None":
        yield "None", [name for name, _ in speaking]
        return
    kinds = [kind for kind in re.findall(r"\b[A-Z]\w*", other) if kind not in MEMORY and variants(call.crate, kind)]
    for kind in kinds:
        for variant in variants(call.crate, kind):
            if variant not in MEMORY:
                yield variant, [name for name, text in speaking if names_variant(call, text, kind, variant)]
    if not kinds and not MEMORY & set(re.findall(r"\w+", other)):
        yield other, [name for name, _ in speaking]


def takes_no_memory(text):
    """Whether a clause says that no call is refused for want of memory."""
    return "TakesNoMemory" in text


def may_lack_memory(call):
    if any(takes_no_memory(text) for _, text in call.ensures()):
        return False
    other = call.answers()[1] or ""
    return bool(MEMORY & set(re.findall(r"\w+", other))) or any("OutOfMemory" in variants(call.crate, kind) for kind in re.findall(r"\b[A-Z]\w*", other))


def leaves(call):
    """What a call may change, each with the clauses that say what it leaves there where it is refused, or always where nothing is refused."""
    for parameter in [] if "hash_input" in [name for name, _ in call.ensures()] else call.lent():
        yield parameter, [name for name, text in call.ensures() if re.search(rf"\b{parameter}\.new\b", unguarded(text))]
    for parameter in call.parameters:
        name, _, kind = parameter.partition(": ")
        if call.answers()[1] and re.match(r"[A-Z]\w*$", kind) and re.search(rf"\b{kind}\b", call.answers()[1]):
            yield name, [clause for clause, text in call.ensures() if REFUSAL.search(text) and re.search(rf"≡ {name}\b", text)]


def gives(call):
    """The clauses that say what a call gives, or leaves, where it is not refused."""
    kind, other = call.answers()
    lent = list(call.lent())
    if (kind == "()" and not lent and other is None) or any(name in ("from_gives", "hash_input") for name, _ in call.ensures()):
        return [name for name, _ in call.ensures()]
    spoken = []
    for name, text in call.ensures():
        if takes_no_memory(text):
            continue
        if guarded(text) or any(re.search(rf"\b{parameter}\.new\b", text) for parameter in lent):
            spoken.append(name)
    return spoken


def shown(names):
    return ", ".join(f"`{name}`" for name in dict.fromkeys(names))


def row(call, wrong, met):
    """The row of a call; what no clause says is noted."""
    def lacks(what):
        open_one = (call.crate, call.title, what)
        met.add(open_one)
        if open_one not in OPEN:
            wrong.append(f"{call.crate}: {call.title}: no clause says {what}")
        return "open"

    if HANDLES.search(call.bounds):
        wrong.append(f"{call.crate}: {call.title} may wait or end the process")
    given = shown(gives(call)) or lacks("what it gives")
    if never(call):
        return f"| `{call.title}` | {shown(call.asks()) or '-'} | {given} | never: {shown(never(call))} | - |"
    refused = [f"`{what}`: {shown(names) or lacks(f'when it answers {what}')}" for what, names in refusals(call)]
    if may_lack_memory(call):
        refused.append("memory")
    left = [f"`{what}`: {shown(names) or lacks(f'what it leaves in {what}')}" for what, names in leaves(call)]
    return f"| `{call.title}` | {shown(call.asks()) or '-'} | {given} | {'; '.join(refused) or '-'} | {'; '.join(left) or '-'} |"


def page(title, crates, wrong, met):
    """A page, and how many calls it lists."""
    lines, count = [f"# {title}: what each call promises of its end", "", HEAD, ""], 0
    for crate in crates:
        rows = [row(call, wrong, met) for call in calls(crate)]
        count += len(rows)
        lines += [f"## `{crate}`", ""]
        lines += ["| Call | Asks | Gives | Refuses | Leaves |", "|---|---|---|---|---|", *rows, ""] if rows else ["Nothing is called: definitions alone.", ""]
        left = [f"- No clause of `{name}` says {what}: {why}." for (other, name, what), why in OPEN.items() if other == crate]
        lines += [*left, ""] if left else []
    return "\n".join(lines).rstrip("\n") + "\n", count


HEAD = """Made from the contracts by `tools/promises.py --write`; [README.md](README.md) says how to read it."""


def written(path):
    """What a page says, if there is one."""
    if not os.path.exists(path):
        return None
    with open(path, encoding="utf-8") as file:
        return file.read()


def main():
    wrong, passed, met = [], 0, set()
    shipped = [crate for crate in crate_order() if crate.startswith("sv_")]
    listed = [crate for _, crates in GROUPS.values() for crate in crates]
    if sorted(listed) != sorted(shipped):
        wrong.append(f"these crates stand on no page, or on two: {sorted(set(shipped) ^ set(listed))}")
    if "--write" in sys.argv[1:]:
        os.makedirs(PAGES, exist_ok=True)
    for name, (title, crates) in GROUPS.items():
        made, count = page(title, crates, wrong, met)
        passed += count
        path = os.path.join(PAGES, f"{name}.md")
        if "--write" in sys.argv[1:]:
            with open(path, "w", encoding="utf-8") as file:
                file.write(made)
        if written(path) != made:
            wrong.append(f"docs/promises/{name}.md is another one: python3 tools/promises.py --write puts it right")
        if len(made.encode()) > MOST_BYTES:
            wrong.append(f"docs/promises/{name}.md has {len(made.encode())} bytes: it is to be cut")
    wrong += [f"{crate}: {title}: a clause says {what} now" for crate, title, what in sorted(OPEN.keys() - met)]
    end_look(passed, wrong)


if __name__ == "__main__":
    main()
