"""What the text of a design declares, as far as a picture of it needs that: the signals of its top and of each instance, with widths and labels.

The text is not checked, which is what `secv` does. A width or a label that cannot be told is None.
"""
import collections
import re

# A based literal, a decimal, a name and a sign; blanks, comments and directives are passed over.
TOKEN = re.compile(r"\s+|//[^\n]*|/\*.*?\*/|`[^\n]*|((?:[0-9][0-9_]*)?'[sS]?[bodhBODH][0-9a-fA-F_]+|[0-9][0-9_]*|[A-Za-z_][A-Za-z0-9_$]*"
                   r"|<<<|>>>|~\^|\^~|[<>=!]=|<<|>>|&&|\|\||.)", re.S)
NAME = re.compile(r"[A-Za-z_][A-Za-z0-9_$]*")
BASED = re.compile(r"([0-9_]*)'([sS]?)([bodhBODH])([0-9a-fA-F_]+)")
BASES = {"b": 2, "o": 8, "d": 10, "h": 16}
WORDS = set("always assign begin case default else end endcase endlabelmap endlattice endmodule if input invariant labelmap lattice localparam module output "
            "parameter point posedge reg signed wire".split())
# How tightly a binary operator binds.
TIGHTNESS = {sign: 10 - row for row, signs in enumerate(
    ["* / %", "+ -", "<< >> <<< >>>", "< <= > >=", "== !=", "&", "^ ~^ ^~", "|", "&&", "||"]) for sign in signs.split()}
OF_ONE_BIT = {
    "<": lambda a, b: a < b, "<=": lambda a, b: a <= b, ">": lambda a, b: a > b, ">=": lambda a, b: a >= b, "==": lambda a, b: a == b, "!=": lambda a, b: a != b,
    "&&": lambda a, b: bool(a and b), "||": lambda a, b: bool(a or b),
}
OF_BOTH_LENGTHS = {
    "*": lambda a, b: a * b, "/": lambda a, b: a // b, "%": lambda a, b: a % b, "+": lambda a, b: a + b, "-": lambda a, b: a - b, "&": lambda a, b: a & b,
    "^": lambda a, b: a ^ b, "|": lambda a, b: a | b,
}
MOST_BITS = 64
LEAST_POINT, MOST_POINT = "L", "H"
# A bound that is no constant of these forms.
UNREAD = ("",)

# A constant that is at least 0, in a type that holds it: so it is the same in every longer type, signed or not.
Constant = collections.namedtuple("Constant", "value bits signed")
Parameter = collections.namedtuple("Parameter", "name signed high value is_open")
# A label is a point, or a map with its selectors; no label is the least point.
Label = collections.namedtuple("Label", "name selectors")
Signal = collections.namedtuple("Signal", "width is_reg label")
Declared = collections.namedtuple("Declared", "name high is_reg label")
Instance = collections.namedtuple("Instance", "module name named ordered")


class Module:
    """What a module declares: `parts` are its parameters, signals and instances in the order of the text."""

    def __init__(self, name):
        self.name, self.parts = name, []

    def of(self, kind):
        return [part for part in self.parts if isinstance(part, kind)]


class Text:
    """The lattice, the label maps and the modules of a text."""

    def __init__(self, text):
        self.tokens = [token[1] for token in TOKEN.finditer(text) if token[1]] + [""]
        self.at, self.modules, self.maps, self.points, self.pairs = 0, {}, [], [LEAST_POINT, MOST_POINT], [(LEAST_POINT, MOST_POINT)]
        while self.tokens[self.at]:
            if self.take("module"):
                self.read_module()
            elif self.take("lattice"):
                self.read_lattice()
            elif self.take("labelmap"):
                self.maps.append(self.take_name())
            else:
                self.at += 1

    def peek(self, ahead=0):
        return self.tokens[min(self.at + ahead, len(self.tokens) - 1)]

    def take(self, *wanted):
        """The next token, where it is one of these, and else nothing."""
        if self.peek() not in wanted:
            return None
        self.at += 1
        return self.tokens[self.at - 1]

    def is_name(self, ahead=0):
        return NAME.fullmatch(self.peek(ahead)) is not None and self.peek(ahead) not in WORDS

    def take_name(self):
        return self.take(self.peek()) if self.is_name() else None

    def skip_to(self, *ends):
        """Passes over what stands before one of these tokens, and over brackets whole."""
        depth = 0
        while self.peek() and (depth or self.peek() not in ends):
            depth += (self.peek() in ("(", "[", "{")) - (self.peek() in (")", "]", "}"))
            if depth < 0:
                return
            self.at += 1

    def go_on_from(self, begun):
        """Passes over a token that nothing took, so that a text that is wrong has an end too."""
        self.at += self.at == begun

    def read_lattice(self):
        self.points, self.pairs = [], []
        while self.peek() and not self.take("endlattice"):
            if self.take("point"):
                while name := self.take_name():
                    self.points.append(name)
                    self.take(",")
            elif self.is_name() and self.peek(1) == "<=" and self.is_name(2):
                self.pairs.append((self.peek(), self.peek(2)))
                self.at += 3
            else:
                self.at += 1

    def read_module(self):
        module = Module(self.take_name())
        if module.name:
            self.modules.setdefault(module.name, module)
        if self.take("#"):
            self.take("(")
            self.read_parameters(module, True)
            self.take(")")
        if self.take("("):
            self.read_ports(module)
        while self.peek() and not self.take("endmodule"):
            self.read_item(module)

    def read_item(self, module):
        if word := self.take("parameter", "localparam"):
            self.read_parameters(module, word == "parameter")
        elif word := self.take("wire", "reg"):
            high, label = self.read_type()[1:]
            while name := self.take_name():
                module.parts.append(Declared(name, high, word == "reg", label))
                self.skip_to(",", ";")
                self.take(",")
        elif self.is_name() and (self.is_name(1) and self.peek(2) == "(" or self.peek(1) == "#" and self.peek(2) == "("):
            # nothing else has two names, or a name and a #, side by side
            self.read_instances(module)
        else:
            self.at += 1

    def read_parameters(self, module, is_open):
        signed, high = False, None
        while self.peek() not in ("", ";", ")"):
            begun = self.at
            if self.take("parameter"):
                signed, high = False, None
            if self.peek() in ("signed", "["):
                signed, high = self.read_type()[:2]
            name = self.take_name()
            value = self.read_value() if self.take("=") else None
            if name:
                module.parts.append(Parameter(name, signed, high, value, is_open))
            self.skip_to(",", ";")
            self.take(",")
            self.go_on_from(begun)

    def read_ports(self, module):
        is_reg, high, label = False, None, None
        while self.peek() and not self.take(")"):
            begun = self.at
            if self.take("input", "output"):
                is_reg = self.take("wire", "reg") == "reg"
                _, high, label = self.read_type()
            if name := self.take_name():
                module.parts.append(Declared(name, high, is_reg, label))
            self.skip_to(",")
            self.take(",")
            self.go_on_from(begun)

    def read_type(self):
        """Whether `signed` stands there, the high bound of the range, and the label."""
        signed, high, label = bool(self.take("signed")), None, None
        if self.take("["):
            high = self.read_value() or UNREAD
            self.skip_to()
            self.take("]")
        if self.take("{"):
            name, selectors = self.take_name(), []
            if self.take("("):
                while selector := self.take_name():
                    selectors.append(selector)
                    self.take(",")
                self.take(")")
            self.skip_to()
            self.take("}")
            label = Label(name, tuple(selectors))
        return signed, high, label

    def read_instances(self, module):
        of, named, ordered = self.take_name(), {}, []
        if self.take("#"):
            self.take("(")
            while self.peek() and not self.take(")"):
                begun = self.at
                if self.take("."):
                    name = self.take_name()
                    self.take("(")
                    named[name] = self.read_value()
                    self.skip_to()
                    self.take(")")
                else:
                    ordered.append(self.read_value())
                self.skip_to(",")
                self.take(",")
                self.go_on_from(begun)
        while name := self.take_name():
            module.parts.append(Instance(of, name, named, ordered))
            self.skip_to(",", ";")
            self.take(",")

    # Constants are read as nested tuples: a number, a name, or a sign with its operands; what is left out is None.

    def read_value(self):
        return self.read_choice() if self.peek() not in (",", ";", ")", "]", "") else None

    def read_choice(self):
        condition = self.read_binary(0)
        if not self.take("?"):
            return condition
        first = self.read_choice()
        self.take(":")
        return "?", condition, first, self.read_choice()

    def read_binary(self, least):
        left = self.read_unary()
        while TIGHTNESS.get(self.peek(), 0) > least:
            sign = self.take(self.peek())
            left = sign, left, self.read_binary(TIGHTNESS[sign])
        return left

    def read_unary(self):
        if sign := self.take("+", "!", "-", "~", "&", "|", "^", "~^", "^~"):
            return sign, self.read_unary()
        if self.take("("):
            value = self.read_choice()
            self.skip_to()
            self.take(")")
            return value
        if self.peek() == "{":
            self.at += 1
            self.skip_to()
            self.take("}")
            return None
        if self.peek()[:1].isalnum() or self.peek()[:1] in ("_", "'"):
            return (self.take(self.peek()),)
        return None


def fits(value, bits, signed):
    """The constant, where the type holds it."""
    return Constant(value, bits, signed) if 0 <= value < 1 << bits - signed else None


def number_of(token):
    """The constant that a number is."""
    size, signed, base, digits = BASED.fullmatch(token).groups() if BASED.fullmatch(token) else ("", "s", "d", token)
    try:
        return fits(int(digits, BASES[base.lower()]), int(size) if size else 32, bool(signed))
    except ValueError:
        return None


def constant_of(value, names):
    """The constant that an expression has, where the names have theirs, or None where it cannot be told without the types of the standard."""
    if value is None:
        return None
    if len(value) == 1:
        return names[value[0]] if value[0] in names else number_of(value[0])
    sign, operands = value[0], [constant_of(operand, names) for operand in value[1:]]
    if None in operands:
        return None
    if len(operands) == 1:
        return operands[0] if sign == "+" else Constant(int(not operands[0].value), 1, False) if sign == "!" else None
    first, last = operands[-2:]
    bits, signed = max(first.bits, last.bits), first.signed and last.signed
    if sign == "?":
        return fits((first if operands[0].value else last).value, bits, signed)
    if sign in OF_ONE_BIT:
        return Constant(int(OF_ONE_BIT[sign](first.value, last.value)), 1, False)
    if sign in ("<<", "<<<"):
        return fits(first.value << min(last.value, MOST_BITS), first.bits, first.signed)
    if sign in (">>", ">>>"):
        return fits(first.value >> last.value, first.bits, first.signed)
    if sign in OF_BOTH_LENGTHS and not (sign in ("/", "%") and last.value == 0):
        return fits(OF_BOTH_LENGTHS[sign](first.value, last.value), bits, signed)
    return None


def width_of(high, names):
    """The width of a range from its high bound: 1 where there is no range."""
    bound = constant_of(high, names)
    return bound.value + 1 if bound and bound.value < MOST_BITS else None


def top_of(text, wanted):
    """The module that is asked for or, where none is, the only one that no other has an instance of."""
    if wanted is not None:
        return text.modules.get(wanted)
    inner = {instance.module for module in text.modules.values() for instance in module.of(Instance)}
    outer = [module for name, module in text.modules.items() if name not in inner]
    return outer[0] if len(outer) == 1 else None


class Design:
    """The design of a text below a top: its signals by their paths, in the order of a trace."""

    def __init__(self, text, wanted):
        self.text, self.signals = Text(text), {}
        top = top_of(self.text, wanted)
        self.name = top.name if top else "top"
        if top:
            add_signals(self.text, top, "", {}, (top.name,), self.signals)


def add_signals(text, module, before, given, around, signals):
    names = {}
    for part in module.parts:
        if isinstance(part, Parameter):
            value = given[part.name] if part.is_open and part.name in given else constant_of(part.value, names)
            if part.high and value:
                width = width_of(part.high, names)
                value = fits(value.value, width, part.signed) if width else None
            names[part.name] = value
        elif isinstance(part, Declared):
            label = part.label and Label(part.label.name, tuple(before + name for name in part.label.selectors))
            width = 1 if part.high is None else width_of(part.high, names)
            signals[before + part.name] = Signal(width, part.is_reg, label)
    for part in module.of(Instance):
        inner = text.modules.get(part.module)
        if inner and inner.name not in around:
            those = [parameter.name for parameter in inner.of(Parameter) if parameter.is_open]
            values = {**dict(zip(those, part.ordered)), **part.named}
            values = {name: constant_of(value, names) for name, value in values.items()}
            add_signals(text, inner, f"{before}{part.name}.", values, (*around, inner.name), signals)


def least_point(text):
    """The point that flows to all, which is the label of what has none."""
    return points_upwards(text)[0] if text.points else None


def points_upwards(text):
    """The points, those before others that flow to these."""
    above = {point: {point} for point in text.points}
    for _ in text.points:
        for low, high in text.pairs:
            if low in above and high in above:
                above[low] |= above[high]
    return sorted(text.points, key=lambda point: -len(above[point]))


def tree_of(paths):
    """Scopes in scopes: the paths that stand right here, and the scopes below by their names."""
    here, below = [], {}
    for path in paths:
        scope = (here, below)
        for name in path.split(".")[:-1]:
            scope = scope[1].setdefault(name, ([], {}))
        scope[0].append(path)
    return here, below
