"""What `width.sh` runs: it is given the program, a folder and how often an expression is evaluated."""
import functools
import operator
import os
import random
import resource
import subprocess
import sys

from results import note

PROGRAM, FOLDER, TIMES = sys.argv[1], sys.argv[2], int(sys.argv[3])
TOKENS = (128, 256, 512, 1024)
TYPED = 200
MORE = 400
SIGNALS = (("a", 32, True), ("b", 32, False), ("c", 16, True), ("d", 64, False))
STEP = 6364136223846793005


def run(words, text="", statuses=(0,)):
    """What a program writes, and its processor time in seconds."""
    before = resource.getrusage(resource.RUSAGE_CHILDREN)
    told = subprocess.run(words, input=text, capture_output=True, text=True, check=False)
    after = resource.getrusage(resource.RUSAGE_CHILDREN)
    if told.returncode not in statuses:
        sys.exit(f"{words} ended with {told.returncode}: {told.stdout[-200:]}")
    return told.stdout, after.ru_utime + after.ru_stime - before.ru_utime - before.ru_stime


def put(name, *lines):
    """A file that holds these lines."""
    path = os.path.join(FOLDER, name)
    with open(path, "w", encoding="ascii") as file:
        file.write("\n".join([*lines, ""]))
    return path


def header():
    """The head of a design with the signals as its inputs."""
    ports = ", ".join(f"input {'signed ' if signed else ''}[{width - 1}:0] {name}" for name, width, signed in SIGNALS)
    return f"module m({ports}, output [63:0] y);"


# ---- evaluating

def chain(tokens, operators, draw, names="abcd"):
    """Operands with operators between them."""
    text = [draw.choice(names)]
    while len(text) + 2 <= tokens:
        text += [draw.choice(operators), draw.choice(names)]
    return text


def tree(tokens, operators, draw, names="abcd"):
    """Operators over operands in parentheses, choices among them; each group is split in two."""
    if tokens < 9:
        return chain(max(tokens, 1), operators, draw, names)
    half = (tokens - 5) // 2
    left, right = tree(half, operators, draw, names), tree(half, operators, draw, names)
    if draw.random() < 0.2:
        return [draw.choice(names), "?", "(", *left, ")", ":", *right]
    return ["(", *left, ")", draw.choice(operators), "(", *right, ")"]


def steps():
    """What is added to each signal in a cycle, from the value 0 on."""
    odd = 1
    for name, width, _ in SIGNALS:
        odd = odd * STEP % 2**64
        yield name, width, odd % 2**width


def stimulus(times):
    """The values of the signals in so many cycles."""
    lines = ["inputs " + " ".join(name for name, *_ in SIGNALS)]
    for turn in range(1, times + 1):
        lines.append(" ".join(f"{step * turn % 2**width:x}" for _, width, step in steps()))
    return "\n".join([*lines, ""])


def traced(text, given):
    """The trace of the expression's values as `y`, and the processor time of `secv sim`."""
    return run([PROGRAM, "sim", put("design.v", header(), f"  assign y = {text};", "endmodule")], given)


def vvp_source(text, times):
    lines = ["module bench;"]
    for name, width, signed in SIGNALS:
        lines.append(f"reg {'signed ' if signed else ''}[{width - 1}:0] {name};")
    lines += [f"wire [63:0] y = {text};", "reg [63:0] all;", "integer i;", "initial begin", "all = 0;"]
    lines += [f"{name} = 0;" for name, _, _ in SIGNALS]
    lines.append(f"for (i = 0; i < {times}; i = i + 1) begin")
    lines += [f"{name} = {name} + {width}'d{step};" for name, width, step in steps()]
    lines += ["#1 all = all ^ y;", "end", '$display("%0d", all);', "end", "endmodule"]
    return lines


def vvp(text, times):
    source, program = put("bench.v", *vvp_source(text, times)), os.path.join(FOLDER, "bench.vvp")
    subprocess.run(["iverilog", "-g2005", "-o", program, source], check=True)
    told, took = run(["vvp", program])
    return told.strip(), took


def evaluate(name, tokens, rounds):
    text = " ".join(tokens)
    trace, _ = traced(text, stimulus(rounds))
    value = functools.reduce(operator.xor, (int(line.rpartition("=")[2], 16) for line in trace.splitlines()))
    wanted, whole = vvp(text, rounds)
    _, start = vvp(text, 0)
    if str(value) != wanted:
        sys.exit(f"{name}: {value}, and vvp has {wanted}")
    # over more rounds, since each takes so little, and less what the same cycles take without the expression
    given = stimulus(MORE * TIMES)
    own = max(least(traced, text, given) - least(traced, "d", given), 0) / (MORE * TIMES) * 1e6
    beside = (whole - start) / rounds * 1e6
    print(f"{name:24} {len(tokens):6} {own:10.2f} {beside:10.2f} {own / beside:8.4f}", flush=True)
    note("width", f"evaluating {name}", us=f"{own:.2f}", vvp=f"{beside:.2f}")
    return own / beside


def least(measure, *given):
    """The least processor time of seven runs."""
    return min(measure(*given)[1] for _ in range(7))


# ---- typing

def filled(tokens, most, opening, closing, front):
    """Levels inside each other, each with its share of `front` before it: for 1,024 tokens as many as `most`, for half of them half,
    so that twice the tokens are twice as many of each kind."""
    levels = most * tokens // TOKENS[-1]
    share = max(0, (tokens - levels * (len(opening) + len(closing)) - 1) // levels // len(front))
    text = ["a"]
    for _ in range(levels):
        text = front * share + opening + text + closing
    while len(text) + 2 <= tokens:
        text += ["+", "a"]
    return text


def counts(tokens):
    """A count that is a replication whose count is one, and so on."""
    text, levels = ["1"], 30 * tokens // TOKENS[-1]
    share = max(0, (tokens - levels * 5 - 1) // levels // 2)
    for _ in range(levels):
        text = ["{"] + ["0", "+"] * share + text + ["{", "1'b1", "}", "}"]
    return text


def divisions(tokens):
    return ["7"] + ["/", "1", "+", "8"] * ((tokens - 1) // 4)


SHAPES = {
    "one level": lambda n: chain(n, ["+"], random.Random(1)),
    "parentheses": lambda n: filled(n, 60, ["("], [")"], ["a", "+"]),
    "unary operators": lambda n: filled(n, 30, ["~", "("], [")"], ["a", "-"]),
    "choices": lambda n: filled(n, 30, ["a", "?", "b", ":"], [], ["b", "-"]),
    "comparisons in joins": lambda n: filled(n, 30, ["{", "1'b1", "<"], ["}"], ["c", "^"]),
    "bits by bits": lambda n: filled(n, 60, ["d", "["], ["]"], ["1", "+"]),
    "counts of counts": counts,
    "divisions": divisions,
}


def elaborated(text, last):
    """The processor time of so many copies of an expression, with what stands behind them."""
    copies = [f"  wire [63:0] w{number} = {text};" for number in range(TYPED)]
    return run([PROGRAM, "sim", put("design.v", header(), *copies, *last)], statuses=(1,))


def typed(text):
    """The microseconds that typing an expression takes: up to a name that is refused behind all copies, less reading, up to the end that is missing."""
    return max(least(elaborated, text, ["  assign y = nothing;", "endmodule"]) - least(elaborated, text, ["  assign y = nothing;"]), 0) / TYPED * 1e6


def typing():
    print(f"\n{'typing, by shape':24} " + " ".join(f"{n:>7} tokens" for n in TOKENS) + "   growth")
    worst = 0.0
    for name, shape in SHAPES.items():
        texts = [shape(tokens) for tokens in TOKENS]
        times = [typed(" ".join(text)) for text in texts]
        growth = times[-1] / max(times[-2], 1e-6) / (len(texts[-1]) / len(texts[-2])) * 2
        worst = max(worst, growth)
        print(f"{name:24} " + " ".join(f"{t:11.1f} us" for t in times) + f"   {growth:.2f}")
        note("width", f"typing {name}", us=f"{times[-1]:.1f}")
    return worst


def main():
    print(f"load: {os.getloadavg()[0]:.1f}")
    print(f"{'evaluating':24} {'tokens':>6} {'us':>10} {'vvp, us':>10} {'ratio':>8}")
    draw = random.Random(2005)
    ratios = [
        evaluate("sums in a row", chain(1024, ["+", "-"], draw), TIMES),
        evaluate("logic in a row", chain(1024, ["&", "|", "^"], draw), 20 * TIMES),
        evaluate("one signal, a tree", tree(1024, ["+", "-", "&", "|", "^"], draw, "d"), 20 * TIMES),
        evaluate("sums and logic, a tree", tree(1024, ["+", "-", "&", "|", "^"], draw), 20 * TIMES),
        evaluate("every class, a tree", tree(1024, ["+", "-", "*", "&", "^", "<", "==", "<<", ">>>", "&&"], draw), 20 * TIMES),
    ]
    worst = typing()
    print(f"\ntwice the tokens take {worst:.2f} times the time to type, at most")
    print(f"evaluating against vvp, at most: {max(ratios):.3f}")


if __name__ == "__main__":
    main()
