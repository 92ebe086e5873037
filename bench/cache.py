#!/usr/bin/env python3
"""Prints a cache of 64 lines in SecVerilog: of each of two domains, a public and a secret one, eight sets of four ways. A domain looks up and fills lines of
its own, so a hit tells the public one of its own addresses alone. Each set fills its ways in turns.
"""
SETS, WAYS, TAG = 8, 4, 11
DOMAINS = ((0, ""), (1, "{H} "))


def lines():
    return [(group, way) for group in range(SETS) for way in range(WAYS)]


def registers(domain, label):
    """Of each line a valid bit, a tag and a word, and of each set the way that is filled next."""
    names = {prefix: ", ".join(f"{prefix}{domain}_{group}_{way}" for group, way in lines()) for prefix in "vtw"}
    turns = ", ".join(f"n{domain}_{group}" for group in range(SETS))
    return f"  reg {label}{names['v']};\n  reg [{TAG - 1}:0] {label}{names['t']};\n  reg [15:0] {label}{names['w']};\n  reg [1:0] {label}{turns};\n"


def looked_up(domain):
    """The line of a set whose tag is the address's."""
    text = "        case (addr[2:0])\n"
    for group in range(SETS):
        ways = [f"if (v{domain}_{group}_{way} && t{domain}_{group}_{way} == addr[{TAG + 2}:3]) begin hit = 1; data = w{domain}_{group}_{way}; end\n" for way in range(WAYS)]
        text += f"          {group}: " + "            else ".join(ways)
    return text + "        endcase\n"


def filled(domain):
    """A miss fills the next way of its set."""
    cleared = "\n".join("      " + " ".join(f"v{domain}_{group}_{way} <= 0;" for way in range(WAYS)) + f" n{domain}_{group} <= 0;" for group in range(SETS))
    text = (f"  always @(posedge clk)\n    if (rst) begin\n{cleared}\n    end else if (dom == {domain}) begin\n      if (req && fill && !hit)\n"
            "        case (addr[2:0])\n")
    for group in range(SETS):
        ways = "".join(f"              {way}: begin v{domain}_{group}_{way} <= 1; t{domain}_{group}_{way} <= addr[{TAG + 2}:3]; w{domain}_{group}_{way} <= given; end\n"
                       for way in range(WAYS))
        text += f"          {group}: begin\n            n{domain}_{group} <= n{domain}_{group} + 1;\n            case (n{domain}_{group})\n{ways}            endcase\n          end\n"
    return text + "        endcase\n    end\n"


print("labelmap Dom [0:0] 0: L; default: H; endlabelmap\n"
      f"module cache(input clk, input rst, input dom, input {{Dom(dom)}} req, fill, input [{TAG + 2}:0] {{Dom(dom)}} addr,\n"
      "  input [15:0] {Dom(dom)} given, output reg {Dom(dom)} hit, output reg [15:0] {Dom(dom)} data);")
print("".join(registers(*domain) for domain in DOMAINS) + "  always @* begin\n    hit = 0; data = 0;\n    if (req) begin\n      if (dom == 0) begin\n" + looked_up(0)
      + "      end else begin\n" + looked_up(1) + "      end\n    end\n  end\n" + "".join(filled(domain) for domain, _ in DOMAINS) + "endmodule")
