#!/usr/bin/env python3
"""Prints a pipeline of eight stages in SecVerilog, whose instructions belong to a public or to a secret owner, slot by slot. What a stage holds has the label
of its owner. An operand comes from the first stage that holds a result for it and has the same owner, and else from the owner's own registers, into which
the last stage writes. No instruction waits for another, so none tells of another one by time.
"""
STAGES, REGISTERS = 8, 8
OWNERS = ((0, ""), (1, "{H} "))
BITS = (REGISTERS - 1).bit_length()


def of_stages(text, first=1):
    return "".join(text.replace("$", str(stage)).replace("#", str(stage - 1)) for stage in range(first, STAGES + 1))


def operand(side):
    """Each stage says whether it holds this operand; the first that does hands its result on."""
    picked = "    " + "    else ".join(f"if (m{side}{stage}) f{side} = x{stage};\n" for stage in range(1, STAGES + 1))
    banks = "".join(f"      {case}\n" + "".join(f"          {number}: f{side} = r{owner}_{number};\n" for number in range(REGISTERS)) + "        endcase\n"
                    for (owner, _), case in zip(OWNERS, (f"if (owner == 0)\n        case ({side})", f"else\n        case ({side})")))
    return (of_stages(f"  wire {{Dom(owner)}} m{side}$;\n  assign m{side}$ = v$ & o$ == owner ? d$ == {side} : 0;\n")
            + f"  reg [15:0] {{Dom(owner)}} f{side};\n  always @*\n{picked}    else begin\n{banks}    end\n")


def written(owner):
    """The last stage writes into the registers of its owner."""
    arms = "".join(f"        {number}: r{owner}_{number} <= x{STAGES};\n" for number in range(REGISTERS))
    return f"  always @(posedge clk)\n    if (v{STAGES} & o{STAGES} == {owner})\n      case (d{STAGES})\n{arms}      endcase\n"


print("labelmap Dom [0:0] 0: L; default: H; endlabelmap\n"
      f"module pipeline(input clk, input valid, input owner, input [1:0] {{Dom(owner)}} op, input [{BITS - 1}:0] {{Dom(owner)}} a, b, d,\n"
      "  input [15:0] {Dom(owner)} given, output reg done, output reg who, output reg [15:0] {Dom(who)} result);")
print(of_stages(f"  reg v$, o$;\n  reg [{BITS - 1}:0] {{Dom(o$)}} d$;\n  reg [15:0] {{Dom(o$)}} x$;\n")
      + "".join(f"  reg [15:0] {label}{', '.join(f'r{owner}_{number}' for number in range(REGISTERS))};\n" for owner, label in OWNERS)
      + operand("a") + operand("b")
      + "  always @(posedge clk) begin\n    v1 <= valid;\n    o1 <= owner;\n    d1 <= d;\n    case (op)\n      0: x1 <= fa + fb;\n      1: x1 <= fa - fb;\n"
      "      2: x1 <= fa ^ fb;\n      default: x1 <= given;\n    endcase\n  end\n"
      + of_stages("  always @(posedge clk) begin v$ <= v#; o$ <= o#; d$ <= d#; x$ <= x#; end\n", 2)
      + written(0) + written(1)
      + f"  always @(posedge clk) begin done <= v{STAGES}; who <= o{STAGES}; result <= x{STAGES}; end\nendmodule")
