#!/usr/bin/env python3
"""Makes a structural Verilog netlist: cells marked as such, blocks of their instances, and a top that joins the blocks.

usage: bench/netlists.py --make INSTANCES PATH       at least 200 instances of cells, 200 to a block
"""

import random
import sys

BLOCK = 200
WIDTH = 16

CELLS = """`timescale 1ns/1ps
`celldefine
module INV (Z, A); // inverter
  output Z; input A;
  not (Z, A);
  specify (A => Z) = (0, 0); endspecify
endmodule
module ND2 (Z, A, B);
  output Z; input A, B;
  nand (Z, A, B);
  specify (A => Z) = (0, 0); (B => Z) = (0, 0); endspecify
endmodule
module DFF (Q, D, CK);
  output Q; input D, CK; reg Q;
  always @(posedge CK) Q <= D;
  specify $setuphold(posedge CK, D, 0, 0); (posedge CK => (Q +: D)) = (0, 0); endspecify
endmodule
`endcelldefine
"""


def block(draw, number, file):
    """Writes a block: a row of registers and a cloud of gates behind them, each fed from what stands before it."""
    name = f"block_{number}"
    file.write(f"/* {name} */\nmodule {name} (clk, din, dout);\n")
    file.write(f"  input clk;\n  input [{WIDTH - 1}:0] din;\n  output [{WIDTH - 1}:0] dout;\n")
    file.write(f"  wire [{BLOCK - 1}:0] net;\n  wire \\held[0] ;\n  assign \\held[0] = 1'b0;\n")
    for n in range(BLOCK):
        if n < WIDTH:
            file.write(f"  DFF \\state_reg[{n}] (.Q(net[{n}]), .D(din[{n}]), .CK(clk));\n")
            continue
        first, second = draw.randrange(n), draw.randrange(n)
        if draw.randrange(3) == 0:
            file.write(f"  INV U{n} (.Z(net[{n}]), .A(net[{first}]));\n")
        else:
            file.write(f"  (* keep = \"true\" *) ND2 U{n} (.Z(net[{n}]), .A(net[{first}]), .B(net[{second}]));\n")
    file.write(f"  assign dout = net[{BLOCK - 1}:{BLOCK - WIDTH}];\nendmodule\n\n")


def netlist(instances, path):
    draw = random.Random(1)
    blocks = max(1, instances // BLOCK)
    with open(path, "w") as file:
        file.write(CELLS)
        for number in range(blocks):
            block(draw, number, file)
        file.write(f"module top (clk, din, dout);\n  input clk;\n  input [{WIDTH - 1}:0] din;\n  output [{WIDTH - 1}:0] dout;\n")
        for number in range(1, blocks):
            file.write(f"  wire [{WIDTH - 1}:0] link_{number};\n")
        for number in range(blocks):
            source = "din" if number == 0 else f"link_{number}"
            target = "dout" if number == blocks - 1 else f"link_{number + 1}"
            file.write(f"  block_{number} b{number} (.clk(clk), .din({source}), .dout({target}));\n")
        file.write("endmodule\n")


def main():
    if len(sys.argv) != 4 or sys.argv[1] != "--make":
        sys.exit(__doc__)
    netlist(int(sys.argv[2]), sys.argv[3])


if __name__ == "__main__":
    main()
