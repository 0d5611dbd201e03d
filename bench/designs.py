#!/usr/bin/env python3
"""Makes designs, each a netlist, its delays and its constraints, and measures `least` on them.

A design has gates of two inputs in four blocks in a row, a register behind one gate in eight, and its delays in ps. The
last words choose its clocks: with one, every input and output is timed by it; with more, each has a delay at every input.

usage: bench/designs.py PROGRAM [GATES ..]                 PROGRAM as `rt ci` or `rt run` leaves it: crates/budget_cli/out/budget_cli
       bench/designs.py --make GATES CLOCKS PREFIX         writes PREFIX.v, PREFIX.sdf and PREFIX.sdc
"""

import os
import random
import subprocess
import sys
import tempfile

from problems import run

CELLS = """`celldefine
module GATE (A, B, Z); input A, B; output Z; endmodule
module DFF (CK, D, Q); input CK, D; output Q; endmodule
`endcelldefine
"""

BLOCKS = 4
PORTS = 4


def block(number, gates, draw, netlist, delays):
    """Writes a block and its delays: each gate takes two of the last eight signals."""
    ports = ["ck"] + [f"a{k}" for k in range(PORTS)] + [f"y{k}" for k in range(PORTS)]
    netlist.write(f"module m{number} ({', '.join(ports)});\n")
    netlist.write(f"input {', '.join(ports[: PORTS + 1])};\noutput {', '.join(ports[PORTS + 1 :])};\n")
    signals = [f"a{k}" for k in range(PORTS)]
    for gate in gates:
        near = min(8, len(signals))
        first, second = signals[-1 - draw.randrange(near)], signals[-1 - draw.randrange(near)]
        netlist.write(f"GATE g{gate} (.A({first}), .B({second}), .Z(n{gate}));\n")
        a, b = 20 + draw.randrange(80), 20 + draw.randrange(80)
        paths = f"(IOPATH A Z ({a})) (IOPATH B Z ({b}))"
        delays.write(f'(CELL (CELLTYPE "GATE") (INSTANCE b{number}/g{gate}) (DELAY (ABSOLUTE {paths})))\n')
        if draw.randrange(8) == 0:
            netlist.write(f"DFF r{gate} (.CK(ck), .D(n{gate}), .Q(q{gate}));\n")
            path = "(DELAY (ABSOLUTE (IOPATH (posedge CK) Q (50))))"
            check = "(TIMINGCHECK (SETUP D (posedge CK) (30)))"
            delays.write(f'(CELL (CELLTYPE "DFF") (INSTANCE b{number}/r{gate}) {path} {check})\n')
            signals.append(f"q{gate}")
        else:
            signals.append(f"n{gate}")
    for k in range(PORTS):
        netlist.write(f"assign y{k} = {signals[-1 - k]};\n")
    netlist.write("endmodule\n")


def top(netlist):
    """Writes the top: the blocks in a row."""
    inputs = ["clk"] + [f"a{k}" for k in range(PORTS)]
    outputs = [f"y{k}" for k in range(PORTS)]
    netlist.write(f"module top ({', '.join(inputs + outputs)});\n")
    netlist.write(f"input {', '.join(inputs)};\noutput {', '.join(outputs)};\n")
    for number in range(BLOCKS):
        links = [".ck(clk)"]
        links += [f".a{k}({f'a{k}' if number == 0 else f'w{number - 1}_{k}'})" for k in range(PORTS)]
        links += [f".y{k}({f'y{k}' if number == BLOCKS - 1 else f'w{number}_{k}'})" for k in range(PORTS)]
        netlist.write(f"m{number} b{number} ({', '.join(links)});\n")
    netlist.write("endmodule\n")


def constraints(gates, clocks, file):
    """Writes a clock on the port and virtual ones beside it, and a delay by each at all inputs and outputs."""
    period = 100 * gates + 1000
    file.write("set_units -time ps\ncurrent_design top\n")
    for number in range(clocks):
        source = "[get_ports clk]" if number == 0 else ""
        file.write(f"create_clock -name C{number} -period {min(period, 10**9)} {source}\n")
    inputs, outputs = (" ".join(f"{side}{k}" for k in range(PORTS)) for side in "ay")
    for number in range(clocks):
        file.write(f"set_input_delay 0 -clock C{number} -add_delay [get_ports {{{inputs}}}]\n")
        file.write(f"set_output_delay 0 -clock C{number} -add_delay [get_ports {{{outputs}}}]\n")


def make(gates, clocks, prefix):
    draw = random.Random(1)
    with open(prefix + ".v", "w") as netlist, open(prefix + ".sdf", "w") as delays:
        netlist.write(CELLS)
        delays.write("(DELAYFILE (DIVIDER /) (TIMESCALE 1ps)\n")
        for number in range(BLOCKS):
            own = range(number * gates // BLOCKS, (number + 1) * gates // BLOCKS)
            block(number, own, draw, netlist, delays)
        top(netlist)
        delays.write(")\n")
    with open(prefix + ".sdc", "w") as file:
        constraints(gates, clocks, file)


def report(program, gates, prefix):
    files = [prefix + end for end in (".v", ".sdf", ".sdc")]
    size = sum(os.path.getsize(file) for file in files)
    sum_seconds, _, _ = run(["md5sum", *files])
    seconds, memory, status = run([program, "least", *files])
    print(
        f"least {gates:8} gates {size / 1e6:6.1f} MB   status {status}   {seconds:7.3f} s = {seconds / sum_seconds:5.1f} md5sum"
        f"   {memory / 1e6:7.1f} MB"
    )


def main():
    if len(sys.argv) == 5 and sys.argv[1] == "--make":
        make(int(sys.argv[2]), int(sys.argv[3]), sys.argv[4])
        return
    if len(sys.argv) < 2:
        sys.exit(__doc__)
    program = os.path.abspath(sys.argv[1])
    with tempfile.TemporaryDirectory() as folder:
        prefix = os.path.join(folder, "d")
        for gates in [int(word) for word in sys.argv[2:]] or [2_000, 20_000, 200_000]:
            # a child's peak memory begins with that of its parent, so the design is made by another process
            subprocess.run([sys.executable, __file__, "--make", str(gates), "1", prefix], check=True)
            report(program, gates, prefix)


if __name__ == "__main__":
    main()
