#!/usr/bin/env python3
"""Asks for the least slack of a design whose layering has as many items as may be, 4,194,304, and of one with more.

A chain of 32,767 buffers leads from `in` to the outputs; 64 clocks of one period launch at `in`, so that each arc is an item
in each of 64 classes. With two outputs there are 65,536 arcs; each further output adds an arc.

usage: bench/limits.py PROGRAM                           PROGRAM as `rt ci` or `rt run` leaves it: crates/budget_cli/out/budget_cli
"""

import os
import subprocess
import sys
import tempfile
import time

BUFFERS = 32767
CLOCKS = 64
BUFFER = "`celldefine\nmodule BUF (A, Z); input A; output Z; endmodule\n`endcelldefine\n"


def write(prefix, ports):
    """Writes the netlist, the delays and the constraints of a chain to these output ports."""
    with open(prefix + ".v", "w") as netlist:
        netlist.write(f"{BUFFER}module top (in, {', '.join(ports)}); input in; output {', '.join(ports)};\nassign n0 = in;\n")
        netlist.writelines(f"BUF b{k} (.A(n{k}), .Z(n{k + 1}));\n" for k in range(BUFFERS))
        netlist.writelines(f"assign {port} = n{BUFFERS};\n" for port in ports)
        netlist.write("endmodule\n")
    with open(prefix + ".sdf", "w") as delays:
        delays.write('(DELAYFILE (SDFVERSION "3.0") (DIVIDER /) (TIMESCALE 1ns)\n')
        cell = '(CELL (CELLTYPE "BUF") (INSTANCE b{}) (DELAY (ABSOLUTE (IOPATH A Z (0)))))\n'
        delays.writelines(cell.format(k) for k in range(BUFFERS))
        delays.write(")\n")
    with open(prefix + ".sdc", "w") as constraints:
        for k in range(CLOCKS):
            constraints.write(f"create_clock -name V{k} -period 10\nset_input_delay 0 -clock V{k} -add_delay [get_ports in]\n")
        constraints.write(f"set_output_delay 0 -clock V0 [get_ports {{{' '.join(ports)}}}]\n")


def ask(program, prefix):
    """What `least` prints of the design, its status, and how long it took."""
    began = time.perf_counter()
    done = subprocess.run([program, "least", prefix + ".v", prefix + ".sdf", prefix + ".sdc"], capture_output=True, text=True)
    return done.stdout.strip(), done.returncode, time.perf_counter() - began


def main():
    program = os.path.abspath(sys.argv[1])
    rows = [(["out", "out2"], "meets 10000", 0), (["out", "out2", "out3"], "limit items", 6)]
    with tempfile.TemporaryDirectory() as folder:
        for ports, text, status in rows:
            prefix = os.path.join(folder, f"outputs{len(ports)}")
            write(prefix, ports)
            printed, code, seconds = ask(program, prefix)
            verdict = "as it must be" if printed.startswith(text) and code == status else "WRONG"
            print(f"{2 ** 15 - 1 + 2 ** 15 - 1 + len(ports)} arcs: {printed}, status {code}, {seconds:.2f} s: {verdict}")


main()
