#!/usr/bin/env python3
"""Writes an SDC text of many commands: clocks, delays and exceptions with lists in brackets and braces.

usage: bench/sdc.py FILE [COMMANDS]
"""

import random
import sys


def command(draw, number):
    kind = draw.randrange(5)
    port = f"p[{draw.randrange(64)}]"
    pins = " ".join(f"u{draw.randrange(1000)}/r{draw.randrange(1000)}/CK" for _ in range(1 + draw.randrange(4)))
    delay = f"{draw.randrange(10)}.{draw.randrange(1000):03}"
    if kind == 0:
        return f"create_clock -name C{number} -period {1 + draw.randrange(9)}.5 -waveform {{0 1}} [get_ports clk{number}]"
    if kind == 1:
        return f"set_input_delay -clock C0 -max {delay} [get_ports {port}]"
    if kind == 2:
        return f"set_output_delay -clock C0 -min {delay} \\\n  [get_ports {{{port}}}]"
    if kind == 3:
        return f"set_false_path -hold -from [list [get_clocks C0] [get_pins {{{pins}}}]]"
    return f'set_multicycle_path 2 -setup -from [get_pins {{{pins}}}] -comment "path {number}"; # {number}'


def main():
    count = int(sys.argv[2]) if len(sys.argv) > 2 else 100000
    draw = random.Random(1)
    with open(sys.argv[1], "w") as file:
        for number in range(count):
            file.write(command(draw, number) + "\n")


main()
