#!/usr/bin/env python3
"""Makes a delay file (SDF) of many cells, as a bench for its reader.

Each cell has an entry with two paths of three values each, and each fourth one is a register with a setup and a hold
check; the wires between the cells come in one entry of the top.

usage: bench/delays.py CELLS PATH
"""

import random
import sys


def triple(draw):
    low = draw.randrange(10, 400)
    return f"({low / 1000:.3f}:{low / 1000 + 0.01:.3f}:{low / 1000 + 0.02:.3f})"


def cell(draw, number):
    name = f"u{number // 100}/m{number // 10 % 10}/g{number % 10}_{number}"
    paths = [
        f"    (IOPATH {pin} Z {triple(draw)} {triple(draw)})"
        for pin in ("A", "B")
    ]
    lines = [f'(CELL (CELLTYPE "NAND2_X{1 + number % 4}")', f"  (INSTANCE {name})"]
    if number % 4 == 0:
        paths = [f"    (IOPATH (posedge CK) Q {triple(draw)} {triple(draw)})"]
    lines += ["  (DELAY (ABSOLUTE"] + paths + ["  ))"]
    if number % 4 == 0:
        lines.append("  (TIMINGCHECK")
        lines.append(f"    (SETUP D (posedge CK) {triple(draw)})")
        lines.append(f"    (HOLD D (posedge CK) {triple(draw)}))")
    return "\n".join(lines) + ")"


def wire(draw, number):
    first = f"u{number // 100}/m{number // 10 % 10}/g{number % 10}_{number}"
    second = f"u{(number + 1) // 100}/m{(number + 1) // 10 % 10}/g{(number + 1) % 10}_{number + 1}"
    return f"    (INTERCONNECT {first}/Z {second}/A {triple(draw)})"


def main():
    cells, path = int(sys.argv[1]), sys.argv[2]
    draw = random.Random(1)
    with open(path, "w") as file:
        file.write('(DELAYFILE (SDFVERSION "3.0") (DIVIDER /) (TIMESCALE 1ns)\n')
        file.write('(CELL (CELLTYPE "top") (INSTANCE) (DELAY (ABSOLUTE\n')
        for number in range(cells - 1):
            file.write(wire(draw, number) + "\n")
        file.write("  )))\n")
        for number in range(cells):
            file.write(cell(draw, number) + "\n")
        file.write(")\n")


main()
