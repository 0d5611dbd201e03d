#!/usr/bin/env python3
"""Makes a design with many exceptions, each over many pins, and measures `md5sum` of its constraints.

The design is one of bench/designs.py. A third of the exceptions name clock pins of registers, a third what their paths pass,
and a third data pins; one in ten names its objects without saying of which kind they are.

usage: bench/exceptions.py --make GATES EXCEPTIONS PINS PREFIX      writes PREFIX.v, PREFIX.sdf and PREFIX.sdc
       bench/exceptions.py PREFIX                                   measures md5sum of PREFIX.sdc
"""

import os
import random
import sys

import designs
from problems import run


def pins_by_kind(path):
    """The pins of the gates, the clock pins and the data pins of the registers in a delay file."""
    gates, clocked, checked = [], [], []
    with open(path) as file:
        for row in file:
            if "(INSTANCE " not in row:
                continue
            instance = row.split("(INSTANCE ")[1].split(")")[0]
            if '"DFF"' in row:
                clocked.append(instance + "/CK")
                checked.append(instance + "/D")
            else:
                gates += [instance + "/A", instance + "/B", instance + "/Z"]
    return gates, clocked, checked


def exceptions(count, size, prefix):
    """Adds the exceptions to a design's constraints."""
    draw = random.Random(2)
    gates, clocked, checked = pins_by_kind(prefix + ".sdf")
    parts = [("-from", clocked), ("-through", gates), ("-to", checked)]
    with open(prefix + ".sdc", "a") as file:
        for number in range(count):
            word, pins = parts[number % 3]
            names = " ".join(draw.choice(pins) for _ in range(size))
            objects = f"[list {names}]" if number % 10 == 0 else f"[get_pins {{{names}}}]"
            file.write(f"set_multicycle_path {2 + number % 7} -setup {word} {objects}\n")


def main():
    if len(sys.argv) == 6 and sys.argv[1] == "--make":
        gates, count, size = (int(word) for word in sys.argv[2:5])
        designs.make(gates, 1, sys.argv[5])
        exceptions(count, size, sys.argv[5])
        return
    if len(sys.argv) != 2:
        sys.exit(__doc__)
    path = sys.argv[1] + ".sdc"
    seconds = min(run(["md5sum", path])[0] for _ in range(5))
    print(f"md5sum {os.path.getsize(path) / 1e6:6.1f} MB   {seconds:7.3f} s")


main()
