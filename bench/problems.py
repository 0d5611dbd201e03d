#!/usr/bin/env python3
"""Measures `raw` where it finds budgets and where a path is violated, and `prove` on a problem with its certificate.

Times are seconds, and ratios to md5sum of the same files in the same run.

usage: bench/problems.py PROGRAM [ITEMS ..]      PROGRAM as `rt ci` or `rt run` leaves it: crates/budget_cli/out/budget_cli
       bench/problems.py --make KIND ITEMS PATH  writes such a problem: budgeted, violated, chain or certified
"""

import os
import random
import subprocess
import sys
import tempfile
import time


def layered(items, path, late, seed=1, weights=10):
    """Writes a problem of this many items over layers of nodes; every node lies on a path. Ends allow so much a layer."""
    draw = random.Random(seed)
    width = 100
    layers = max(2, items // (3 * width))
    nodes = layers * width
    lines = ["problem 1", f"nodes {nodes}"]
    left = items
    for layer in range(1, layers):
        for place in range(width):
            to = layer * width + place
            lines.append(item(draw, to - width, to, weights))
            left -= 1
    while left > 0:
        layer = draw.randrange(1, layers)
        start = (layer - 1) * width + draw.randrange(width)
        lines.append(item(draw, start, layer * width + draw.randrange(width), weights))
        left -= 1
    for place in range(width):
        lines.append(f"start {place} {draw.randrange(1000)}")
    for place in range(width):
        lines.append(f"end {nodes - width + place} {1000 + layers * late + draw.randrange(1000)}")
    with open(path, "w") as file:
        file.write("\n".join(lines) + "\n")


def item(draw, start, to, weights):
    least = draw.randrange(100)
    return f"item {start} {to} {least} {least + draw.randrange(1000)} {draw.randrange(weights)}"


def budgeted(items, path):
    """Writes a layered problem whose least slack is at least 0."""
    layered(items, path, late=400)


def violated(items, path):
    """Writes a layered problem with a path that is too long at least delays."""
    layered(items, path, late=20)


def certified(items, path):
    """Writes a problem without weights, and beside it the certificate whose budgets are the least delays."""
    layered(items, path, late=400, weights=1)
    with open(path) as file:
        rows = [line.split() for line in file]
    nodes = int(rows[1][1])
    arcs = [(int(row[1]), int(row[2]), int(row[3])) for row in rows if row[0] == "item"]
    starts = [(int(row[1]), int(row[2])) for row in rows if row[0] == "start"]
    ends = [int(row[1]) for row in rows if row[0] == "end"]
    arrivals = [0] * nodes
    for node, offset in starts:
        arrivals[node] = max(arrivals[node], offset)
    for start, to, least in sorted(arcs):
        arrivals[to] = max(arrivals[to], arrivals[start] + least)
    lines = ["certificate 1"]
    lines += [f"node {node} 0 {arrival}" for node, arrival in enumerate(arrivals)]
    lines += [f"item {start} {to} 0 {least} 0" for start, to, least in arcs]
    lines += [f"start {node} 0 0" for node, _ in starts]
    lines += [f"end {node} 0 0" for node in ends]
    lines += ["weight 0"]
    with open(path + ".cert", "w") as file:
        file.write("\n".join(lines) + "\n")


def chain(items, path):
    """Writes one violated chain whose nodes stand in the worst order of numbers: each item leads to a lower one."""
    lines = ["problem 1", f"nodes {items + 1}"]
    lines += [f"item {n + 1} {n} 10 20 1" for n in range(items)]
    lines += [f"start {items} 0", f"end 0 {10 * items - 1}"]
    with open(path, "w") as file:
        file.write("\n".join(lines) + "\n")


def run(words):
    """Wall seconds and peak memory in bytes of a command, the best of three runs."""
    seconds, memory = [], []
    for _ in range(3):
        begin = time.monotonic()
        child = subprocess.Popen(words, stdout=subprocess.DEVNULL)
        _, status, usage = os.wait4(child.pid, 0)
        child.returncode = os.waitstatus_to_exitcode(status)
        seconds.append(time.monotonic() - begin)
        memory.append(usage.ru_maxrss * 1024)
    return min(seconds), min(memory), child.returncode


def report(name, program, items, path):
    files = [path, path + ".cert"] if name == "certified" else [path]
    size = sum(os.path.getsize(file) for file in files)
    sum_seconds, _, _ = run(["md5sum", *files])
    seconds, memory, status = run([program, "prove" if name == "certified" else "raw", *files])
    beside = (memory - size) / items
    print(
        f"{name:9} {items:9} items {size / 1e6:7.1f} MB   status {status}   {seconds:7.3f} s = {seconds / sum_seconds:5.1f} md5sum"
        f"   {memory / 1e6:7.1f} MB, {beside:6.1f} bytes an item beside the text"
    )


def make(kind, items, path):
    """Writes a problem in a process of its own: a child's peak memory begins with that of its parent."""
    subprocess.run([sys.executable, __file__, "--make", kind, str(items), path], check=True)


KINDS = {"budgeted": budgeted, "violated": violated, "chain": chain, "certified": certified}

# finding budgets scans all arcs for each node that a search takes, so its problems are small
SIZES = {"budgeted": [200, 500, 1_000, 2_000]}


def main():
    if sys.argv[1] == "--make":
        KINDS[sys.argv[2]](int(sys.argv[3]), sys.argv[4])
        return
    program = os.path.abspath(sys.argv[1])
    given = [int(word) for word in sys.argv[2:]]
    with tempfile.TemporaryDirectory() as folder:
        path = os.path.join(folder, "p")
        for kind in KINDS:
            for items in given or SIZES.get(kind, [10_000, 100_000, 1_000_000]):
                make(kind, items, path)
                report(kind, program, items, path)


if __name__ == "__main__":
    main()
