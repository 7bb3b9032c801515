#!/usr/bin/env python3
"""Measures what a solve costs: the tables of docs/PERFORMANCE.md, from the program `limits`.

usage: python3 tools/measure.py [PROGRAM]     PROGRAM is crates/limits/out/limits, which ./limits.sh builds, if not given

For each rule and each number of points it makes rule.txt and points.rec in a folder of its own, counts the instructions
of a run with valgrind --tool=callgrind, and takes the best time of fifteen runs.
"""

import os
import re
import struct
import subprocess
import sys
import tempfile
import time

TOP = os.path.dirname(os.path.dirname(os.path.abspath(__file__)))
SIZES = (512, 1024, 2048)


def steady(count):
    """Records in which channel 0 reads the same at every point."""
    return b"".join(struct.pack("<Iiiii", tick, 5, 0, 0, 0) for tick in range(count))


def round_of_31(count):
    """Records in which channel 0 goes round through 31 readings."""
    return b"".join(struct.pack("<Iiiii", tick, tick % 31, 0, 0, 0) for tick in range(count))


def chain(operator, rules):
    """The rules joined by an operator that groups to the left."""
    text = rules[0]
    for rule in rules[1:]:
        text = f"({text}){operator}({rule})"
    return text


def rules():
    one = "c0<=p"
    boxes = "F((c0>=p)&(c0<=p))"
    yield 1, one, steady
    yield 8, f"X(G(F({chain('&', [one] * 3)})))", steady
    yield 24, f"G({chain('&', [one] * 12)})", steady
    yield 8, f"X(X(X(X({boxes}))))", round_of_31
    yield 24, chain("|", [boxes] * 5), round_of_31


def instructions(program, folder):
    run = subprocess.run(
        ["valgrind", "--tool=callgrind", "--callgrind-out-file=/dev/null", program],
        cwd=folder, capture_output=True, text=True, check=True)
    return int(re.search(r"Collected : (\d+)", run.stderr).group(1)), run.stdout


def best_time(program, folder):
    best = None
    for _ in range(15):
        start = time.perf_counter()
        subprocess.run([program], cwd=folder, capture_output=True, check=True)
        taken = time.perf_counter() - start
        best = taken if best is None else min(best, taken)
    return best


def measure(program, rule, records):
    with tempfile.TemporaryDirectory() as folder:
        with open(os.path.join(folder, "rule.txt"), "w") as f:
            f.write(rule)
        with open(os.path.join(folder, "points.rec"), "wb") as f:
            f.write(records)
        count, output = instructions(program, folder)
        return count, best_time(program, folder), output.split("\n")[0]


def main():
    program = os.path.abspath(sys.argv[1] if len(sys.argv) > 1 else os.path.join(TOP, "crates/limits/out/limits"))
    bases = {}
    for size in SIZES:
        bases[size], seconds, said = measure(program, "?", steady(size))
        print(f"refused at its first byte, {size} points: {bases[size]} instructions, {seconds * 1000:.1f} ms ({said})")
    for parts, rule, records in rules():
        row = []
        for size in SIZES:
            count, seconds, said = measure(program, rule, records(size))
            row.append(count - bases[size])
        print(f"{parts} parts, {len(rule)} bytes: {row}, {seconds * 1000:.1f} ms at {SIZES[-1]} ({said})")


main()
