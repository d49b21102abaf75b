#!/usr/bin/env python3
"""Lists where a program spends its time, by samples: the functions, and the dearest instructions.

    bench/samples.py PROGRAM WORDS.. < INPUT

It runs the program eight times on the input, under `perf` (Debian's linux-perf), and prints each
function that has one percent of the samples, and in it each instruction that has 0.7 percent of
them, with the three before it. A sample falls on the instruction after the one that the processor
waited for.

Counts of instructions do not depend on the machine, but do not show a wait: for memory that is in
no cache, for a division, or for a load that overlaps a store just made. This shows them. Samples of
the clock work on virtual machines, which have no counters of their own.
"""

import os
import re
import shutil
import subprocess
import sys
import tempfile

RUNS = 8
OF_A_FUNCTION = 1.0
OF_AN_INSTRUCTION = 0.7
BEFORE = 3

FUNCTION = re.compile(r"\s*([0-9.]+)%\s+\S+\s+\S+\s+\[[.k]\]\s+(.*)")
INSTRUCTION = re.compile(r"\s*([0-9.]+)?\s*:\s+([0-9a-f]+):\s+(.*)")


def perf(data, *words):
    """Returns what a command of perf says of the samples."""
    ended = subprocess.run(["perf", words[0], "-i", data, "--stdio", *words[1:]],
                           stdout=subprocess.PIPE, stderr=subprocess.DEVNULL, text=True)
    return ended.stdout


def record(words, text, data):
    """Runs a program under perf, with this text as its input."""
    sampled = ["perf", "record", "-q", "-e", "cpu-clock", "-F", "20000", "-o", data, "--",
               "sh", "-c", f'for run in $(seq {RUNS}); do "$@" < "$0"; done; true', text, *words]
    subprocess.run(sampled, stdout=subprocess.DEVNULL, check=True)


def instructions_of(data, function, share):
    """Returns the instructions of a function, each with its percent of all samples."""
    said = perf(data, "annotate", "--no-source", "--percent-type=local-period", "-s", function)
    rows = [it.groups() for it in map(INSTRUCTION.match, said.splitlines()) if it]
    return [(float(own or 0) * share / 100, place, code) for own, place, code in rows]


def main():
    if len(sys.argv) < 2:
        sys.exit(__doc__)
    if not shutil.which("perf"):
        sys.exit("bench/samples.py: there is no perf; it is in Debian's package linux-perf")
    with tempfile.TemporaryDirectory() as room:
        text, data = os.path.join(room, "input"), os.path.join(room, "samples")
        with open(text, "wb") as file:
            shutil.copyfileobj(sys.stdin.buffer, file)
        record(sys.argv[1:], text, data)
        for line in perf(data, "report").splitlines():
            found = FUNCTION.match(line)
            if not found or float(found[1]) < OF_A_FUNCTION:
                continue
            share, function = float(found[1]), found[2].strip()
            print(f"{share:5.2f}%  {function}")
            rows = instructions_of(data, function, share)
            for at, (own, _, _) in enumerate(rows):
                if own >= OF_AN_INSTRUCTION:
                    for part, place, code in rows[max(0, at - BEFORE):at + 1]:
                        print(f"         {part:5.2f}%  {place}  {code}")
                    print()


if __name__ == "__main__":
    main()
