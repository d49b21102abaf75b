#!/usr/bin/env python3
"""Compares a program with a plain simulator in Python, over random cases.

    tests/fuzz.py PROGRAM [COUNT [FIRST]] [--only KINDS]     compares the outputs
    tests/fuzz.py --write FOLDER [COUNT [FIRST]]             writes the cases as files

A case is made from its number alone, so `tests/fuzz.py PROGRAM 1 NUMBER` shows it again. Cases
FIRST to FIRST + COUNT - 1 are tried, by default 300 from 0. The program gets the words of the case
as its command line and the input on standard input. Its standard output and its status are
compared; what it writes to standard error is not. The first case that differs is printed with its
number, command line, input and both outputs, and the status is then 1.

The simulator is `tests/oracle`. It follows docs/, shares no code with the program, and is simple
rather than fast: each event makes a new world, and each hunt is a plain walk.

The kinds of cases, for `--only` (a list with commas; other cases are left out):

- play, strict: plays of random scripts over all protocols and both formats; one strict case in
  three is a search with `--strict`;
- scenario: texts of scenarios, most of them with a fault;
- limits: plays that meet a limit (events, commands, branches, watches, messages, a long tick);
- search, sweep: searches and sweeps with no option but `--workers`;
- planned: sweeps with `--faults`, `--quiet`, `--script`, `--strict`, `--at-end`, `--json`,
  `--progress` and `--workers`;
- log: logs in words;
- script: the runs of numbered seeds;
- shrink: shrunk runs. They have more than one right output, so the run that is left is checked: it
  fails first at its end, it is the beginning of the given run without some faults, and without any
  one of its faults the condition fails nowhere in the rest of the given run;
- mistake: command lines that are wrong.

`--write` makes four files for each case: NUMBER.in has the input, NUMBER.args the words, one on a
line, NUMBER.out the output and NUMBER.status the status. Cases with several right outputs are left
out.
"""

import argparse
import gc
import pathlib
import subprocess
import sys

sys.dont_write_bytecode = True

from oracle.cases import KINDS, Case  # noqa: E402

SECONDS = 120


def read_words():
    """Returns the words of the command line."""
    parser = argparse.ArgumentParser(description=__doc__.split("\n", 1)[0])
    parser.add_argument("words", nargs="*", metavar="PROGRAM [COUNT [FIRST]]")
    parser.add_argument("--only", default=",".join(KINDS), metavar="KINDS")
    parser.add_argument("--write", metavar="FOLDER", type=pathlib.Path)
    words = parser.parse_args()
    words.program = None if words.write else (words.words.pop(0) if words.words else None)
    if words.program is None and words.write is None:
        parser.error("PROGRAM is missing")
    words.only = words.only.split(",")
    if not set(words.only) <= set(KINDS) or len(words.words) > 2:
        parser.error(f"the kinds are {', '.join(KINDS)}")
    numbers = [int(word) for word in words.words]
    words.count, words.first = (numbers + [300, 0][len(numbers):])
    return words


def write(folder, case):
    """Writes the files of a case."""
    output, status = case.expected()
    for suffix, data in (("in", case.input), ("out", output.encode()), ("status", b"%d\n" % status),
                         ("args", "".join(word + "\n" for word in case.words).encode())):
        (folder / f"{case.number}.{suffix}").write_bytes(data)


def show(case, output, status):
    """Prints a case that differs."""
    expected = case.expected() or ("a run that needs each of its faults\n", 0)
    print(f"case {case.number} differs: {case.kind}: {' '.join(map(repr, case.words))}")
    print(f"== input\n{case.input.decode('latin-1')}")
    print(f"== expected: status {expected[1]}\n{expected[0]}")
    print(f"== written: status {status}\n{output.decode('latin-1')}")


def differs(program, case):
    """Returns whether the program's output for a case is wrong, and prints the case then."""
    try:
        done = subprocess.run([program, *case.words], input=case.input, capture_output=True,
                              timeout=SECONDS, check=False)
        output, status = done.stdout, done.returncode
    except subprocess.TimeoutExpired:
        output, status = b"(no end)", "none"
    if case.is_right(output, status):
        return False
    show(case, output, status)
    return True


def main():
    """Tries the cases, and returns the status."""
    words = read_words()
    gc.disable()  # no value refers to itself, and long runs have many values
    if words.write:
        words.write.mkdir(parents=True, exist_ok=True)
    tried = 0
    for number in range(words.first, words.first + words.count):
        case = Case(number)
        if case.kind not in words.only:
            continue
        case.make()
        if words.write:
            if case.expected() is None:
                continue
            write(words.write, case)
        elif differs(words.program, case):
            return 1
        tried += 1
    what = f"written to {words.write}" if words.write else "as expected"
    print(f"{tried} cases from {words.first} on are {what}")
    return 0


if __name__ == "__main__":
    sys.exit(main())
