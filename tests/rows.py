#!/usr/bin/env python3
"""Writes some cases of tests/fuzz.py with their outputs, for the test `cases` of the gate.

    tests/rows.py             writes plays.rt, jobs.rt and runs.rt in crates/test_support/src/cases
    tests/rows.py --check     writes nothing, and exits with 1 if a file has another text

For each kind the first short cases are taken, of logs and scripts only those that are not refused,
and of scripts only those whose events depend on the seed of their run. There are none of a limit,
whose texts are long, of a shrunk run, which has more than one right answer, and of a wrong command
line, which is no job.

A case begins with `^`, its number and the exit status. The words of the command line follow, one on
a line, then `~` and the input, then `~` and the output. In the file it is one line, since the gate
reserves memory by lines: with all lines of the cases, `test_program` kept the programs waiting.
"""

import pathlib
import sys
import unittest.mock

sys.dont_write_bytecode = True

from oracle import hunts  # noqa: E402
from oracle.cases import Case  # noqa: E402

FOLDER = pathlib.Path(__file__).resolve().parent.parent / "crates/test_support/src/cases"

# For each file, how many cases of each kind it has.
FILES = {
    "plays": {"play": 10, "scenario": 3, "strict": 2},
    "jobs": {"search": 4, "sweep": 4, "planned": 5},
    "runs": {"log": 4, "script": 3},
}
# The most lines and columns of a case, input and output together.
MOST_LINES = {"plays": 36, "jobs": 36, "runs": 104}
MOST_COLUMNS = 90

HEAD = """\
// Random cases with the outputs of a plain simulator. tests/rows.py writes this file, and says
// how a case is laid out.
pub const {name}: &str = "\\
"""


def chosen(name, counts):
    """Returns this many cases of each kind for the file of a name, by their numbers."""
    left, cases, number = dict(counts), [], 0
    while any(left.values()):
        case = Case(number)
        number += 1
        if left.get(case.kind):
            case.make()
            if is_short(case, MOST_LINES[name]) and (name != "runs" or is_telling(case)):
                left[case.kind] -= 1
                cases.append(case)
    return cases


def is_telling(case):
    """Returns whether a log or a script is of a run, and a script of one that goes by its seed."""
    _output, status = case.expected()
    return status == 0 and (case.kind != "script" or goes_by_its_seed(case))


def goes_by_its_seed(case):
    """Returns whether a script is another one if its run draws latencies and losses as run 0."""
    other, worlds = Case(case.number), hunts.worlds
    with unittest.mock.patch.object(
            hunts, "worlds", lambda scenario, events: worlds(scenario.numbered(0), events)):
        other.make()
        return other.expected() != case.expected()


def is_short(case, most_lines):
    """Returns whether a case is a few short lines of printable ASCII without the marks of a row."""
    lines = row(case).encode("utf-8", "replace")[1:].split(b"\n")
    return len(lines) <= most_lines and all(
        len(line) <= MOST_COLUMNS and not any(mark in line for mark in (b"^", b'"#'))
        and all(32 <= byte < 127 for byte in line) for line in lines) and row(case).count("~") == 2


def literal(text):
    """Returns the line of a string literal for a text."""
    escaped = text.replace("\\", "\\\\").replace('"', '\\"').replace("\n", "\\n")
    return escaped + "\\\n"


def row(case):
    """Returns the text of a case."""
    output, status = case.expected()
    words = "".join(word + "\n" for word in case.words)
    return f"^{case.number} {status}\n{words}~{case.input.decode('latin-1')}~{output}"


def main():
    """Writes the files, or compares them."""
    status = 0
    for name, counts in FILES.items():
        file = FOLDER / f"{name}.rt"
        rows = "".join(literal(row(it)) for it in chosen(name, counts))
        text = HEAD.format(name=name.upper()) + rows + '";\n'
        if sys.argv[1:] != ["--check"]:
            FOLDER.mkdir(parents=True, exist_ok=True)
            file.write_text(text)
        elif not file.exists() or file.read_text() != text:
            status = 1
    return status


if __name__ == "__main__":
    sys.exit(main())
