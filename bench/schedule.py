#!/usr/bin/env python3
"""Says how long the gate takes on the clock, by a model of how `rt ci` spreads its work.

    bench/schedule.py [PROCESSORS [GIB]]     by default 4 processors and 22 GiB of free memory
    bench/schedule.py 4 simback              ./build.py simback

It takes the seconds of bench/seconds.txt, and the dependencies of crates.txt. The rules are those
of the toolchain: a check begins when all that it stands on is proved, first those with the most
lines above them; it reserves memory by its lines and by the lines and the kit's crates below it,
at most 85 percent of what is free; wrong bodies are tried where a processor is free, and none is
begun while a proof waits for memory. The model gives each check one processor; `rt ci` gives a
proof more of them if nothing else can begin.

It prints the checks of two minutes and more, each with its begin and end in minutes, and last the
time on the clock, the processor minutes and the longest chain.

For a program the rules are those of build.py itself, whose schedule this calls. A check with
several jobs takes less time and more work, by the shares below. It prints the checks of one minute
and more, and no chain.
"""

import os
import pathlib
import shutil
import sys

TOP = pathlib.Path(__file__).resolve().parent.parent
KIT = pathlib.Path(os.path.realpath(shutil.which("rt") or sys.exit("there is no rt"))).parents[1]

sys.dont_write_bytecode = True
sys.path.insert(0, str(TOP))
import build

# What a check over a second proof takes of the memory of one from nothing.
OVER = 0.7

# The seconds for which a check of the gate looks for contracts that no call can meet, whatever the
# crate, and what a program takes if one compiler builds it and not two.
EMPTY_CONTRACTS = 4
WITHOUT_SECOND_BUILD = 0.7

# What a check with several jobs takes of the time and of the work of one.
TIME_WITH_JOBS = {1: 1, 2: 0.61, 3: 0.47, 4: 0.4}
WORK_WITH_JOBS = {1: 1, 2: 1.2, 3: 1.33, 4: 1.5}


def words_of(file, mark):
    """Returns the words of the lines of a file, each parted at a mark, without comments."""
    for line in (TOP / file).read_text().splitlines():
        head, _, rest = line.partition("#")[0].partition(mark)
        if head.strip():
            yield head.split(), rest.split()


class Crates:
    """The crates of the workspace: what each cites, its lines and its wrong bodies."""

    def __init__(self):
        self.cited = {head[0]: rest for head, rest in words_of("crates.txt", ":")}
        self.lines = {name: self.count(name, "rt") for name in self.cited}

    def count(self, name, kind):
        folder = TOP / "crates" / name
        return sum(len(file.read_bytes().splitlines()) for file in folder.rglob(f"*.{kind}")
                   if "out" not in file.relative_to(folder).parts)

    def below(self, name):
        """Returns the crates that a crate stands on, each after those that it stands on itself."""
        found = {}
        for other in self.cited[name]:
            if other in self.cited:
                found.update(dict.fromkeys([*self.below(other), other]))
        return list(found)

    def memory(self, name):
        """Returns what rt reserves for a check of a crate, in bytes."""
        below = self.below(name)
        kit = {it for crate in [name, *below] for it in self.cited[crate]} - set(self.cited)
        files = [KIT / f"rlibs/{it}.rlib/toolchain/checked.a" for it in kit]
        loaded = sum(os.path.getsize(file) for file in files if file.is_file())
        return (1e9 + 1e6 * self.lines[name] + 2e5 * self.count(name, "antt")
                + 8e4 * sum(self.lines[it] for it in below) + min(5 * loaded, 2.5e9))


class Task:
    """A check: what it waits for, its lines, its memory and its seconds."""

    def __init__(self, waits, lines, memory, seconds, fills=False):
        self.waits, self.lines, self.memory = waits, lines, memory
        self.seconds, self.fills, self.behind = seconds, fills, lines


def add_edits(tasks, name, crates, memory, seconds):
    """Adds the second proof of a crate and its wrong bodies."""
    count = len(list((TOP / "crates" / name / "must-fail").glob("*.edit")))
    both, (proof, edit) = [f"{name} proof", f"{name} tests"], seconds
    below = [f"{it} proof" for it in crates.below(name)]
    if count > 1:
        tasks[f"{name} again"] = Task(below, 0, memory, proof, True)
        both, memory = [*both, f"{name} again"], OVER * memory
    for number in range(count):
        tasks[f"{name} edit {number}"] = Task(both, crates.lines[name], memory, edit, True)


def seconds_of_crates():
    """Returns the seconds of each crate: of its proof, of its tests, and of a wrong body."""
    return {head[0]: [0 if it == "-" else int(it) for it in head[1:]]
            for head, _ in words_of("bench/seconds.txt", "#")}


def tasks_of(crates):
    """Returns the checks of the gate, each after those that it waits for."""
    tasks, seconds = {}, seconds_of_crates()
    lowest_first = dict.fromkeys(it for name in crates.cited for it in [*crates.below(name), name])
    for name in lowest_first:
        proof, tests, edit = seconds[name]
        below = [f"{it} proof" for it in crates.below(name)]
        lines, memory = crates.lines[name], crates.memory(name)
        tasks[f"{name} proof"] = Task(below, lines, memory, proof)
        tasks[f"{name} tests"] = Task(below, lines if tests else 0, memory, tests)
        add_edits(tasks, name, crates, memory, (proof, edit))
    for name in reversed(tasks):
        for other in tasks[name].waits:
            tasks[other].behind = max(tasks[other].behind,
                                      tasks[other].lines + tasks[name].behind)
    return tasks


def begin(tasks, left, ended, running, room):
    """Returns the names of the checks to begin now, in order."""
    begun, lacks = [], False
    (lanes, memory) = room
    for name in left:
        task = tasks[name]
        if any(it not in ended for it in task.waits):
            continue
        if lacks and task.fills:
            break
        if lanes > 0 and (not (running or begun) or task.memory <= memory):
            begun.append(name)
            lanes, memory = lanes - 1, memory - task.memory
        else:
            lacks = lacks or (lanes > 0 and not task.fills)
    return begun


def chain_of(tasks):
    """Returns the seconds of the longest chain of checks, and its last one."""
    longest = {}
    for name, task in tasks.items():
        longest[name] = task.seconds + max((longest[it] for it in task.waits), default=0)
    last = max(longest, key=longest.get)
    return longest[last], last


def time_of_build(program, processors):
    """Prints how long ./build.py takes for a program, with its longer checks."""
    crates, seconds = build.Crates(), seconds_of_crates()
    schedule = build.Schedule([*crates.below(program), program], crates, processors)
    running, now, total = {}, 0, 0
    while schedule.left or running:
        for name, jobs in schedule.begin().items():
            # Most of a program's time is LLVM's, which has one job.
            jobs = 1 if name == program else jobs
            work = seconds[name][0] - EMPTY_CONTRACTS
            work *= WITHOUT_SECOND_BUILD if name == program else 1
            running[name] = (now, now + work * TIME_WITH_JOBS[jobs])
            total += work * WORK_WITH_JOBS[jobs]
        now = min(end for _, end in running.values())
        for name in [it for it, (_, end) in running.items() if end == now]:
            start, end = running.pop(name)
            del schedule.running[name]
            if end - start >= 60:
                print(f"{start / 60:6.1f} {end / 60:6.1f}  {name}")
    print(f"{now / 60:.0f} minutes on {processors} processors, {total / 60:.0f} processor minutes")


def main():
    if sys.argv[2:3] and not sys.argv[2].isdigit():
        return time_of_build(sys.argv[2], int(sys.argv[1]))
    numbers = [int(word) for word in sys.argv[1:3]]
    processors, gib = numbers + [4, 22][len(numbers):]
    tasks = tasks_of(Crates())
    left = sorted(tasks, key=lambda it: (tasks[it].fills, -tasks[it].behind))
    running, ended, now = {}, set(), 0
    while left or running:
        memory = 0.85 * gib * 2**30 - sum(tasks[it].memory for it in running)
        for name in begin(tasks, left, ended, running, (processors - len(running), memory)):
            left.remove(name)
            running[name] = (now, now + tasks[name].seconds)
        now = min(end for _, end in running.values())
        for name in [it for it, (_, end) in running.items() if end == now]:
            start, end = running.pop(name)
            ended.add(name)
            if end - start >= 120:
                print(f"{start / 60:6.1f} {end / 60:6.1f}  {name}")
    chain, last = chain_of(tasks)
    total = sum(task.seconds for task in tasks.values())
    print(f"{now / 60:.0f} minutes on {processors} processors, {total / 60:.0f} processor minutes,"
          f" longest chain {chain / 60:.0f} up to {last}")


if __name__ == "__main__":
    main()
