#!/usr/bin/env python3
"""Proves and builds programs of crates/, with the libraries that they stand on and nothing else.

    ./build.py                         crates/simback
    ./build.py player                  crates/player, which only plays and is proved sooner
    ./build.py simback example_play    these programs
    ./build.py --cpu x86-64-v3         crates/simback, for processors with AVX2 and BMI2

The programs are then crates/NAME/out/NAME. The libraries that are proved are kept in the folders
out/, so a later run proves only those that have changed and the crates above them. If it is
stopped, the libraries that are proved by then are kept. `rt check` takes them too. While this runs,
rt waits for it in these crates; do not run `rt ci` in this checkout meanwhile.

It says when each crate is proved. At one that is not, it prints what the check said, begins no
other and ends with status 1. The last line has the time of the whole run.

The option --cpu changes what a program is compiled for, not what is proved. A program for x86-64-v3
takes 3 to 8 percent fewer instructions, is by time from 6 percent faster to 3 percent slower, and
ends at once with status 127 on a processor that is older. Without the option a program is for
x86-64-v2, which processors have had since 2009.

Libraries that do not stand on each other are proved side by side, first those with the longest
chain of others above them. As in the gate, a crate is proved over the statements of the libraries
below it. The gate does more. It proves and runs the tests, tries the wrong bodies, looks for
contracts that no call can meet, and holds each check to HANDLES. It also builds each program by two
compilers and runs both.

A library over statements fits only those that it was proved over. If you change a library, check a
crate above it, and take the change back, rt says that some built library is unusable: run this
again, and all fit.
"""

import argparse
import concurrent.futures
import fcntl
import functools
import hashlib
import os
import pathlib
import re
import resource
import shutil
import signal
import subprocess
import sys
import time

ROOT = pathlib.Path(__file__).resolve().parent

# What a program can be compiled for, and which flags of /proc/cpuinfo a processor then needs. The
# first is what the toolchain compiles for by itself.
FLAGS_OF = {"x86-64-v2": (), "x86-64-v3": ("avx2", "bmi1", "bmi2", "f16c", "fma", "abm", "movbe")}

# The memory that a job of a check takes at the most, in bytes.
MEMORY_OF_A_JOB = 4 << 30

# The file that tells what a library or a program was made from. What rt built has none.
PROVED = "proved_by_build"

# The system for which a program is linked.
TARGET = ("--target", "x86_64-unknown-linux-gnu")


@functools.cache
def kit():
    """Returns the folder of the toolchain. Ends this program if there is none."""
    if rt := shutil.which("rt"):
        return pathlib.Path(os.path.realpath(rt)).parents[1]
    sys.exit("build.py: there is no rt on the PATH")


@functools.cache
def toolchain():
    """Returns the Python module that rt is made of."""
    sys.path.insert(0, str(kit() / "bin"))
    import rtlib
    # The stamp of a crate asks for those of all crates below it, each of which asks again.
    rtlib.Crate.stamp = functools.cache(rtlib.Crate.stamp)
    return rtlib


def lock(crates):
    """Keeps rt, and another run of this, out of the folders of these crates, by the locks of rt."""
    for crate in crates:
        folder = os.open(ROOT / "crates" / crate, os.O_RDONLY)
        try:
            fcntl.flock(folder, fcntl.LOCK_EX | fcntl.LOCK_NB)
        except BlockingIOError:
            sys.exit(f"build.py: rt, or another build.py, is at work in crates/{crate}")


class Crates:
    """The crates of crates.txt: what each cites, and what its check takes."""

    def __init__(self):
        self.names_of = {}
        for line in (ROOT / "crates.txt").read_text().splitlines():
            head, colon, names = line.partition("#")[0].partition(":")
            if colon:
                self.names_of[head.split()[0]] = names.split()

    def cited(self, crate):
        """Returns the libraries of crates/ that a crate cites itself."""
        return [name for name in self.names_of[crate] if name in self.names_of]

    def cited_of_kit(self, crate):
        """Returns the libraries of the toolchain that a crate cites itself, `std` among them."""
        return ["std", *(name for name in self.names_of[crate] if name not in self.names_of)]

    @functools.cache
    def below(self, crate):
        """Returns the libraries that a crate stands on, each after those that it stands on."""
        found = {}
        for name in self.cited(crate):
            found.update(dict.fromkeys([*self.below(name), name]))
        return list(found)

    def files(self, crate):
        """Returns the files that the proof of a crate reads, in order."""
        folder = ROOT / "crates" / crate
        return sorted(file for part in ("src", "specs", "proofs")
                      for file in folder.glob(f"{part}/**/*") if file.is_file())

    @functools.cache
    def work(self, crate):
        """Returns about how long the check of a crate takes, in lines of code."""
        count = {".rt": 0, ".antt": 0}
        for file in self.files(crate):
            count[file.suffix] = count.get(file.suffix, 0) + file.read_bytes().count(b"\n")
        return count[".rt"] + count[".antt"] // 3

    @functools.cache
    def stamp(self, crate):
        """Returns a sum of all that a library is made from."""
        found = hashlib.sha256((kit() / "KIT-ID").read_bytes())
        found.update(repr(self.names_of[crate]).encode())
        for file in self.files(crate):
            found.update(repr((str(file.relative_to(ROOT)), file.read_bytes())).encode())
        for name in self.cited(crate):
            found.update(self.stamp(name).encode())
        return found.hexdigest()


def folder_of(crate):
    """Returns the folder of a built library. The library in it is NAME.rlib."""
    return ROOT / "crates" / crate / "out" / "rlib"


def is_kept(crate, crates):
    """Returns whether a library was built from what is there now."""
    stamp = folder_of(crate) / PROVED
    return stamp.is_file() and stamp.read_text() == crates.stamp(crate)


def is_as_begun(crate, crates):
    """Returns whether a crate, and all below it, are as they were when this run began."""
    return Crates().stamp(crate) == crates.stamp(crate)


def words_of(crate, root, crates, jobs):
    """Returns the words of a check of a crate, as the toolchain takes them."""
    rlibs, words = kit() / "rlibs", ["--crate-name", crate, f"src/{root}.rt"]
    for name in crates.cited_of_kit(crate):
        words += ["--extern", f"{name}={rlibs}/{name}.rlib"]
    for name in crates.cited(crate):
        words += ["--extern", f"{name}={folder_of(name)}/{name}.rlib"]
    for folder in [rlibs, *map(folder_of, crates.below(crate))]:
        words += ["-L", f"dependency={folder}"]
    words += ["--antt-project", kit() / "rattle/logic/antt-project.json"]
    return [*words, "--logic-built", kit() / "logic_built", "--links", f"{crate}=",
            "--jobs", str(jobs)]


def call(crate, *words):
    """Runs a command of the toolchain in the folder of a crate. Returns its status and output.

    The command ends when this program ends, however that ends.
    """
    ended = subprocess.run([*toolchain().guarded(), *words], cwd=ROOT / "crates" / crate,
                           stdin=subprocess.DEVNULL, stdout=subprocess.PIPE,
                           stderr=subprocess.STDOUT, text=True, errors="replace")
    if ended.returncode == -signal.SIGKILL:
        return 1, f"{ended.stdout}build.py: a check was killed, most likely for want of memory\n"
    return ended.returncode, ended.stdout


def prove_library(crate, crates, stamp_of_rt, jobs):
    """Proves and builds a library. Returns the status and what was said.

    A library that is cut off has another name, so nobody takes it for a whole one. After an edit
    nobody can tell which text was proved, so the library has no stamps then.
    """
    folder, begun = folder_of(crate), is_as_begun(crate, crates)
    for old in [*folder.parent.glob("rlib.*"), folder]:
        shutil.rmtree(old, ignore_errors=True)
    whole = folder.with_name(f"rlib.{os.getpid()}")
    whole.mkdir(parents=True)
    words = words_of(crate, "lib", crates, jobs)
    status, said = call(crate, kit() / "bin/rattle", "build", *words, "--statements",
                        "-o", whole / f"{crate}.rlib")
    if status:
        shutil.rmtree(whole)
        return status, said
    if begun and is_as_begun(crate, crates):
        (whole / PROVED).write_text(crates.stamp(crate))
        (whole / "stamp").write_text(stamp_of_rt)
    whole.rename(folder)
    return status, said


def stamp_of_program(crate, crates, cpu):
    """Returns a sum of a program, of all that it is made from and of what it is compiled for."""
    program = ROOT / "crates" / crate / "out" / crate
    file = program.read_bytes() if program.is_file() else b""
    return f"{crates.stamp(crate)} {cpu} {hashlib.sha256(file).hexdigest()}"


def is_program_kept(crate, crates, cpu):
    """Returns whether a program was built from what is there now, for this processor."""
    kept = ROOT / "crates" / crate / "out" / PROVED
    return kept.is_file() and kept.read_text() == stamp_of_program(crate, crates, cpu)


def prove_program(crate, crates, jobs, cpu):
    """Proves, compiles and links a program. Returns the status and what was said."""
    out, tools = ROOT / "crates" / crate / "out", ("--toolchain", kit() / "toolchain")
    out.mkdir(exist_ok=True)
    kept, whole, begun = out / PROVED, out / f"{crate}.o", is_as_begun(crate, crates)
    words = words_of(crate, "main", crates, jobs)
    words += [f"--cpu={cpu}"] if FLAGS_OF[cpu] else []
    status, said = call(crate, kit() / "bin/rattle", "build", *words, *tools,
                        "--backend", "llvm", "-o", whole)
    if status == 0:
        status, said = call(crate, kit() / "bin/rattle-link", *TARGET, *tools, "-o", out / crate,
                            whole, kit() / "c/libos_c.a", kit() / "c/liblibc_c.a")
    if status == 0 and begun and is_as_begun(crate, crates):
        kept.write_text(stamp_of_program(crate, crates, cpu))
    return status, said


def longest_chains(names, crates):
    """Returns how much work each crate and the longest chain of those above it take."""
    chain = {}
    for crate in reversed(names):
        above = [chain[name] for name in names if crate in crates.cited(name)]
        chain[crate] = crates.work(crate) + max(above, default=0)
    return chain


def lanes_to_use():
    """Returns how many jobs to run at once: one a processor, as many as the free memory holds."""
    found = re.search(r"MemAvailable:\s+(\d+) kB", pathlib.Path("/proc/meminfo").read_text())
    return max(1, min(len(os.sched_getaffinity(0)), int(found[1]) * 1024 // MEMORY_OF_A_JOB))


class Schedule:
    """What is left to prove, and what is being proved with how many jobs."""

    def __init__(self, names, crates, lanes):
        self.crates, self.chain, self.lanes = crates, longest_chains(names, crates), lanes
        self.left = sorted(names, key=lambda it: -self.chain[it])
        self.running = {}

    def jobs_for(self, crate, others, idle):
        """Returns the number of jobs for the check of a crate.

        The longest chain is a share of all the work that is left. If that is more than what one
        processor can do in time, its next crate gets two or three. `others` crates can begin beside
        it, and share with it what would idle otherwise.
        """
        work, unproved = self.crates.work, [*self.left, *self.running]
        rest = sum(map(work, self.left)) + sum(map(work, self.running)) / 2
        is_next = self.chain[crate] == max(self.chain[it] for it in unproved)
        wanted = round(self.lanes * self.chain[crate] / max(rest, 1)) if is_next else 1
        return max(1, min(wanted, 3, self.lanes), min(idle // (1 + others), 4))

    def begin(self):
        """Returns the crates to begin now, each with its number of jobs."""
        unproved, begun = {*self.left, *self.running}, {}
        ready = [it for it in self.left if unproved.isdisjoint(self.crates.below(it))]
        for number, crate in enumerate(ready):
            idle = self.lanes - sum(self.running.values())
            if idle <= 0:
                break
            begun[crate] = self.jobs_for(crate, len(ready) - 1 - number, idle)
            self.left.remove(crate)
            self.running[crate] = begun[crate]
        return begun


def prove_all(names, crates, prove, start):
    """Proves crates side by side. `prove` takes a crate and its jobs. Returns the first status."""
    schedule, failure = Schedule(names, crates, lanes_to_use()), 0
    with concurrent.futures.ThreadPoolExecutor(schedule.lanes) as pool:
        calls = {}
        while calls or (schedule.left and not failure):
            for crate, jobs in (schedule.begin() if not failure else {}).items():
                calls[pool.submit(prove, crate, jobs)] = crate
            done, _ = concurrent.futures.wait(
                calls, return_when=concurrent.futures.FIRST_COMPLETED)
            for it in done:
                crate, (status, said) = calls.pop(it), it.result()
                del schedule.running[crate]
                what = f"{crate} {'NOT PROVED' if status else 'proved'}"
                print(f"{said if status else ''}{(time.monotonic() - start) / 60:5.1f} min  {what}",
                      flush=True)
                failure = failure or status
    return failure


def lacking(cpu):
    """Returns which of the flags that this needs the processor of this machine does not have."""
    needed = FLAGS_OF[cpu]
    text = pathlib.Path("/proc/cpuinfo").read_text() if needed else ""
    flags = next((line.split() for line in text.splitlines() if line.startswith("flags")), [])
    return [flag for flag in needed if flag not in flags]


def request():
    """Returns the words of the command line."""
    parser = argparse.ArgumentParser(
        description="Proves and builds programs of crates/, with the libraries below them.")
    parser.add_argument("programs", nargs="*", default=["simback"], metavar="NAME",
                        help="a program of crates/, by default simback")
    parser.add_argument("--cpu", choices=list(FLAGS_OF), default="x86-64-v2",
                        help="what the programs are compiled for, by default x86-64-v2")
    return parser.parse_args()


def refusal_of(asked, crates):
    """Returns why a request cannot be carried out, or None."""
    if lacks := lacking(asked.cpu):
        return f"this processor has no {', '.join(lacks)}, which {asked.cpu} needs"
    for program in asked.programs:
        main = ROOT / "crates" / program / "src" / "main.rt"
        if not main.is_file() or program not in crates.names_of:
            return f"there is no program crates/{program}"
    return None


def stamps_of_rt(libraries):
    """Returns the stamps by which `rt check` takes libraries for its own."""
    made, folder = {}, ROOT / "crates"
    return {crate: toolchain().Crate(str(folder / crate), str(ROOT), made).stamp()
            for crate in libraries}


def prove_and_build(asked, crates, start):
    """Proves and builds the programs that were asked for. Returns a status: 0 if all is well."""
    libraries = dict.fromkeys(it for program in asked.programs for it in crates.below(program))
    programs = [it for it in dict.fromkeys(asked.programs)
                if not is_program_kept(it, crates, asked.cpu)]
    # The stamps are those of the files as they are now.
    of_rt, left = stamps_of_rt(libraries), [it for it in libraries if not is_kept(it, crates)]

    def prove(crate, jobs):
        if crate in libraries:
            return prove_library(crate, crates, of_rt[crate], jobs)
        return prove_program(crate, crates, jobs, asked.cpu)

    return prove_all([*left, *programs], crates, prove, start)


def main():
    start, asked, crates = time.monotonic(), request(), Crates()
    if why := refusal_of(asked, crates):
        print(f"build.py: {why}", file=sys.stderr)
        sys.exit(2)
    lock(dict.fromkeys(it for name in asked.programs for it in [*crates.below(name), name]))
    # What this started ends with it, so it may end at once.
    toolchain().guarded()
    signal.signal(signal.SIGINT, signal.SIG_DFL)
    status = prove_and_build(asked, crates, start)
    used = resource.getrusage(resource.RUSAGE_CHILDREN)
    print(f"{(time.monotonic() - start) / 60:.0f} minutes on the clock, "
          f"{(used.ru_utime + used.ru_stime) / 60:.0f} processor minutes")
    sys.exit(1 if status else 0)


if __name__ == "__main__":
    main()
