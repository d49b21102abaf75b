"""Random cases: each is made from its number alone.

A case is the words of a command line and the bytes of the input. Its kinds are those of KINDS.
"""

import random

from . import conditions, hunts, lines, log, scenario, script, settings
from .world import STEP

KINDS = {
    "play": 30, "scenario": 10, "search": 10, "sweep": 12, "limits": 1, "strict": 6,
    "planned": 14, "log": 8, "script": 6, "shrink": 8, "mistake": 3,
}
MISTAKES = (["search", "-1", "12", "up s0"], ["search", "0", "up s0"],
            ["sweep", "x", "1", "1", "a"], ["sweep", "--workers", "0", "0", "1", "1", "up s0"],
            ["jump"], ["play", "--loud"], ["sweep", "--workers", "17", "0", "1", "1", "up s0"],
            ["shrink"], ["script", "1"],
            ["sweep", "18446744073709551616", "1", "1", "up s0"], ["log", "--from", "x"])

BAD_CONDITIONS = ("", " ", "up", "up nobody", "up S0", "agree next", "agree frst unless 0",
                  "a.next<=1", "up a or", "or up a", "up a up b", "a.next <= 1 and and up a",
                  "a.next <= 12345678901234567890", "not agree next unless 0", "a.next = b",
                  "count next > 1 = a.next", "(up a)", "up a\tand up b", "any next", "not", "a.b.c")
JOBS = (["play"], ["play", "--strict"], ["search", "0", "0", "up"], ["sweep", "0", "0", "0", "up"],
        ["log"], ["script", "0", "70000"], ["shrink", "up"])


class Case:
    """A case: its kind, words and input; and what the program has to write for it."""

    def __init__(self, number):
        """Chooses the kind of the case with this number."""
        self.number = number
        self.dice = random.Random(number)
        self.kind = self.dice.choices(list(KINDS), list(KINDS.values()))[0]
        self.words, self.input, self._expected = [], b"", None

    def make(self):
        """Makes the case. It is separate, so that cases of other kinds can be left out."""
        getattr(self, "_make_" + self.kind)()
        return self

    def expected(self):
        """Returns the output (a text) and the status, or None if several outputs are right."""
        if isinstance(self._expected, hunts.Shrink):
            return self._expected.answer
        return self._expected

    def is_right(self, output, status):
        """Returns whether an output (bytes) and a status are right."""
        expected = self.expected()
        if expected is None:
            return self._expected.is_right(output.decode("latin-1"), status)
        return (output, status) == (expected[0].encode(), expected[1])

    def _setting(self, plain=False):
        """Makes a scenario and what asks about it; begins the input with its text."""
        setting = settings.Setting(self.dice, plain)
        text = setting.text()
        self.scenario = scenario.read(text.encode())
        self.asker = lines.Asker(self.dice, setting.names, setting.servers,
                                 self.scenario.protocol.PROBES)
        self.input = text.encode() + self.dice.choice((b"---\n", b"---\n", b"---\r\n"))

    def _script(self):
        """Adds random lines to the input, and returns them as they are read."""
        is_deep = self.dice.randrange(2) == 0
        count = 1 + self.dice.randrange(120 if is_deep else 60)
        made = [self.asker.faulty_run() if is_deep and self.dice.randrange(6)
                else self.asker.line() for _ in range(count)]
        made += self.asker.all_looks() if is_deep else []
        end = self.dice.choice((b"\n", b"\n", b""))
        return self._add(b"\n".join(made) + end)

    def _add(self, data):
        """Adds to the input, and returns the lines of its script."""
        self.input += data
        return scenario.split(self.input)[1]

    def _sound_script(self):
        """Adds random lines that are not at fault, and returns them."""
        book = script.Book(self.scenario)
        made = []
        for _ in range(1 + self.dice.randrange(50)):
            line = self.asker.faulty_run() if self.dice.randrange(3) else self.asker.line()
            if script.is_silent(line) or line.endswith(b"\r"):
                continue
            if not book.answer(line)[1]:
                made.append(line)
        return self._add(b"".join(line + b"\n" for line in made))

    def _condition(self):
        """Returns a condition, mostly one that holds at the start and fails later."""
        steps = list(hunts.worlds(self.scenario, [STEP] * 60))
        some = [world for world, _ in steps[::6]]
        text = self.asker.condition()
        if self.dice.randrange(16) == 0:
            return self.dice.choice(BAD_CONDITIONS)
        for _ in range(self.dice.choice((0, 10, 10, 10))):
            condition = hunts.resolved(self.scenario, conditions.read_text(text) or [])
            if condition and conditions.holds(condition, some[0]):
                if not all(conditions.holds(condition, world) for world in some):
                    break
            text = self.asker.condition()
        return text

    def _make_play(self):
        """A play of a random script."""
        self._setting()
        self.words = ["play"]
        self._expected = script.play(self.scenario, self._script())

    def _make_strict(self):
        """A strict play or search, half of the time of a script without a line at fault."""
        self._setting()
        made = self._sound_script() if self.dice.randrange(2) else self._script()
        if self.dice.randrange(3) == 0:
            self._ask_search(made, strict=True)
        else:
            self.words = ["play", "--strict"]
            self._expected = script.play(self.scenario, made, strict=True)

    def _make_scenario(self):
        """A play of a text that is mostly no scenario."""
        self.input = settings.spoilt(self.dice, settings.Setting(self.dice))
        self.input += self.dice.choice((b"---\nstep\n", b"---\nlook\n", b"", b"\n---\nstep"))
        self.words = ["play"]
        text, made = scenario.split(self.input)
        try:
            self._expected = script.play(scenario.read(text), made)
        except scenario.Fault as fault:
            self._expected = (f"scenario fault {fault.number} {fault.key}\n", 1)

    def _workers(self):
        """Returns the option for the number of workers, or none."""
        count = self.dice.randint(1, 4)
        return self.dice.choice(([], ["--workers", str(count)]))

    def _make_search(self):
        """A search in the run of a random script."""
        self._setting()
        self._ask_search(self._script())

    def _ask_search(self, made, strict=False):
        """Sets the words of a search, and its answer."""
        most = len(script.kept(self.scenario, made)[0].events) + 2
        low, high = self.dice.randrange(most) // 2, self.dice.randrange(most)
        if self.dice.randrange(3):
            low, high = min(low, high), max(0, most - 2)
        text = self._condition()
        options = [*self._workers(), *(["--strict"] if strict else [])]
        self.words = ["search", *options, str(low), str(high), text]
        self._expected = hunts.search(self.scenario, made, low, high, text, strict)

    def _seeds(self):
        """Returns the first seed and the number of seeds, seldom out of range."""
        dice = self.dice
        if dice.randrange(12) == 0:
            return dice.choice(((0, 0), (0, 2**32 + 1), (2**64 - 1, 1), (2**64 - 1, 2),
                                (2**64 - 5, 4), (2**63, 3)))
        count = dice.randrange(100) if dice.randrange(10) == 0 else dice.randint(1, 8)
        return dice.randrange(1000), max(count, 1)

    def _make_sweep(self):
        """A sweep without options."""
        self._setting()
        self._script()
        events = self.dice.choice((self.dice.randrange(120), self.dice.randrange(60), 0))
        if self.dice.randrange(20) == 0:
            events = 65_537
        asked = hunts.Sweep(hunts.Plan(None, events, 0), *self._seeds(), self._condition())
        self._ask_sweep(asked)

    def _ask_sweep(self, asked):
        """Sets the words of a sweep, and its answer."""
        plan = asked.plan
        options = [*self._workers()]
        for name in ("script", "strict", "json"):
            options += [f"--{name}"] if getattr(asked, name) else []
        options += ["--at-end"] if asked.at_end else []
        options += ["--progress"] if self.kind == "planned" and self.dice.randrange(9) == 0 else []
        options += self._planned_options(plan)
        numbers = [str(asked.first), str(asked.count), str(plan.events)]
        self.words = ["sweep", *options, *numbers, asked.condition]
        made = scenario.split(self.input)[1]
        self._expected = hunts.sweep(self.scenario, made, asked)

    @staticmethod
    def _planned_options(plan):
        """Returns the options of a plan."""
        options = [] if plan.faults is None else ["--faults", str(plan.faults)]
        return options + (["--quiet", str(plan.quiet)] if plan.quiet else [])

    def _plan(self):
        """Returns a plan of few events, mostly with a fault in every few of them."""
        dice = self.dice
        faults = None if dice.randrange(4) == 0 else dice.randint(2, 12)
        quiet = dice.choice((0, dice.randrange(40)))
        plan = hunts.Plan(faults, dice.randrange(100), quiet)
        if dice.randrange(20) == 0:
            plan = dice.choice((plan._replace(faults=1), plan._replace(faults=65_537),
                                plan._replace(faults=65_536), plan._replace(faults=0),
                                hunts.Plan(8, 65_530, 5), hunts.Plan(8, 65_536, 1)))
        return plan

    def _make_planned(self):
        """A sweep with options."""
        self._setting()
        if self.dice.randrange(2):
            self._script()
        else:
            self._sound_script()
        dice = self.dice
        asked = hunts.Sweep(self._plan(), *self._seeds(), self._condition(),
                            script=dice.randrange(3) == 0, strict=dice.randrange(6) == 0,
                            at_end=dice.randrange(4) == 0, json=dice.randrange(4) == 0)
        self._ask_sweep(asked)

    def _make_log(self):
        """A log, mostly of a script without a line at fault."""
        self._setting()
        made = self._sound_script() if self.dice.randrange(10) else self._script()
        first = last = None
        if self.dice.randrange(4) == 0:
            first = self.dice.randrange(30)
        if self.dice.randrange(4) == 0:
            last = (first or 0) + self.dice.randrange(20)
        self.words = ["log"]
        self.words += [] if first is None else ["--from", str(first)]
        self.words += [] if last is None else ["--to", str(last)]
        self._expected = log.log(self.scenario, made, first, last)

    def _make_script(self):
        """The script of a numbered seed."""
        self._setting(plain=True)
        self._script()
        plan, (number, _) = self._plan(), self._seeds()
        self.words = ["script", *self._planned_options(plan), str(number), str(plan.events)]
        self._expected = hunts.numbered_script(self.scenario, plan, number)

    def _make_shrink(self):
        """A shrunk run: of a numbered seed, or of a random script."""
        self._setting(plain=True)
        if self.dice.randrange(12) == 0:
            made = self._script()
        elif self.dice.randrange(3) == 0:
            made = self._sound_script()
        else:
            plan = hunts.Plan(self.dice.randint(2, 10), 20 + self.dice.randrange(60), 0)
            text, _ = hunts.numbered_script(self.scenario, plan, self.dice.randrange(1000))
            self.input = text.encode()
            read, made = scenario.split(self.input)
            self.scenario = scenario.read(read)
        for _ in range(6):
            text = self._condition()
            given = scenario.split(self.input)[0].decode()
            self._expected = hunts.Shrink(self.scenario, given, made, text)
            if len(self._expected.whole) > 3:
                break
        self.words = ["shrink", text]

    def _make_mistake(self):
        """A command line that is wrong, or a job over a text that is no scenario."""
        if self.dice.randrange(2):
            self._setting()
            self.words, self._expected = self.dice.choice(MISTAKES), ("", 2)
            return
        self.words = self.dice.choice(JOBS)
        while self._expected is None:
            self.input = settings.spoilt(self.dice, settings.Setting(self.dice))
            try:
                scenario.read(self.input)
            except scenario.Fault as fault:
                self._expected = (f"scenario fault {fault.number} {fault.key}\n", 1)

    def _make_limits(self):
        """A play that meets a limit."""
        self._setting()
        self.words = ["play"]
        make = self.dice.choice((limit_of_history, limit_of_events, limit_of_branches,
                                 limit_of_messages, limit_of_tick))
        table, made = make(self.dice)
        setting = {**settings.Setting(self.dice, plain=True).table, "format": 1, **table}
        for key in ("disk_latency", "link"):
            setting.pop(key, None)
        text = settings.written(setting, list(setting), settings.number)
        self.input = text.encode() + b"---\n" + "".join(line + "\n" for line in made).encode()
        self._expected = script.play(scenario.read(text.encode()), scenario.split(self.input)[1])


PAIR = {"protocol": "primary_backup", "servers": ["a", "b"], "client": [{"name": "w", "ops": 9}],
        "latency_min": 1, "latency_max": 3, "loss": 0}


def limit_of_history(dice):
    """Returns a scenario and lines that fill the history."""
    many = ["look next"] * 65_533
    return PAIR, ["step", "crash z", *many, "jump", "step", "look", "trace"]


def limit_of_events(dice):
    """Returns a scenario and lines that fill a branch with events."""
    table = {**PAIR, "tick": dice.choice((200, 60_000))}
    back = dice.randrange(4)
    return table, ["cutoneway w a", "run 70000", "look", "step", "tick", "run 0", "crash a",
                   "back 1", "step", "crash a", "forward 1", f"back {back}", "cut", "tick",
                   "look", "tick", "branch 65536", "@1 bounce b", "@1 goto 65535", "@1 look",
                   "@1 cut", "@1 bounce b", "@1 bounce b", "forward 1", "look next"]


def limit_of_branches(dice):
    """Returns a scenario and lines that make the most branches and watches."""
    branches = [f"branch {dice.randrange(5)}" for _ in range(66)]
    watches = [f"@{dice.randrange(70)} watch w.next <= {i}" for i in range(9)]
    watches += [f"@63 watch w.next <= {i}" for i in range(9)]
    return PAIR, ["run 5", *branches, *watches, "@63 watch w.nothing <= 1", "@63 watch up nobody",
                  "@63 unwatch 5", "@63 watch up w", "@63 unwatch 9", "@63 run 50", "@64 look"]


def limit_of_messages(dice):
    """Returns a scenario and lines by which a link holds the most messages."""
    return {**PAIR, "tick": 1}, [
        "hold w a", f"run {4094 + dice.randrange(8)}", "look", "tick", "look link w a", "run 6",
        "look", "tick", "look", "branch 4000", "release w a", "look", "run 20", "look",
        "partition w a", "look", "@1 partition a w", "@1 look", "@1 run 5"]


def limit_of_tick(dice):
    """Returns a scenario and lines with more steps in a tick than it takes."""
    table = {**PAIR, "protocol": dice.choice(("echo", "abd")), "latency_min": 0, "latency_max": 0,
             "client": [{"name": "w", "ops": 1000}]}
    return table, ["tick", "look", "tick", "tick", "look", "tick", "look", "run 3000", "tick"]
