"""The script of a play: how its lines are read, carried out and answered (docs/SCRIPT.md)."""

import json
import re

from . import conditions
from .scenario import NAME
from .world import STEP, World

MOST_LINE = 256
MOST_EVENTS = 65_536
MOST_TICK = 1024
MOST_BRANCHES = 64
MOST_WATCHES = 8
MOST_ENTRIES = 65_536

NUMBER = re.compile(r"[0-9]{1,9}")

# The words after each command: N is a number, H a host's name, P a probe's name.
COMMANDS = {
    "step": "", "tick": "", "run": "N", "crash": "H", "bounce": "H", "hold": "HH",
    "release": "HH", "partition": "HH", "repair": "HH", "cutoneway": "HH", "repaironeway": "HH",
    "back": "N", "forward": "N", "goto": "N", "rewind": "N", "cut": "", "branch": "N",
    "unwatch": "N", "look": "", "look next": "", "look host": "H", "look link": "HH",
    "look probe": "HP", "trace": "",
}
FAULTS = ("crash", "bounce", "hold", "release", "partition", "repair", "cutoneway",
          "repaironeway")
REFUSALS = {1: "UnknownBranch", 2: "UnknownHost", 3: "SameHost", 4: "NotAtEnd", 5: "TooFar",
            6: "EventsFull", 7: "Idle", 8: "BranchesFull", 9: "WatchesFull", 10: "UnknownWatch",
            11: "BadCondition"}


def read_line(line):
    """Returns (branch, command, values) of a line (bytes), or None if it is a bad line."""
    if len(line) > MOST_LINE:
        return None
    words = [word for word in line.decode("latin-1").split(" ") if word]
    branch = 0
    if words and words[0].startswith("@"):
        if not NUMBER.fullmatch(words[0][1:]):
            return None
        branch = int(words.pop(0)[1:])
    if not words:
        return None
    if words[0] == "watch":
        alternatives = conditions.read(words[1:])
        return None if alternatives is None else (branch, "watch", [alternatives])
    command = " ".join(words[:2]) if words[0] == "look" else words[0]
    values = words[len(command.split(" ")):]
    form = COMMANDS.get(command)
    if form is None or len(form) != len(values):
        return None
    pattern = {"N": NUMBER, "H": NAME, "P": NAME}
    if not all(pattern[part].fullmatch(word) for part, word in zip(form, values)):
        return None
    return branch, command, [int(w) if p == "N" else w for p, w in zip(form, values)]


class Refused(Exception):
    """A command is refused, for the reason with this number."""


class Branch:
    """A run with a place: its kept events, the world at each place, and watches by number."""

    def __init__(self, worlds, events):
        """Begins at the end of the events."""
        self.worlds, self.events, self.watches = worlds, events, {}
        self.place = len(events)

    def world(self):
        """Returns the world at the place."""
        return self.worlds[self.place]

    def is_full(self):
        """Returns whether no more events can be kept."""
        return len(self.events) >= MOST_EVENTS

    def add(self, event):
        """Adds an event at the end, and moves the place behind it."""
        self.worlds.append(self.world().after(event))
        self.events.append(event)
        self.place += 1

    def failing(self):
        """Returns the lowest number of a watch that fails at the place, or None."""
        world = self.world()
        for number in sorted(self.watches):
            if not conditions.holds(self.watches[number], world):
                return number
        return None


class Book:
    """The branches of a play, and how many commands it has taken."""

    def __init__(self, scenario):
        """Begins with branch 0, at the start of its run."""
        self.scenario = scenario
        self.branches = [Branch([World(scenario)], [])]
        self.entries = 0

    def answer(self, line):
        """Returns the answer to a line (bytes), and whether the line is at fault."""
        command = read_line(line)
        if command is None:
            return "bad line", True
        if self.entries == MOST_ENTRIES:
            return "not taken HistoryFull", True
        self.entries += 1
        try:
            return self._carry_out(*command), False
        except Refused as refused:
            number = refused.args[0]
            return f"refused {number} {REFUSALS[number]}", True

    def _carry_out(self, number, command, values):
        """Returns the answer to a command, or raises why it is refused."""
        if number >= len(self.branches):
            raise Refused(1)
        branch = self.branches[number]
        if command in FAULTS:
            return self._fault(branch, command, values)
        if command == "trace":
            events = [self._words(event) for event in branch.events]
            trace = {"branch": number, "events": events}
            return json.dumps(trace, separators=(",", ":"))
        return getattr(self, "_" + command.replace(" ", "_"))(branch, *values)

    def _words(self, event):
        """Returns the words of an event in a trace."""
        if event[0] in FAULTS:
            return " ".join([event[0], *(self.scenario.names[host] for host in event[1:])])
        return " ".join(str(word) for word in event)

    def _hosts(self, *names):
        """Returns the numbers of hosts, which must exist and differ."""
        if not all(name in self.scenario.names for name in names):
            raise Refused(2)
        if len(set(names)) < len(names):
            raise Refused(3)
        return [self.scenario.names.index(name) for name in names]

    @staticmethod
    def _at(branch, why=""):
        """Returns the answer that tells the place, the clock and a reason."""
        return f"place {branch.place} clock {branch.world().clock}{why}"

    @staticmethod
    def _check_end(branch):
        """Refuses a branch at which no event can be added."""
        if branch.place < len(branch.events):
            raise Refused(4)
        if branch.is_full():
            raise Refused(6)

    def _fault(self, branch, command, names):
        """Adds a fault."""
        hosts = self._hosts(*names)
        self._check_end(branch)
        branch.add((command, *hosts))
        return self._at(branch)

    def _step(self, branch):
        """Adds a step."""
        self._check_end(branch)
        if not branch.world().pending:
            raise Refused(7)
        branch.add(STEP)
        return self._at(branch)

    def _tick(self, branch):
        """Adds the steps of a tick and then, always, an advance to its end."""
        self._check_end(branch)
        end = branch.world().clock + self.scenario.tick
        added = 0
        event = None
        while event is None or event == STEP:
            if branch.is_full():
                return self._at(branch, " full")
            if added == MOST_TICK:
                return self._at(branch, " long")
            first = branch.world().first()
            is_over = first is None or first.due > end
            event = ("advance", end) if is_over else STEP
            branch.add(event)
            added += 1
        return self._at(branch, " all done" if branch.world().is_all_done() else "")

    def _run(self, branch, most):
        """Adds steps until there is a reason to stop."""
        self._check_end(branch)
        if not branch.world().pending:
            raise Refused(7)
        added = 0
        while added < most:
            branch.add(STEP)
            added += 1
            failing = branch.failing()
            if failing is not None:
                return self._at(branch, f" watch {failing}")
            if branch.world().is_all_done():
                return self._at(branch, " all done")
            if added < most and branch.is_full():
                return self._at(branch, " full")
            if added < most and not branch.world().pending:
                return self._at(branch, " idle")
        return self._at(branch)

    def _goto(self, branch, place):
        """Goes to a place."""
        if not 0 <= place <= len(branch.events):
            raise Refused(5)
        branch.place = place
        return self._at(branch)

    def _back(self, branch, count):
        """Goes back by a number of events."""
        return self._goto(branch, branch.place - count)

    def _forward(self, branch, count):
        """Goes forward by a number of events."""
        return self._goto(branch, branch.place + count)

    def _rewind(self, branch, most):
        """Goes back one event at a time, until a watch fails."""
        if most > branch.place:
            raise Refused(5)
        for _ in range(most):
            branch.place -= 1
            failing = branch.failing()
            if failing is not None:
                return self._at(branch, f" watch {failing}")
        return self._at(branch)

    def _cut(self, branch):
        """Drops the events past the place."""
        del branch.events[branch.place:], branch.worlds[branch.place + 1:]
        return self._at(branch)

    def _branch(self, branch, place):
        """Makes a branch of the first events."""
        if place > len(branch.events):
            raise Refused(5)
        if len(self.branches) == MOST_BRANCHES:
            raise Refused(8)
        self.branches.append(Branch(branch.worlds[:place + 1], branch.events[:place]))
        return f"made {len(self.branches) - 1}"

    def _watch(self, branch, alternatives):
        """Keeps a condition under the lowest free number."""
        condition = conditions.resolved(alternatives, self.scenario)
        reasons = [conditions.refusal(condition)]
        if len(branch.watches) == MOST_WATCHES:
            reasons.append(9)
        reasons = [reason for reason in reasons if reason is not None]
        if reasons:
            raise Refused(min(reasons))
        number = min(set(range(MOST_WATCHES)) - set(branch.watches))
        branch.watches[number] = condition
        return f"made {number}"

    def _unwatch(self, branch, number):
        """Drops a condition."""
        if number not in branch.watches:
            raise Refused(10)
        del branch.watches[number]
        return f"dropped {number}"

    def _look(self, branch):
        """Shows the numbers of the world."""
        world = branch.world()
        return self._at(branch, f" serial {world.serial} net {world.net} torn {world.torn}"
                                f" pending {len(world.pending)} held {world.held()}")

    def _look_next(self, branch):
        """Shows the first pending occurrence."""
        first = branch.world().first()
        if first is None:
            return "none"
        kind = "sync" if first.given.kind == "synced" else first.given.kind
        name = self.scenario.names[first.host]
        return f"due {first.due} serial {first.serial} host {name} {kind}"

    def _look_host(self, branch, name):
        """Shows a host."""
        host = branch.world().hosts[self._hosts(name)[0]]
        state = "down" if host.node is None else "up"
        done = "yes" if host.done else "no"
        return (f"{name} {state} done {done} draws {host.draws} stable {len(host.stable)}"
                f" unsynced {len(host.unsynced)}")

    def _look_link(self, branch, source, target):
        """Shows a direction."""
        state, messages = branch.world().link(*self._hosts(source, target))
        return f"{source} {target} {state} messages {len(messages)}"

    def _look_probe(self, branch, name, probe):
        """Shows what a probe shows at a host."""
        host = self._hosts(name)[0]
        probes = self.scenario.protocol.PROBES
        if probe not in probes:
            raise Refused(11)
        shown = branch.world().shown(host, probes.index(probe))
        return f"{name} {probe} {'down' if shown is None else shown}"


def is_silent(line):
    """Returns whether a line has no answer."""
    return not line or line.startswith(b"#")


def play(scenario, lines, strict=False):
    """Returns the answers to the lines as a text, and the status."""
    book = Book(scenario)
    answers = []
    for line in lines:
        if is_silent(line):
            continue
        answer, is_at_fault = book.answer(line)
        answers.append(answer + "\n")
        if strict and is_at_fault:
            return "".join(answers), 2
    return "".join(answers), 0


def kept(scenario, lines):
    """Returns branch 0 after all lines, and whether a line is at fault."""
    book = Book(scenario)
    faults = [book.answer(line)[1] for line in lines if not is_silent(line)]
    return book.branches[0], any(faults)
