"""Searches, sweeps and planned faults, and what `shrink` may leave (docs/SEARCH.md).

Each job returns what the program writes to standard output, and the status.
"""

from typing import NamedTuple

from . import conditions, script
from .world import STEP, World

PLANNING = 34
MOST_COUNT = 2**32
MOST_SEED = 2**64 - 1
MOST_EVENTS = 65_536
MOST_PLANNED = 65_534
MOST_SPACING = 65_536
MOST_WOUNDS = 2
BAD_CONDITION = ("bad condition\n", 2)
BAD_RANGE = ("bad range\n", 2)
AT_FAULT = ("", 2)
HEALINGS = {"crash": "bounce", "partition": "repair", "hold": "release",
            "cutoneway": "repaironeway"}


class Plan(NamedTuple):
    """The events of a numbered run: the spacing of faults (or None), and numbers of events."""

    faults: int | None
    events: int
    quiet: int

    def is_plain(self):
        """Returns whether the run has only steps."""
        return self.faults is None and self.quiet == 0


class Sweep(NamedTuple):
    """The numbers and options of a sweep."""

    plan: Plan
    first: int
    count: int
    condition: str
    script: bool = False
    strict: bool = False
    at_end: bool = False
    json: bool = False


def planned_fault(setup, number):
    """Returns the fault that a number plans: the name, and one or two hosts."""
    kind, x = number % 6, number // 6
    server = x % setup.servers
    source = x % setup.hosts
    target = (source + 1 + x // setup.hosts % (setup.hosts - 1)) % setup.hosts
    if kind == 1:
        return ("crash", server)
    if kind in (2, 3, 4):
        return (("partition", "hold", "cutoneway")[kind - 2], source, target)
    return ("bounce", server)


def planned(scenario, plan):
    """Returns the planned events of a scenario that has the seed of the run."""
    events, wounds = [], []
    start = World(scenario)
    for place in range(plan.events):
        word = start.word(PLANNING, place)
        if plan.faults is None or word % plan.faults != 0:
            events.append(STEP)
            continue
        number = word // plan.faults
        if len(wounds) == MOST_WOUNDS or (wounds and number % 2 == 1):
            events.append(wounds.pop(number // 2 % len(wounds)))
            continue
        fault = planned_fault(scenario.setup, number // 2)
        events.append(fault)
        if fault[0] in HEALINGS:
            wounds.append((HEALINGS[fault[0]], *fault[1:]))
    if plan.quiet:
        events += wounds + [STEP] * plan.quiet
    return events


def worlds(scenario, events):
    """Yields the world at each place of the run of these events, with the event that led there.

    An event that cannot happen is left out.
    """
    world = World(scenario)
    yield world, None
    for event in events:
        if world.can(event):
            world = world.after(event)
            yield world, event


def failing(scenario, events, condition, at_end=False):
    """Returns the first place of a run (or the last, if it alone counts) that fails, or None."""
    place, world = 0, None
    for place, (world, _) in enumerate(worlds(scenario, events)):
        if not at_end and not conditions.holds(condition, world):
            return place
    if at_end and not conditions.holds(condition, world):
        return place
    return None


def resolved(scenario, alternatives):
    """Returns the condition with numbers for names, or None if one of them does not exist."""
    condition = conditions.resolved(alternatives, scenario)
    return None if conditions.refusal(condition) else condition


def search(scenario, lines, low, high, text, strict=False):
    """Returns the first place from `low` to `high` of the script's run that fails."""
    alternatives = conditions.read_text(text)
    if alternatives is None:
        return BAD_CONDITION
    branch, is_at_fault = script.kept(scenario, lines)
    if strict and is_at_fault:
        return AT_FAULT
    if low > high or high > len(branch.events):
        return BAD_RANGE
    condition = resolved(scenario, alternatives)
    if condition is None:
        return BAD_CONDITION
    for place in range(low, high + 1):
        if not conditions.holds(condition, branch.worlds[place]):
            return f"first {place}\n", 0
    return "none\n", 0


def is_in_range(asked, given):
    """Returns whether the numbers of a sweep are within their limits."""
    plan = asked.plan
    if not 1 <= asked.count <= MOST_COUNT or asked.first + asked.count - 1 > MOST_SEED:
        return False
    if plan.events > MOST_EVENTS:
        return False
    if plan.faults is not None and not 2 <= plan.faults <= MOST_SPACING:
        return False
    is_plain = plan.is_plain() and not asked.script
    return is_plain or len(given) + plan.events + plan.quiet <= MOST_PLANNED


def sweep(scenario, lines, asked):
    """Returns the first seed whose run fails, and where."""
    alternatives = conditions.read_text(asked.condition)
    if alternatives is None:
        return BAD_CONDITION
    given = []
    if asked.script:
        branch, is_at_fault = script.kept(scenario, lines)
        given = branch.events
        if asked.strict and is_at_fault:
            return AT_FAULT
    if not is_in_range(asked, given):
        return BAD_RANGE
    condition = resolved(scenario, alternatives)
    if condition is None:
        return BAD_CONDITION
    for seed in range(asked.first, asked.first + asked.count):
        numbered = scenario.numbered(seed)
        events = given + planned(numbered, asked.plan)
        place = failing(numbered, events, condition, asked.at_end)
        if place is not None:
            return found(asked, seed, place), 0
    return found(asked, None, None), 0


def found(asked, seed, place):
    """Returns the line of a sweep's answer."""
    if asked.json:
        seed, place = ("null" if number is None else number for number in (seed, place))
        return (f'{{"count":{asked.count},"events":{asked.plan.events},"first":{asked.first},'
                f'"place":{place},"seed":{seed}}}\n')
    return "none\n" if seed is None else f"seed {seed} place {place}\n"


def run_text(scenario, text, events):
    """Returns a run as an input for a play: the scenario, `---`, and a line for each event.

    `text` is that of the scenario, with a line feed at its end.
    """
    lines = [" ".join([event[0], *(scenario.names[host] for host in event[1:])])
             for event in events]
    return text + "---\n" + "".join(line + "\n" for line in lines)


def numbered_script(scenario, plan, number):
    """Returns the run of a numbered seed as an input for a play."""
    if not is_in_range(Sweep(plan, number, 1, ""), []):
        return BAD_RANGE
    scenario = scenario.numbered(number)
    run = [event for _, event in worlds(scenario, planned(scenario, plan)) if event is not None]
    return run_text(scenario, scenario.text(), run), 0


class Shrink:
    """What `shrink` may write for a script and a condition.

    `answer` is the only right output and status; or None, if `is_right` has to judge the output.
    """

    def __init__(self, scenario, given, lines, text):
        """Plays the lines, and finds the run to be shrunk. `given` is the text of the scenario."""
        self.scenario, self.given, self.answer = scenario, given, None
        self.whole, self.condition = [], None
        alternatives = conditions.read_text(text)
        if alternatives is None:
            self.answer = BAD_CONDITION
            return
        branch, is_at_fault = script.kept(scenario, lines)
        if is_at_fault:
            self.answer = AT_FAULT
            return
        self.condition = resolved(scenario, alternatives)
        if self.condition is None:
            self.answer = BAD_CONDITION
            return
        place = failing(scenario, branch.events, self.condition)
        if place is None:
            self.answer = ("none\n", 0)
            return
        self.whole = branch.events[:place]
        if all(event[0] not in (*script.FAULTS, "advance") for event in self.whole):
            self.answer = (run_text(scenario, given, self.whole), 0)

    def is_right(self, output, status):
        """Returns whether an output (a text) is right."""
        if self.answer is not None:
            return (output, status) == self.answer
        if (output, status) == ("no input\n", 2):
            return any(event[0] == "advance" for event in self.whole)
        head = self.given + "---\n"
        if status != 0 or not output.startswith(head):
            return False
        book = script.Book(self.scenario)
        for line in output[len(head):].encode().split(b"\n")[:-1]:
            if book.answer(line)[1]:
                return False
        left = book.branches[0].events
        return run_text(self.scenario, self.given, left) == output and self._is_shrunk(left)

    def _is_shrunk(self, left):
        """Returns whether a run first fails at its end, and needs each of its faults."""
        if failing(self.scenario, left, self.condition) != len(left):
            return False
        return any(self._is_minimal(kept) for kept in self._choices(left))

    def _choices(self, left):
        """Returns the ways to drop faults of the whole run so that its rest begins with `left`."""
        along = [world for world, _ in worlds(self.scenario, left)]
        choices = {((), 0)}
        for event in self.whole:
            choices = {choice for kept, place in choices
                       for choice in self._next(event, kept, place, left, along)}
        return [kept for kept, place in choices if place == len(left)]

    @staticmethod
    def _next(event, kept, place, left, along):
        """Yields how a choice goes on with an event. A fault may be dropped, a step may not."""
        is_next = place < len(left) and left[place] == event
        if event[0] in script.FAULTS:
            yield kept, place
            if is_next:
                yield (*kept, event), place + 1
        elif is_next:
            yield (*kept, event), place + 1
        elif place == len(left) or not along[place].can(event):
            yield (*kept, event), place

    def _is_minimal(self, kept):
        """Returns whether the condition fails nowhere if any one of the faults is dropped."""
        return all(failing(self.scenario, kept[:i] + kept[i + 1:], self.condition) is None
                   for i, event in enumerate(kept) if event[0] in script.FAULTS)
