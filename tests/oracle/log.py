"""The log of a run in words (docs/LOG.md)."""

from bisect import bisect_right

from . import script
from .node import shown


class Log:
    """The log of a run, from its events and the worlds at its places."""

    def __init__(self, scenario, events, worlds):
        """Finds the place at which each occurrence happens."""
        self.names, self.events, self.worlds = scenario.names, events, worlds
        self.serials = [world.serial for world in worlds]
        self.arrivals = {}
        for place, world in enumerate(worlds):
            for row in world.told:
                if row[0] == "happens":
                    self.arrivals[row[1].serial] = place

    def line(self, place):
        """Returns the line of the event that leads to a place."""
        event, world = self.events[place - 1], self.worlds[place]
        if event[0] == "step":
            what = self._occurrence(world.told[0][1])
            rows = world.told[2:]
            parts = [self._effect(*row) for row in rows]
            if len(world.told) == 1:
                parts = ["it is stopped, and the message is dropped"]
        elif event[0] == "advance":
            what, parts = "the clock goes on", []
        else:
            what = " ".join([event[0], *(self.names[host] for host in event[1:])])
            parts = [self._consequence(*row) for row in world.told]
        words = what + (": " if parts else "") + "; ".join(parts)
        return f"{place} clock {world.clock}: {words}\n"

    def _arrives(self, serial):
        """Returns in brackets the place at which a message arrives, if it does."""
        return f" (arrives at {self.arrivals[serial]})" if serial in self.arrivals else ""

    def _cause(self, serial, word):
        """Returns in brackets the place of the event that queued an occurrence."""
        place = bisect_right(self.serials, serial)
        if word == "sent" and self.events[place - 1][0] != "step":
            word = "let go"
        return f" ({word} at {place})" if place else ""

    def _occurrence(self, one):
        """Returns the words of what happens in a step."""
        name, given = self.names[one.host], one.given
        if given.kind == "start":
            return f"{name} starts"
        if given.kind == "timer":
            return f"{name}'s timer ends" + self._cause(one.serial, "set")
        if given.kind == "synced":
            return f"{name}'s sync of {one.count} is done" + self._cause(one.serial, "asked")
        sender = self.names[given.sender]
        return f"{name} gets {shown(given.msg)} from {sender}" + self._cause(one.serial, "sent")

    def _effect(self, kind, *values):
        """Returns the words of an effect and of what came of it."""
        if kind == "timer":
            return f"timer {values[1]}"
        if kind == "sync":
            return f"asks for a sync, due {values[1]}"
        if kind == "write":
            return f"writes {values[1]} bytes at {values[0]}"
        if kind == "nowrite":
            return f"skips a write of {values[1]} bytes at {values[0]}"
        if kind == "done":
            return "is done"
        sends = f"sends {shown(values[1])} to {self.names[values[0]]}, "
        if kind == "sent":
            return f"{sends}due {values[3]}" + self._arrives(values[2])
        return sends + ("dropped" if kind == "full" else kind)

    def _consequence(self, kind, *values):
        """Returns the words of a consequence of a fault."""
        if kind == "kept":
            kept, length, offset = values
            if kept in (0, length):
                return f"{'keeps' if kept else 'drops'} {length} bytes at {offset}"
            return f"keeps {kept} of {length} bytes at {offset}"
        if kind == "loses":
            word = "sync" if values[0] == "synced" else values[0]
            return f"loses its {word}, due {values[1]}"
        name = self.names[values[0]]
        if kind == "freed":
            return f"lets {shown(values[1])} go to {name}" + self._arrives(values[2])
        return f"drops {shown(values[1])} to {name}"


def log(scenario, lines, first=None, last=None):
    """Returns the log of the script's run from event `first` to `last`, and the status."""
    branch, is_at_fault = script.kept(scenario, lines)
    if is_at_fault:
        return "", 2
    first = 1 if first is None else first
    last = len(branch.events) if last is None else last
    if not 1 <= first <= last <= len(branch.events):
        return "bad range\n", 2
    told = Log(scenario, branch.events, branch.worlds)
    return "".join(told.line(place) for place in range(first, last + 1)), 0
