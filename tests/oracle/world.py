"""The world of a cluster, and what each event makes of it (docs/WORLD.md).

A world is never changed: an event makes another one. Events are tuples: `("step",)`,
`("advance", clock)`, or a fault by the words of a script, with numbers of hosts.
"""

from typing import NamedTuple

from . import chacha
from .node import Given
from .scenario import MOST_TIME

MOST_MESSAGES = 4096
MOST_BYTES = 4096
NETWORK, TORN, HOSTS = 0, 1, 2

# What each change makes of a direction that is open, held or cut.
CHANGES = {
    "hold": {"open": "held", "held": "held", "cut": "held"},
    "partition": {"open": "cut", "held": "cut", "cut": "cut"},
    "release": {"open": "open", "held": "open", "cut": "cut"},
    "repair": {"open": "open", "held": "held", "cut": "open"},
}
ONE_WAY = {"cutoneway": "partition", "repaironeway": "repair"}
STEP = ("step",)


class Occurrence(NamedTuple):
    """A pending occurrence. Its due is in ms; `count` are the writes that a sync covers."""

    due: int
    serial: int
    host: int
    given: Given
    count: int = 0


class Host(NamedTuple):
    """A host. A stopped one has no node; `unsynced` has an offset and bytes for each write."""

    node: object
    stable: bytes = b""
    unsynced: tuple = ()
    draws: int = 0
    done: bool = False


def laid(disk, offset, data):
    """Returns the bytes of a disk with a write over them; a gap is filled with 0."""
    if not data:
        return disk
    return disk[:offset].ljust(offset, b"\0") + data + disk[offset + len(data):]


class World:
    """A world. `links` has (state, held messages) for the directions that are not plainly open."""

    __slots__ = ("scenario", "clock", "net", "torn", "serial", "pending", "links", "hosts", "told")

    def __init__(self, scenario):
        """Makes the world at the start of a run."""
        self.scenario = scenario
        self.clock = self.net = self.torn = self.serial = 0
        self.pending, self.links, self.told = {}, {}, []
        setup = scenario.setup
        self.hosts = [Host(scenario.protocol.boot(setup, me, b"")) for me in range(setup.hosts)]
        for me in range(setup.hosts):
            self._queue(0, me, Given("start"))

    def copy(self):
        """Returns a world that can be changed without changing this one."""
        other = World.__new__(World)
        other.scenario, other.clock = self.scenario, self.clock
        other.net, other.torn, other.serial = self.net, self.torn, self.serial
        other.pending, other.links = dict(self.pending), dict(self.links)
        other.hosts, other.told = list(self.hosts), []
        return other

    def first(self):
        """Returns the first pending occurrence, or None."""
        return min(self.pending.values()) if self.pending else None

    def can(self, event):
        """Returns whether the event can happen."""
        if event[0] == "step":
            return bool(self.pending)
        if event[0] == "advance":
            first = self.first()
            is_near = self.clock <= event[1] <= self.clock + MOST_TIME
            return is_near and (first is None or event[1] <= first.due)
        return True

    def after(self, event):
        """Returns the world after an event that can happen. Its `told` says what came of it."""
        world = self.copy()
        kind = event[0]
        if kind == "step":
            world._step()
        elif kind == "advance":
            world.clock = event[1]
        elif kind in ("crash", "bounce"):
            world._crash(event[1])
            if kind == "bounce":
                world._boot(event[1])
        else:
            change = ONE_WAY.get(kind, kind)
            world._direct(change, event[1], event[2])
            if kind not in ONE_WAY:
                world._direct(change, event[2], event[1])
        return world

    def is_up(self, host):
        """Returns whether a host runs."""
        return self.hosts[host].node is not None

    def shown(self, host, probe):
        """Returns what a probe shows at a host, or None if the host is stopped."""
        node = self.hosts[host].node
        scenario = self.scenario
        return None if node is None else scenario.protocol.probe(scenario.setup, host, node, probe)

    def all_shown(self, probe):
        """Returns what a probe shows at each running host."""
        values = [self.shown(host, probe) for host in range(len(self.hosts))]
        return [value for value in values if value is not None]

    def is_all_done(self):
        """Returns whether all clients are done."""
        return all(host.done for host in self.hosts[self.scenario.setup.servers:])

    def link(self, source, target):
        """Returns the state of a direction, and the messages that it holds."""
        return self.links.get((source, target), ("open", ()))

    def held(self):
        """Returns how many messages the links hold."""
        return sum(len(messages) for _, messages in self.links.values())

    def word(self, stream, place):
        """Returns a word of the run's seed."""
        return chacha.word(self.scenario.seed, stream, place)

    def _queue(self, due, host, given, count=0):
        """Makes an occurrence pending, and returns its serial."""
        serial = self.serial
        self.pending[serial] = Occurrence(due, serial, host, given, count)
        self.serial += 1
        return serial

    def _net_word(self):
        """Draws a word of the network's stream."""
        self.net += 1
        return self.word(NETWORK, self.net - 1)

    def _step(self):
        """Lets the first pending occurrence happen."""
        first = self.first()
        del self.pending[first.serial]
        self.clock = first.due
        self.told.append(("happens", first))
        me = first.host
        host = self.hosts[me]
        if host.node is None:
            return
        if first.given.kind == "synced":
            stable = host.stable
            for offset, data in host.unsynced[:first.count]:
                stable = laid(stable, offset, data)
            host = host._replace(stable=stable, unsynced=host.unsynced[first.count:])
        word = self.word(HOSTS + me, host.draws)
        node, effects = self.scenario.protocol.react(
            self.scenario.setup, me, host.node, first.given, word)
        self.hosts[me] = host._replace(node=node, draws=host.draws + 1)
        self.told.append(("reacts",))
        for effect in effects:
            self._carry_out(me, effect)

    def _carry_out(self, me, effect):
        """Carries out an effect of a host."""
        kind, *values = effect
        host = self.hosts[me]
        if kind == "send":
            self._send(me, *values)
        elif kind == "timer":
            self._take_out(me, ("timer",))
            due = self.clock + values[0]
            self.told.append(("timer", self._queue(due, me, Given("timer")), due))
        elif kind == "write":
            is_skipped = values[0] + len(values[1]) > MOST_BYTES
            if not is_skipped:
                self.hosts[me] = host._replace(unsynced=host.unsynced + (tuple(values),))
            self.told.append(("nowrite" if is_skipped else "write", values[0], len(values[1])))
        elif kind == "sync":
            covered = sum(one.count for one in self.pending.values() if one.host == me)
            due = self.clock + self.scenario.disk_latency
            count = len(host.unsynced) - covered
            self.told.append(("sync", self._queue(due, me, Given("synced"), count), due))
        else:
            self.hosts[me] = host._replace(done=True)
            self.told.append(("done",))

    def _take_out(self, me, kinds):
        """Takes the occurrences of these kinds out of those of a host, and returns them."""
        gone = [one for one in self.pending.values() if one.host == me and one.given.kind in kinds]
        for one in gone:
            del self.pending[one.serial]
        return gone

    def _is_full(self):
        """Returns whether the most messages are pending or held."""
        held = self.held()
        if len(self.pending) + held < MOST_MESSAGES:
            return False
        pending = sum(one.given.kind == "message" for one in self.pending.values())
        return pending + held >= MOST_MESSAGES

    def _send(self, me, to, msg):
        """Sends a message, by the state and the way of its direction."""
        state, messages = self.link(me, to)
        if self._is_full():
            self.told.append(("full", to, msg))
        elif me == to:
            self._deliver(self.clock, me, to, msg)
        elif state == "held":
            self.links[me, to] = (state, messages + (msg,))
            self.told.append(("held", to, msg))
        elif state == "cut":
            self.told.append(("cut", to, msg))
        else:
            way = self.scenario.way_of(me, to)
            late, lost = self._net_word(), self._net_word()
            if lost % 1000 < way.loss:
                self.told.append(("lost", to, msg))
            else:
                delay = way.latency_min + late % (way.latency_max - way.latency_min + 1)
                self._deliver(self.clock + delay, me, to, msg)

    def _deliver(self, due, me, to, msg):
        """Makes a message pending."""
        serial = self._queue(due, to, Given("message", me, msg))
        self.told.append(("sent", to, msg, serial, due))

    def _crash(self, me):
        """Stops a host, if it runs."""
        host = self.hosts[me]
        if host.node is None:
            return
        stable = host.stable
        for offset, data in host.unsynced:
            word = self.word(TORN, self.torn)
            self.torn += 1
            kept = (0, len(data), word // 3 % len(data))[word % 3]
            stable = laid(stable, offset, data[:kept])
            self.told.append(("kept", kept, len(data), offset))
        self.hosts[me] = host._replace(node=None, stable=stable, unsynced=())
        for one in self._take_out(me, ("start", "timer", "synced")):
            self.told.append(("loses", one.given.kind, one.due))

    def _boot(self, me):
        """Boots a stopped host from its stable bytes, and makes its start due now."""
        host = self.hosts[me]
        node = self.scenario.protocol.boot(self.scenario.setup, me, host.stable)
        self.hosts[me] = host._replace(node=node)
        self._queue(self.clock, me, Given("start"))

    def _direct(self, change, source, target):
        """Changes a direction, and lets go or drops what it held."""
        state, messages = self.link(source, target)
        new = CHANGES[change][state]
        if new != "held":
            for msg in messages:
                if new == "open":
                    serial = self._queue(self.clock, target, Given("message", source, msg))
                    self.told.append(("freed", target, msg, serial))
                else:
                    self.told.append(("gone", target, msg))
            messages = ()
        self.links[source, target] = (new, messages)
