"""Two-phase commit, presumed abort: server 0 coordinates, the other servers participate."""

from typing import NamedTuple

from .node import (CLIENT_TIMER, DONE, SERVER_TIMER, SYNC, byte_at, bytes_of, number_at,
                   one_less, one_more, send, timer, write)

PROBES = ("next", "first")
OPEN, COMMITTED, ABORTED = 0, 1, 2
STATUSES = ("none", "prepared", "committed", "aborted")
SOON = 1


class Coordinator(NamedTuple):
    """The state of the coordinator. Its phase is `resting`, `voting` or `telling`.

    `client` is the host and the number of the operation for which it is voting, and `owed` those
    of an answer that it owes; `answered` are the participants that have voted, or have seen it.
    """

    t: int
    flag: bool
    first: int
    unsure: int = 0
    phase: str = "resting"
    client: tuple | None = None
    owed: tuple | None = None
    answered: frozenset = frozenset()
    waiting: tuple = ()


class Participant(NamedTuple):
    """The state of a participant. Its status is one of STATUSES."""

    t: int
    status: str
    first: int
    unsure: int = 0


def boot(setup, me, disk):
    """Returns `next` of a client, or the state of a server as the disk has it."""
    if me >= setup.servers:
        return 0
    t, status, first = number_at(disk, 0), byte_at(disk, 8), byte_at(disk, 9)
    first = first if first in (COMMITTED, ABORTED) else OPEN
    if me == 0:
        first = ABORTED if t >= 1 and first == OPEN else first
        return Coordinator(t, status == 1, first)
    return Participant(t, STATUSES[status] if status < len(STATUSES) else "none", first)


def react(setup, me, node, given, word):
    """Returns the new state and the effects."""
    if me >= setup.servers:
        return client(setup, me, node, given)
    if given.kind == "synced":
        node = node._replace(unsure=one_less(node.unsure))
    return coordinator(setup, node, given) if me == 0 else participant(node, given, word)


def forced(node):
    """Returns the server that waits for one more sync, and the effects that force its state."""
    if isinstance(node, Coordinator):
        status = int(node.flag)
    else:
        status = STATUSES.index(node.status)
    data = bytes_of(node.t) + bytes([status, node.first])
    return node._replace(unsure=node.unsure + 1), [write(0, data), SYNC]


def ended(node, outcome):
    """Returns the server with the outcome of its transaction, which it keeps if t is 1."""
    return node._replace(first=outcome) if node.t == 1 else node


def to_others(setup, node, *msg):
    """Returns a message for each participant that has not answered."""
    return [send(to, *msg) for to in range(1, setup.servers) if to not in node.answered]


def asked_again(setup, node):
    """Returns the question of the phase for the participants that have not answered."""
    if node.phase == "voting":
        return to_others(setup, node, "Prepare", node.t)
    return to_others(setup, node, "Decide", True, node.t)


def begin(node):
    """Returns the coordinator that begins the operation of the lowest waiting host."""
    first, *others = node.waiting
    node = node._replace(t=one_more(node.t), flag=False, phase="voting", client=first,
                         answered=frozenset(), waiting=tuple(others))
    node, effects = forced(node)
    return node, effects + [timer(SERVER_TIMER)]


def coordinator(setup, node, given):
    """Returns the new state and the effects of the coordinator."""
    if given.kind == "message":
        return coordinator_message(setup, node, given.sender, given.msg)
    if given.kind == "start" and node.flag:
        node = node._replace(phase="telling", answered=frozenset())
        return node, to_others(setup, node, "Decide", True, node.t) + [timer(SERVER_TIMER)]
    if given.kind == "synced" and node.unsure == 0:
        return coordinator_settled(setup, node)
    if given.kind == "timer":
        if node.phase == "resting":
            return begin(node) if node.waiting else (node, [])
        again = asked_again(setup, node) if node.unsure == 0 else []
        return node, again + [timer(SERVER_TIMER)]
    return node, []


def coordinator_settled(setup, node):
    """Returns the new state and the effects of a coordinator whose writes are all stable."""
    if node.phase == "voting":
        return node, asked_again(setup, node) + [timer(SERVER_TIMER)]
    if node.phase == "telling" and node.owed is not None:
        host, i = node.owed
        node = node._replace(owed=None)
        told = [send(to, "Decide", True, node.t) for to in range(1, setup.servers)]
        return node, [send(host, "Answer", True, i), *told, timer(SERVER_TIMER)]
    return node, []


def coordinator_message(setup, node, sender, msg):
    """Returns the new state and the effects of the coordinator after a message."""
    is_participant = 0 < sender < setup.servers
    if msg[0] == "Begin":
        if node.phase == "voting" and node.client[0] == sender:
            return node, []
        waiting = [one for one in node.waiting if one[0] != sender] + [(sender, msg[1])]
        node = node._replace(waiting=tuple(sorted(waiting)))
        return begin(node) if node.phase == "resting" else (node, [])
    if msg[0] == "Vote" and msg[2] == node.t and is_participant and node.phase == "voting":
        return voted(setup, node, sender, msg[1])
    if msg == ("Seen", node.t) and is_participant and node.phase == "telling":
        node = node._replace(answered=node.answered | {sender})
        if len(node.answered) < setup.servers - 1:
            return node, []
        return node._replace(phase="resting"), [timer(SOON)]
    if msg[0] == "Inquire" and msg[1] < node.t:
        return node, [send(sender, "Decide", False, msg[1])]
    if msg == ("Inquire", node.t):
        if node.phase == "resting" or (node.phase == "telling" and node.unsure == 0):
            return node, [send(sender, "Decide", node.flag, node.t)]
    return node, []


def voted(setup, node, sender, yes):
    """Returns the new state and the effects after a participant's vote."""
    if not yes:
        host, i = node.client
        node = ended(node._replace(phase="resting", answered=frozenset()), ABORTED)
        node, effects = forced(node)
        told = to_others(setup, node, "Decide", False, node.t)
        return node, [*effects, send(host, "Answer", False, i), *told, timer(SOON)]
    node = node._replace(answered=node.answered | {sender})
    if len(node.answered) < setup.servers - 1:
        return node, []
    node = node._replace(flag=True, phase="telling", owed=node.client, answered=frozenset())
    node, effects = forced(ended(node, COMMITTED))
    return node, effects + [timer(SERVER_TIMER)]


def participant(node, given, word):
    """Returns the new state and the effects of a participant."""
    if given.kind in ("start", "timer"):
        if node.status == "prepared":
            return node, [send(0, "Inquire", node.t), timer(SERVER_TIMER)]
        return node, []
    if given.kind == "synced":
        if node.unsure == 0 and node.status == "prepared":
            return node, [send(0, "Vote", True, node.t)]
        if node.unsure == 0 and node.status == "committed":
            return node, [send(0, "Seen", node.t)]
        return node, []
    if given.msg[0] == "Prepare":
        return prepare(node, given.msg[1], word)
    if given.msg[0] == "Decide":
        return decide(node, *given.msg[1:])
    return node, []


def prepare(node, u, word):
    """Returns the new state and the effects of a participant that is asked to prepare."""
    if u > node.t:
        if node.status == "prepared":
            node = ended(node, ABORTED)
        if word % 8 != 0:
            node, effects = forced(node._replace(t=u, status="prepared"))
            return node, effects + [timer(SERVER_TIMER)]
        node, effects = forced(ended(node._replace(t=u, status="aborted"), ABORTED))
        return node, effects + [send(0, "Vote", False, u)]
    if u == node.t and node.status in ("prepared", "aborted") and node.unsure == 0:
        return node, [send(0, "Vote", node.status == "prepared", u)]
    return node, []


def decide(node, commit, u):
    """Returns the new state and the effects of a participant that is told the outcome."""
    if u == node.t and node.status == "prepared":
        status, outcome = ("committed", COMMITTED) if commit else ("aborted", ABORTED)
        return forced(ended(node._replace(status=status), outcome))
    is_known = u < node.t or (u == node.t and node.status == "committed")
    if commit and is_known and node.unsure == 0:
        return node, [send(0, "Seen", u)]
    return node, []


def client(setup, me, node, given):
    """Returns the new `next` and the effects of a client."""
    def ask(number):
        """Returns the effects that ask for a transaction."""
        return [send(0, "Begin", number), timer(CLIENT_TIMER)]

    if given.kind == "start":
        return 1, ask(1)
    if given.kind == "message" and given.msg[0] == "Answer" and given.msg[2] == node:
        if node == setup.ops[me]:
            return one_more(node), [DONE]
        return one_more(node), ask(one_more(node))
    if given.kind == "timer" and node <= setup.ops[me]:
        return node, ask(node)
    return node, []


def probe(setup, me, node, number):
    """Returns `next` of a client or `first` of a server; 0 for the other one."""
    if me < setup.servers:
        return node.first if number == 1 else 0
    return node if number == 0 else 0
