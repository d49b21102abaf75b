"""The register of Attiya, Bar-Noy and Dolev, with several writers."""

from typing import NamedTuple

from .node import (CLIENT_TIMER, DONE, SYNC, bytes_of, client_value, number_at, one_less,
                   one_more, send, timer, write)

PROBES = ("next", "num", "val")


class Tagged(NamedTuple):
    """A value with its tag: a number, and the writer."""

    number: int
    writer: int
    val: int

    def tag(self):
        """Returns what tags are compared by."""
        return (self.number, self.writer)


class Server(NamedTuple):
    """The state of a server. `owed` is the host and the number of an answer that it owes."""

    tagged: Tagged
    unsure: int = 0
    owed: tuple | None = None


class Client(NamedTuple):
    """The state of a client. Its phase is `resting`, `asking` or `storing`."""

    next: int = 0
    phase: str = "resting"
    answered: frozenset = frozenset()
    best: Tagged = Tagged(0, 0, 0)
    read: int = 0


def boot(setup, me, disk):
    """Returns a client at rest, or a server with the tagged value of its disk."""
    if me >= setup.servers:
        return Client()
    return Server(Tagged(*(number_at(disk, offset) for offset in (0, 8, 16))))


def react(setup, me, node, given, word):
    """Returns the new state and the effects."""
    return server(node, given) if me < setup.servers else client(setup, me, node, given)


def server(node, given):
    """Returns the new state and the effects of a server."""
    if given.kind == "synced":
        node = node._replace(unsure=one_less(node.unsure))
        if node.unsure == 0 and node.owed is not None:
            host, r = node.owed
            return node._replace(owed=None), [send(host, "Kept", r)]
    if given.kind == "message" and given.msg[0] == "Ask":
        return node, [send(given.sender, "Tell", given.msg[1], node.tagged)]
    if given.kind == "message" and given.msg[0] == "Store":
        return store(node, given.sender, *given.msg[1:])
    return node, []


def store(node, sender, r, new):
    """Returns the new state and the effects of a server that is asked to store a value."""
    if new.tag() > node.tagged.tag():
        data = b"".join(bytes_of(number) for number in new)
        node = node._replace(tagged=new, unsure=node.unsure + 1, owed=(sender, r))
        return node, [write(0, data), SYNC]
    if node.unsure == 0:
        return node, [send(sender, "Kept", r)]
    return node._replace(owed=(sender, r)), []


def requests(setup, node):
    """Returns the question for the servers that have not answered, and the timer."""
    if node.phase == "asking":
        msg = ("Ask", 2 * node.next)
    else:
        msg = ("Store", 2 * node.next + 1, node.best)
    return [send(to, *msg) for to in range(setup.servers) if to not in node.answered] + [
        timer(CLIENT_TIMER)]


def begin(setup, node, number):
    """Returns the client that begins an operation, and the effects."""
    node = Client(number, "asking", read=node.read)
    return node, requests(setup, node)


def client(setup, me, node, given):
    """Returns the new state and the effects of a client."""
    if given.kind == "start":
        return begin(setup, node, 1)
    if given.kind == "timer" and node.phase != "resting":
        return node, requests(setup, node)
    if given.kind != "message" or given.sender >= setup.servers or given.sender in node.answered:
        return node, []
    answered = node.answered | {given.sender}
    is_enough = len(answered) == setup.servers // 2 + 1
    if node.phase == "asking" and given.msg[:2] == ("Tell", 2 * node.next):
        best = given.msg[2] if given.msg[2].tag() > node.best.tag() else node.best
        node = node._replace(answered=answered, best=best)
        return begin_storing(setup, me, node) if is_enough else (node, [])
    if node.phase == "storing" and given.msg == ("Kept", 2 * node.next + 1):
        node = node._replace(answered=answered)
        return end(setup, me, node) if is_enough else (node, [])
    return node, []


def begin_storing(setup, me, node):
    """Returns the client that stores the best value or, in a write, its own; and the effects."""
    best = node.best
    if node.next % 2 == 1:
        best = Tagged(one_more(best.number), me, client_value(me, node.next))
    node = node._replace(phase="storing", answered=frozenset(), best=best)
    return node, requests(setup, node)


def end(setup, me, node):
    """Returns the client after its operation, and the effects."""
    if node.next % 2 == 0:
        node = node._replace(read=node.best.val)
    if node.next >= setup.ops[me]:
        return node._replace(next=node.next + 1, phase="resting"), [DONE]
    return begin(setup, node, node.next + 1)


def probe(setup, me, node, number):
    """Returns what a probe shows: `next`, `num` or `val`."""
    if me < setup.servers:
        return (0, node.tagged.number, node.tagged.val)[number]
    return (node.next, 0, node.read)[number]
