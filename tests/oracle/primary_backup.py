"""The protocol primary-backup: server 0 is the primary, the other servers are backups."""

from typing import NamedTuple

from .node import (CLIENT_TIMER, DONE, SERVER_TIMER, SYNC, byte_at, bytes_of, client_value,
                   number_at, one_less, one_more, send, timer, write)

PROBES = ("next", "applied")
CELLS = 16
COUNT_AT = 128
LAST_AT = 136


class Current(NamedTuple):
    """The current put of the primary: its client (or None), its number, who has answered."""

    host: int | None
    i: int
    answered: frozenset


class Server(NamedTuple):
    """The state of a server. `waiting` has (host, i, val), by host."""

    cells: tuple
    n: int
    last: int
    unsure: int = 0
    current: Current | None = None
    waiting: tuple = ()


def boot(setup, me, disk):
    """Returns `next` of a client, or the state of a server as the disk has it."""
    if me >= setup.servers:
        return 0
    cells = tuple(number_at(disk, 8 * cell) for cell in range(CELLS))
    return Server(cells, number_at(disk, COUNT_AT), byte_at(disk, LAST_AT))


def react(setup, me, node, given, word):
    """Returns the new state and the effects."""
    if me >= setup.servers:
        return client(setup, me, node, given)
    if given.kind == "synced":
        node = node._replace(unsure=one_less(node.unsure))
    return primary(setup, node, given) if me == 0 else backup(node, given)


def client(setup, me, node, given):
    """Returns the new `next` and the effects of a client."""
    def put(number):
        """Returns the effects that send a put."""
        return [send(0, "Put", number, client_value(me, number)), timer(CLIENT_TIMER)]

    if given.kind == "start":
        return 1, put(1)
    if given.kind == "message" and given.msg == ("Fin", node):
        if node == setup.ops[me]:
            return one_more(node), [DONE]
        return one_more(node), put(one_more(node))
    if given.kind == "timer" and node <= setup.ops[me]:
        return node, put(node)
    return node, []


def save(node, cell, n, val):
    """Returns the server with a put applied, and the effects that save it."""
    cells = node.cells[:cell] + (val,) + node.cells[cell + 1:]
    node = node._replace(cells=cells, n=n, last=cell, unsure=node.unsure + 1)
    return node, [write(8 * cell, bytes_of(val)), write(COUNT_AT, bytes_of(n) + bytes([cell])),
                  SYNC]


def begin(node, host, i, val):
    """Returns the primary that begins a client's put, and the effects."""
    node, effects = save(node, i % CELLS, one_more(node.n), val)
    node = node._replace(current=Current(host, i, frozenset()))
    return node, effects + [timer(SERVER_TIMER)]


def applies(setup, node):
    """Returns an `Apply` of the last put for each backup that has not answered."""
    msg = ("Apply", node.last, node.n, node.cells[node.last % CELLS])
    return [send(to, *msg) for to in range(1, setup.servers) if to not in node.current.answered]


def primary(setup, node, given):
    """Returns the new state and the effects of the primary."""
    if given.kind == "message":
        if given.msg[0] == "Put":
            return primary_put(node, given.sender, *given.msg[1:])
        if given.msg[0] == "Ack" and 0 < given.sender < setup.servers:
            return primary_ack(setup, node, given.sender, given.msg[1])
        return node, []
    if given.kind == "start":
        if node.n == 0:
            return node, []
        node = node._replace(current=Current(None, 0, frozenset()))
        return node, applies(setup, node) + [timer(SERVER_TIMER)]
    if node.current is None:
        return node, []
    if node.unsure == 0:
        return node, applies(setup, node) + [timer(SERVER_TIMER)]
    return node, [timer(SERVER_TIMER)] if given.kind == "timer" else []


def primary_put(node, host, i, val):
    """Returns the new state and the effects after a client's put."""
    if node.current is None:
        return begin(node, host, i, val)
    if node.current.host == host:
        return node, []
    waiting = [put for put in node.waiting if put[0] != host] + [(host, i, val)]
    return node._replace(waiting=tuple(sorted(waiting))), []


def primary_ack(setup, node, backup_host, m):
    """Returns the new state and the effects after a backup's answer."""
    if node.current is None or m != node.n:
        return node, []
    current = node.current._replace(answered=node.current.answered | {backup_host})
    if len(current.answered) < setup.servers - 1:
        return node._replace(current=current), []
    effects = [] if current.host is None else [send(current.host, "Fin", current.i)]
    node = node._replace(current=None)
    if not node.waiting:
        return node, effects
    first, *others = node.waiting
    node, begun = begin(node._replace(waiting=tuple(others)), *first)
    return node, effects + begun


def backup(node, given):
    """Returns the new state and the effects of a backup."""
    if given.kind == "message" and given.msg[0] == "Apply":
        _, cell, m, val = given.msg
        if m == node.n + 1:
            return save(node, cell, m, val)
        if m <= node.n and node.unsure == 0:
            return node, [send(given.sender, "Ack", m)]
    if given.kind == "synced" and node.unsure == 0:
        return node, [send(0, "Ack", node.n)]
    return node, []


def probe(setup, me, node, number):
    """Returns `next` of a client or `applied` of a server; 0 for the other one."""
    if me < setup.servers:
        return node.n if number == 1 else 0
    return node if number == 0 else 0
