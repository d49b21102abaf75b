"""The protocol echo: a server answers each ping with a pong."""

from .node import DONE, one_more, send

PROBES = ("next", "served")


def boot(setup, me, disk):
    """Returns 0: a client's state is `next`, a server's is `served`."""
    return 0


def react(setup, me, node, given, word):
    """Returns the new state and the effects."""
    if me < setup.servers:
        if given.kind == "message" and given.msg[0] == "Ping":
            return one_more(node), [send(given.sender, "Pong", given.msg[1])]
        return node, []
    server = (me - setup.servers) % setup.servers
    if given.kind == "start":
        return 1, [send(server, "Ping", 1)]
    if given.kind == "message" and given.msg == ("Pong", node):
        if node == setup.ops[me]:
            return one_more(node), [DONE]
        return one_more(node), [send(server, "Ping", one_more(node))]
    return node, []


def probe(setup, me, node, number):
    """Returns `next` of a client or `served` of a server; 0 for the other one."""
    return node if (number == 1) == (me < setup.servers) else 0
