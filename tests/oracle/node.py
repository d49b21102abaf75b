"""What the nodes of all protocols share: the setup, inputs and effects (docs/PROTOCOLS.md).

Each protocol is a module with four names:

- `PROBES`: the names of its probes, in the order of their numbers;
- `boot(setup, me, disk)`: the state of host `me`, from the stable bytes of its disk;
- `react(setup, me, node, given, word)`: the new state, and a list of effects in order;
- `probe(setup, me, node, number)`: the number that the node shows.

A state is never changed in place. A message is a tuple of its name and its fields.
"""

from typing import NamedTuple

LARGEST = 2**64 - 1
SERVER_TIMER = 100
CLIENT_TIMER = 200


class Setup(NamedTuple):
    """The numbers of servers and hosts, and the operations of each host (0 for a server)."""

    servers: int
    hosts: int
    ops: tuple


class Given(NamedTuple):
    """An input: its kind is `start`, `timer`, `synced` or `message`."""

    kind: str
    sender: int | None = None
    msg: tuple | None = None


SYNC = ("sync",)
DONE = ("done",)


def send(to, *msg):
    """Returns the effect that sends a message to host `to`."""
    return ("send", to, msg)


def timer(delay):
    """Returns the effect that sets the timer, in ms from now."""
    return ("timer", delay)


def write(offset, data):
    """Returns the effect that writes bytes at an offset of the disk."""
    return ("write", offset, data)


def one_more(number):
    """Returns the next number. The largest stays."""
    return min(number + 1, LARGEST)


def one_less(number):
    """Returns the number before. 0 stays."""
    return max(number - 1, 0)


def bytes_of(number):
    """Returns a number as 8 bytes, low byte first."""
    return number.to_bytes(8, "little")


def number_at(disk, offset):
    """Returns the number in 8 bytes of the disk. Missing bytes are 0."""
    return int.from_bytes(disk[offset:offset + 8], "little")


def byte_at(disk, offset):
    """Returns a byte of the disk, 0 if it is missing."""
    return disk[offset] if offset < len(disk) else 0


def client_value(me, number):
    """Returns the value of a client's operation."""
    return min(1000 * me + number, LARGEST)


def shown(value):
    """Returns a message, or a field of one, as Rust's derived `Debug` prints it."""
    if isinstance(value, bool):
        return "true" if value else "false"
    if isinstance(value, int):
        return str(value)
    if hasattr(value, "_fields"):
        fields = ", ".join(f"{k}: {shown(v)}" for k, v in value._asdict().items())
        return f"{type(value).__name__} {{ {fields} }}"
    return f"{value[0]}({', '.join(shown(field) for field in value[1:])})"
