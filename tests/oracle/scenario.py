"""Reads the text of a scenario, or finds its first fault; writes it again (docs/SCENARIO.md)."""

import re
import tomllib
from typing import NamedTuple

from .node import Setup
from .protocols import LEAST_SERVERS, PROTOCOLS

MOST_BYTES = 65_536
MOST_HOSTS = 32
MOST_TIME = 60_000
NAME = re.compile(r"[a-z][a-z0-9]{0,15}")
SEED = re.compile(r"[0-9a-fA-F]{64}")

KEYS = ("format", "seed", "protocol", "tick", "latency_min", "latency_max", "loss", "servers",
        "checkpoint", "window", "client")
SECOND_KEYS = ("disk_latency", "link")
CLIENT_KEYS = ("name", "ops")
LINK_KEYS = ("source", "target", "latency_min", "latency_max", "loss")
RANGES = {"tick": (1, MOST_TIME), "latency_min": (0, MOST_TIME), "latency_max": (0, MOST_TIME),
          "loss": (0, 1000), "checkpoint": (1, 1024), "window": (1, 4096), "ops": (1, 1000),
          "disk_latency": (0, MOST_TIME)}


class Fault(Exception):
    """The first fault of a text: its number, and the key that the program writes."""

    def __init__(self, number, key):
        """Takes the two words that the program writes for the fault."""
        super().__init__(number, key)
        self.number, self.key = number, key


class Way(NamedTuple):
    """How messages cross a direction: latencies in ms, and the loss in a thousand."""

    latency_min: int
    latency_max: int
    loss: int


class Scenario(NamedTuple):
    """A scenario. `ways` has the directions that differ from `way`, by (source, target)."""

    seed: bytes
    protocol: object
    tick: int
    way: Way
    ways: dict
    disk_latency: int
    names: tuple
    setup: Setup
    checkpoint: int
    window: int
    table: dict

    def way_of(self, source, target):
        """Returns the way of a direction."""
        return self.ways.get((source, target), self.way)

    def numbered(self, number):
        """Returns the scenario with a number in the last eight bytes of the seed."""
        return self._replace(seed=self.seed[:24] + number.to_bytes(8, "little"))

    def text(self):
        """Returns the text of the scenario as the program prints it: keys by their names."""
        table = dict(self.table, seed=self.seed.hex())
        lines = tables = ""
        for key in sorted(table):
            if key in ("client", "link"):
                for item in table[key]:
                    tables += f"\n[[{key}]]\n" + "".join(
                        f"{name} = {literal(item[name])}\n" for name in sorted(item))
            else:
                lines += f"{key} = {literal(table[key])}\n"
        return lines + tables


def literal(value):
    """Returns a name, a number or a list of names as TOML writes it."""
    if isinstance(value, list):
        return "[" + ", ".join(literal(item) for item in value) + "]"
    return f'"{value}"' if isinstance(value, str) else str(value)


def is_too_large(value):
    """Returns whether a value has a whole number that 64 bits with a sign cannot hold."""
    if isinstance(value, dict):
        return any(is_too_large(item) for item in value.values())
    if isinstance(value, list):
        return any(is_too_large(item) for item in value)
    return isinstance(value, int) and not -2**63 <= value < 2**63


def whole(table, key, shown, low=None):
    """Returns the whole number of a key within its range. `shown` is the key of a fault."""
    value = table[key]
    if type(value) is not int:
        raise Fault(5, shown)
    if not (RANGES[key][0] if low is None else low) <= value <= RANGES[key][1]:
        raise Fault(9, shown)
    return value


def string(table, key, shown):
    """Returns the string of a key."""
    if not isinstance(table[key], str):
        raise Fault(5, shown)
    return table[key]


def present(table, key, shown):
    """Raises the fault of a missing key."""
    if key not in table:
        raise Fault(4, shown)


def check_unknown(table, keys, shown=None):
    """Raises the fault of an unknown key: the least by its bytes."""
    unknown = sorted((key for key in table if key not in keys), key=lambda key: key.encode())
    if unknown:
        raise Fault(3, shown or unknown[0])


def check_items(value, kind, key):
    """Raises the fault of a value that is no array of items of one kind."""
    if not isinstance(value, list) or not all(isinstance(item, kind) for item in value):
        raise Fault(5, key)


def check_names(names, key):
    """Raises the fault of a name that is none."""
    if not all(NAME.fullmatch(name) for name in names):
        raise Fault(10, key)


def check_value(table, key):
    """Raises the fault of the value of a key of the text itself."""
    value = table[key]
    if key == "format":
        if type(value) is not int:
            raise Fault(5, key)
        if value not in (1, 2):
            raise Fault(8, key)
    elif key == "seed":
        if not SEED.fullmatch(string(table, key, key)):
            raise Fault(6, key)
    elif key == "protocol":
        if string(table, key, key) not in PROTOCOLS:
            raise Fault(7, key)
    elif key == "servers":
        check_items(value, str, key)
        if not value:
            raise Fault(9, key)
        check_names(value, key)
    elif key in ("client", "link"):
        check_tables(value, key)
    else:
        whole(table, key, key, table["latency_min"] if key == "latency_max" else None)


def check_tables(tables, key):
    """Raises the first fault of the tables of clients or links."""
    check_items(tables, dict, key)
    if key == "client" and not tables:
        raise Fault(9, key)
    keys = CLIENT_KEYS if key == "client" else LINK_KEYS
    for table in tables:
        check_unknown(table, keys, key)
        for name in keys:
            present(table, name, key)
            if name in ("name", "source", "target"):
                string(table, name, key)
                check_names([table[name]] if name == "name" else [], key)
            else:
                whole(table, name, key, table["latency_min"] if name == "latency_max" else None)


def check_hosts(table):
    """Returns the names of the hosts, or raises the fault of their number or their names."""
    servers = table["servers"]
    names = servers + [client["name"] for client in table["client"]]
    if len(names) > MOST_HOSTS or len(servers) < LEAST_SERVERS[table["protocol"]]:
        raise Fault(11, "servers")
    for number, name in enumerate(names):
        if name in names[:number]:
            raise Fault(12, "servers" if number < len(servers) else "client")
    return tuple(names)


def read_links(links, names):
    """Returns the ways of the directions that have their own."""
    for link in links:
        source, target = link["source"], link["target"]
        if source not in names or target not in names or source == target:
            raise Fault(13, "link")
    ways = {}
    for link in links:
        direction = (names.index(link["source"]), names.index(link["target"]))
        if direction in ways:
            raise Fault(14, "link")
        ways[direction] = Way(link["latency_min"], link["latency_max"], link["loss"])
    return ways


def parse(text):
    """Returns the table that a text (bytes) is in TOML."""
    if len(text) > MOST_BYTES:
        raise Fault(1, "text")
    try:
        table = tomllib.loads(text.decode())
    except (UnicodeDecodeError, tomllib.TOMLDecodeError, RecursionError):
        raise Fault(2, "text") from None
    if is_too_large(table):
        raise Fault(2, "text")
    return table


def read(text):
    """Returns the scenario of a text (bytes), or raises its first fault."""
    table = parse(text)
    version = table.get("format")
    is_second = type(version) is int and version == 2
    check_unknown(table, KEYS + SECOND_KEYS if is_second else KEYS)
    for key in KEYS + SECOND_KEYS if is_second else KEYS:
        if key == "link" and key not in table:
            continue
        present(table, key, key)
        check_value(table, key)
    names = check_hosts(table)
    ways = read_links(table.get("link", []), names)
    servers = len(table["servers"])
    ops = (0,) * servers + tuple(client["ops"] for client in table["client"])
    way = Way(table["latency_min"], table["latency_max"], table["loss"])
    return Scenario(bytes.fromhex(table["seed"]), PROTOCOLS[table["protocol"]], table["tick"], way,
                    ways, table.get("disk_latency", 0), names, Setup(servers, len(names), ops),
                    table["checkpoint"], table["window"], table)


def split(data):
    """Returns the text of the scenario and the lines of the script (bytes) of an input."""
    start = 0
    while start < len(data):
        end = data.find(b"\n", start)
        after = len(data) if end < 0 else end + 1
        line = data[start:len(data) if end < 0 else end]
        if line == b"---" or (end >= 0 and line == b"---\r"):
            return data[:start], lines_of(data[after:])
        start = after
    return data, []


def lines_of(data):
    """Returns the lines of a script, without their ends."""
    lines = data.split(b"\n")
    last = lines.pop()
    lines = [line[:-1] if line.endswith(b"\r") else line for line in lines]
    return lines + [last] if last else lines
