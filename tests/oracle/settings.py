"""Random texts of scenarios, in several styles of TOML, and texts with a fault."""

from .protocols import LEAST_SERVERS, PROTOCOLS
from .scenario import KEYS, SECOND_KEYS

ODD_NAMES = ("and", "or", "up", "done", "not", "agree", "by", "unless", "count", "all", "any",
             "differ", "step", "a", "x9", "abcdefghijklmnop", "q", "zz", "m1", "m2")
LINK_NUMBERS = ("latency_min", "latency_max", "loss")


def some_time(dice):
    """Returns a time (ms), mostly below 50, and once in eight times any up to 30,000."""
    return dice.randrange(30_001) if dice.randrange(8) == 0 else dice.randrange(50)


def some_way(dice):
    """Returns the values of a way: latencies that may be equal, and a loss that is mostly 0."""
    low = some_time(dice)
    high = low if dice.randrange(3) == 0 else low + some_time(dice)
    loss = dice.choice((dice.randrange(500), 1000 * dice.randrange(2), 0, 0))
    return {"latency_min": low, "latency_max": high, "loss": loss}


def some_length(dice, most):
    """Returns an interval or a window of at most `most` events."""
    return dice.choice((1, 2, 3, 7, most, 1 + dice.randrange(most)))


def some_names(dice, count):
    """Returns different names of hosts, or None for plain ones."""
    if dice.randrange(5) or count > len(ODD_NAMES):
        return None
    return dice.sample(ODD_NAMES, count)


class Setting:
    """A random scenario, by its values: `table` as TOML has it, and `names` of the hosts."""

    def __init__(self, dice, plain=False):
        """Chooses the values; a plain scenario is written in the plainest style."""
        self.dice, self.is_plain = dice, plain
        protocol = dice.choices(tuple(PROTOCOLS), (1, 2, 2, 3))[0]
        least = LEAST_SERVERS[protocol]
        servers, clients = dice.randint(least, 4), dice.randint(1, 3)
        if dice.randrange(30) == 0:
            servers = dice.randint(least, 31)
            clients = dice.randint(1, 32 - servers)
        names = some_names(dice, servers + clients) or [f"s{i}" for i in range(servers)] + [
            f"client{i}" for i in range(clients)]
        self.names, self.servers = names, servers
        seed = dice.randbytes(32).hex()
        tick = 1 + dice.randrange(60_000 if dice.randrange(8) == 0 else 200)
        most = 40 if dice.randrange(3) == 0 else 4
        clients = [{"name": name, "ops": dice.randint(1, most)} for name in names[servers:]]
        self.table = {"format": dice.randint(1, 2), "seed": seed, "protocol": protocol,
                      "tick": tick, **some_way(dice), "servers": names[:servers],
                      "checkpoint": some_length(dice, 1024), "window": some_length(dice, 4096),
                      "client": clients}
        if self.table["format"] == 2:
            self._add_second_keys()

    def _add_second_keys(self):
        """Chooses the values of the keys of format 2."""
        dice = self.dice
        self.table["disk_latency"] = dice.randrange(60_001 if dice.randrange(8) == 0 else 30)
        links = {}
        for _ in range(dice.choice((0, 0, 1, 1, 2, 4))):
            source, target = dice.choice(self.names), dice.choice(self.names)
            if source != target:
                links[source, target] = {"source": source, "target": target, **some_way(dice)}
        if links:
            self.table["link"] = list(links.values())

    def text(self):
        """Returns the text, as a person would write it or in another style."""
        dice = self.dice
        keys = [key for key in KEYS + SECOND_KEYS if key in self.table]
        if self.is_plain or dice.randrange(3):
            return written(self.table, keys, number)
        dice.shuffle(keys)
        text = written(self.table, keys, lambda value: odd_number(dice, value),
                       are_inline=dice.randrange(2) == 0, odd=dice)
        return text.replace("\n", "\r\n") if dice.randrange(3) == 0 else text


def number(value):
    """Returns a whole number as TOML writes it."""
    return str(value)


def odd_number(dice, value):
    """Returns a whole number in one of the ways of TOML."""
    digits = str(value)
    ways = [digits, "+" + digits, hex(value), oct(value), bin(value)]
    if len(digits) > 1:
        ways.append(digits[0] + "_" + digits[1:])
    return dice.choice(ways)


def literal(value, numbers):
    """Returns a value as TOML writes it."""
    if isinstance(value, bool):
        return "true" if value else "false"
    if isinstance(value, int):
        return numbers(value)
    if isinstance(value, list):
        return "[" + ", ".join(literal(item, numbers) for item in value) + "]"
    if isinstance(value, dict):
        items = (f"{key} = {literal(item, numbers)}" for key, item in value.items())
        return "{ " + ", ".join(items) + " }"
    return f'"{value}"' if isinstance(value, str) else str(value)


def written(table, keys, numbers, are_inline=False, odd=None):
    """Returns the text of a table with these keys; the tables of clients and links come last."""
    lines, tables = "", ""
    for key in keys:
        value = table[key]
        are_tables = key in ("client", "link") and isinstance(value, list)
        if are_tables and not are_inline and all(isinstance(item, dict) for item in value):
            for item in value:
                tables += f"\n[[{key}]]\n" + "".join(
                    f"{name} = {literal(item[name], numbers)}\n" for name in item)
        else:
            lines += f"{key} = {literal(value, numbers)}\n"
            if odd and odd.randrange(4) == 0:
                lines += "# a comment: ---\n"
    return lines + tables


TIMES = (-1, 0, 1, 9, 60_000, 60_001, "10", 10.0)
WRONG = (0, 1, 1.5, True, "", "a", [], {}, [1], ["a"], [{}], 2**63 - 1, 2**63)
VALUES = {
    "format": (0, 1, 2, 3, "1", 1.0, True), "tick": TIMES, "loss": (-1, 0, 1000, 1001, "0", 0.0),
    "seed": ("0" * 64, "0" * 63, "0" * 65, "Fa" * 32, "0x" + "0" * 62, "", 0, ["0" * 64]),
    "protocol": ("echo", "abd", "two_phase", "primary_backup", "paxos", "Echo", "", 1, ["echo"]),
    "latency_min": TIMES, "latency_max": TIMES, "disk_latency": TIMES,
    "checkpoint": (-1, 0, 1, 1024, 1025, "1"), "window": (0, 1, 4096, 4097, 4096.0),
    "servers": (["a"], ["a", "b"], ["a", "a"], ["a", "A"], ["a", "1a"], ["server_b", "a"], [],
                ["a", 1], "a", [""], ["abcdefghijklmnopq"], ["abcdefghijklmnop", "z9"],
                [f"s{i}" for i in range(31)], [f"s{i}" for i in range(32)], ["client0", "s0"]),
    "client": ([], [{}], {"name": "w", "ops": 1}, [{"name": "w", "ops": 1}], [1], "w"),
    "link": ([], [{}], {}, [1], "a"),
    "name": ("w", "W", "", "s0", "client0", "abcdefghijklmnopq", "1", 1, ["w"]),
    "ops": (0, 1, 1000, 1001, -1, "1", 1.0), "source": ("s0", "s1", "nobody", "S0", 0),
    "target": ("s0", "client0", "nobody", "", 0),
}
RAW = ("tick = ", "tick = 100\ntick = 100\n", "step\n", "latency = 10\n", "Z = 1\na = 1\n",
       '"a b" = 1\n', '"" = 1\n', "x.y = 1\n", "tick = 07\n", "[client]\nname = \"w\"\n", "= 3\n",
       'seed = "\xff"\n', "disk_latency = 5\n", "format.x = 1\n", "[link]\n", "\x00",
       "\u00e9 = 1\n", '"\\u00e9" = 1\n', "tick = 1979-05-27\n", "x = [1, 2\n",
       "y = '''\n---\n'''\n")


def spoilt(dice, setting):
    """Returns the bytes of a text with a fault, or seldom one without."""
    table = dict(setting.table)
    for _ in range(dice.choice((1, 1, 1, 2, 3)) if dice.randrange(5) else 0):
        spoil(dice, table)
    keys = [key for key in KEYS + SECOND_KEYS if key in table]
    keys += [key for key in table if key not in keys]
    text = written(table, keys, number).encode()
    chance = dice.randrange(12)
    if chance == 0:
        raw = dice.choice(RAW)
        raw = raw.encode("latin-1" if "\xff" in raw else "utf-8")
        return raw + text if dice.randrange(2) else text + raw
    if chance == 1:
        size = dice.choice((65_536, 65_537, 70_000))
        return text + b"#" * (size - len(text) - 1) + b"\n"
    if chance == 2:
        at = dice.randrange(len(text))
        return text[:at] + bytes([dice.randrange(256)]) + text[at + 1:]
    return text


def spoil(dice, table):
    """Changes a table: drops, adds or changes a key."""
    kind = dice.randrange(8)
    key = dice.choice(list(table))
    if kind == 0:
        del table[key]
    elif kind == 1:
        table[dice.choice(("disk_latency", "link", "seeds", "Format", "_", "a-b"))] = 5
    elif kind in (2, 3) and isinstance(table.get("client"), list):
        spoil_item(dice, table, "client")
    elif kind == 4 and isinstance(table.get("link"), list):
        spoil_item(dice, table, "link")
    elif kind == 5:
        table["servers"] = other_value(dice, "servers")
    else:
        table[key] = other_value(dice, key)


def other_value(dice, key):
    """Returns a value for a key, mostly of the right type."""
    return dice.choice(VALUES.get(key, WRONG) if dice.randrange(8) else WRONG)


def spoil_item(dice, table, key):
    """Changes a table of a client or a link."""
    items = [dict(item) for item in table[key] if isinstance(item, dict)]
    if not items:
        return
    item = dice.choice(items)
    name = dice.choice(list(item) or ["name"])
    kind = dice.randrange(4)
    if kind == 0:
        item.pop(name, None)
    elif kind == 1:
        item["name" if key == "link" else "source"] = "s0"
    elif kind == 2:
        items.append(dict(item))
    else:
        item[name] = other_value(dice, name)
    table[key] = items
