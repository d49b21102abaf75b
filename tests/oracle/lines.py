"""Random lines of scripts, and random conditions."""

from .conditions import OPS

BAD_LINES = (b"jump 3", b"step 1", b"back", b"run 1234567890", b"@1234567890 step", b"@ step",
             b"@x step", b"watch up s0 or", b"watch up s0 and", b"look host S0", b"watch",
             b"look hosts s0", b" ", b"\tstep", b"step\t", b"run -1", b"run +1", b"run 1_0",
             b"@1", b"goto", b"crash s0 s1", b"hold s0", b"look next 1", b"watch s0.next<= 1",
             b"watch s0.next <= 12345678901234567890", b"watch agree next", b"STEP", b"run \xb2",
             b"watch up s0 up s1", b"watch not agree next unless 0", b"\xff\xfe", b"crash s_0",
             b"crash abcdefghijklmnopq", b"watch count next > 1 = s0.next", b"@0 @0 step")

HEALINGS = {"hold": "release", "partition": "repair", "cutoneway": "repaironeway"}


class Asker:
    """Makes lines for a protocol's probes and the names of hosts."""

    def __init__(self, dice, names, servers, probes):
        """Takes the names of the hosts, servers first, and the number of servers."""
        self.dice, self.names, self.servers, self.probes = dice, names, servers, probes
        self.healings = []

    def host(self):
        """Returns a host, seldom one that does not exist."""
        return "nobody" if self.dice.randrange(40) == 0 else self.dice.choice(self.names)

    def server(self):
        """Returns the name of a server."""
        return self.dice.choice(self.names[:self.servers])

    def probe(self):
        """Returns a probe, seldom one that does not exist."""
        return "nothing" if self.dice.randrange(40) == 0 else self.dice.choice(self.probes)

    def number(self):
        """Returns the digits of a number that a probe may show."""
        small = self.dice.randrange(6)
        return str(self.dice.choice((small, small, small, small, 1000 * small, 1000 * small + 1,
                                     10**18, "9" * 19, "007")))

    def comparison(self):
        """Returns an operator and a number or a host's probe."""
        value = self.number()
        if self.dice.randrange(4) == 0:
            value = f"{self.host()}.{self.probe()}"
        return f"{self.dice.choice(list(OPS))} {value}"

    def term(self):
        """Returns a term of a condition."""
        kind = self.dice.randrange(14)
        if kind < 4:
            return f"{('up', 'not up', 'done', 'not done')[kind]} {self.host()}"
        if kind == 4:
            return f"agree {self.probe()} unless {self.number()}"
        if kind == 5:
            return f"agree {self.probe()} by {self.probe()} unless {self.number()}"
        if kind == 6:
            return f"differ {self.probe()} unless {self.number()}"
        if kind in (7, 8):
            return f"{('any', 'all')[kind - 7]} {self.probe()} {self.comparison()}"
        if kind == 9:
            op = self.dice.choice(list(OPS))
            return f"count {self.probe()} {self.comparison()} {op} {self.dice.randrange(5)}"
        return f"{self.host()}.{self.probe()} {self.comparison()}"

    def condition(self):
        """Returns a condition: mostly of one or two terms, seldom of nine, which are too many."""
        count = 1 + self.dice.randrange(9 if self.dice.randrange(10) == 0 else 2)
        text = self.term()
        for _ in range(count - 1):
            text += f" {self.dice.choice(('and', 'and', 'or'))} {self.term()}"
        return text

    def fault(self):
        """Returns the line of a fault; once in three times it heals an earlier one."""
        kind = self.dice.randrange(9)
        if kind < 3 and self.healings:
            return self.healings.pop(self.dice.randrange(len(self.healings)))
        if kind < 6:
            return f"{self.dice.choice(('crash', 'bounce'))} {self.server()}"
        word = self.dice.choice((*HEALINGS, *HEALINGS, *HEALINGS.values(), "crash", "bounce"))
        if word in ("crash", "bounce"):
            return f"{word} {self.host()}"
        hosts = f"{self.host()} {self.host()}"
        if self.healings and self.dice.randrange(2):
            hosts = self.healings[-1].split(" ", 1)[1]
        if word in HEALINGS:
            self.healings.append(f"{HEALINGS[word]} {hosts}")
        return f"{word} {hosts}"

    def adding(self):
        """Returns a line that adds events."""
        kind = self.dice.randrange(7)
        if kind > 3:
            return self.fault()
        return ("step", "tick", f"run {self.dice.randrange(30)}",
                f"run {self.dice.randrange(4)}")[kind]

    def moving(self):
        """Returns a line that moves the place, mostly not too far."""
        near, far = self.dice.randrange(8), self.dice.randrange(60)
        return self.dice.choice((f"back {near}", f"back {far}", f"forward {near}",
                                 f"forward {far}", f"goto {far}", f"rewind {near}",
                                 f"rewind {far}", "cut"))

    def keeping(self):
        """Returns a line about branches and watches."""
        kind = self.dice.randrange(6)
        if kind < 2:
            return f"watch {self.condition()}"
        return (f"branch {self.dice.randrange(20)}", f"unwatch {self.dice.randrange(9)}", "trace",
                f"branch {self.dice.randrange(4)}")[kind - 2]

    def look(self):
        """Returns a look."""
        return self.dice.choice(("look", "look next", f"look host {self.host()}",
                                 f"look link {self.host()} {self.host()}",
                                 f"look probe {self.host()} {self.probe()}"))

    def all_looks(self):
        """Returns the lines (bytes) that look at each host and each of its probes."""
        looks = ["look", "look next"]
        for name in self.names:
            looks += [f"look host {name}", *(f"look probe {name} {one}" for one in self.probes)]
        return [look.encode() for look in looks]

    def command(self):
        """Returns any command on branch 0."""
        kind = self.dice.randrange(10)
        if kind < 3:
            return self.adding()
        if kind < 5:
            return self.moving()
        return (self.keeping, lambda: "cut", self.look, self.look, self.look)[kind - 5]()

    def line(self):
        """Returns a line (bytes), mostly a command on branch 0."""
        kind = self.dice.randrange(40)
        if kind < 2:
            return (b"", b"# step " + self.dice.randbytes(3).replace(b"\n", b""))[kind]
        if kind == 2:
            return self.dice.choice(BAD_LINES)
        line = self.command()
        if kind < 9:
            line = f"@{self.dice.randrange(4)} {line}"
        if kind == 9:
            return self.spaced(line)
        return line.encode()

    def spaced(self, line):
        """Returns a line with more spaces, near the longest length, or with a word changed."""
        kind = self.dice.randrange(4)
        if kind == 0:
            return line.ljust(self.dice.randint(254, 258)).encode()
        if kind == 1:
            return line.encode() + b"\r"
        if kind == 2:
            return ("  " + line.replace(" ", "   ") + " ").encode()
        words = line.split(" ")
        words[self.dice.randrange(len(words))] = self.dice.choice(("x", "1", "up", "or", "a.b"))
        return " ".join(words).encode()

    def faulty_run(self):
        """Returns a line of a long run with many faults."""
        kind = self.dice.randrange(12)
        if kind < 5:
            return f"run {1 + self.dice.randrange(12)}".encode()
        if kind == 5:
            look = self.look() if self.dice.randrange(3) else f"look host {self.server()}"
            return look.encode()
        return (self.fault() if kind < 11 else "tick").encode()
