"""Conditions about a world: how they are read, and whether they hold (docs/SCRIPT.md)."""

import operator
import re

from .scenario import NAME

MOST_TERMS = 8
NUMBER = re.compile(r"[0-9]{1,19}")
SHOWN = re.compile(r"([a-z][a-z0-9]{0,15})\.([a-z][a-z0-9]{0,15})")
OPS = {"<": operator.lt, "<=": operator.le, "=": operator.eq, "!=": operator.ne,
       ">=": operator.ge, ">": operator.gt}

# The words of each term. H is a host, P a probe, S a host's probe, O an operator, N a number,
# and V a number or a host's probe.
FORMS = (("up", "up H"), ("not up", "not up H"), ("done", "done H"), ("not done", "not done H"),
         ("agree", "agree P unless N"), ("agree by", "agree P by P unless N"),
         ("differ", "differ P unless N"), ("count", "count P O V O N"), ("any", "any P O V"),
         ("all", "all P O V"), ("compare", "S O V"))


def read_word(form, word):
    """Returns the value of a word as the form wants it, or None if the word is another one."""
    if form in ("H", "P"):
        return (form, word) if NAME.fullmatch(word) else None
    if form == "O":
        return OPS.get(word)
    if form == "N":
        return int(word) if NUMBER.fullmatch(word) else None
    shown = SHOWN.fullmatch(word)
    if form in ("S", "V") and shown:
        return ("S", shown[1], shown[2])
    if form == "V" and NUMBER.fullmatch(word):
        return int(word)
    return None


def read_term(words):
    """Returns the term at the start of the words and the number of its words, or None."""
    for kind, form in FORMS:
        forms = form.split()
        if len(words) < len(forms):
            continue
        values = []
        for part, word in zip(forms, words):
            if len(part) > 1:
                if part != word:
                    break
            else:
                value = read_word(part, word)
                if value is None:
                    break
                values.append(value)
        else:
            return (kind, *values), len(forms)
    return None


def read(words):
    """Returns the alternatives of a condition, each a list of terms; or None if it is none."""
    alternatives = [[]]
    count = 0
    while True:
        found = read_term(words)
        if found is None or count == MOST_TERMS:
            return None
        alternatives[-1].append(found[0])
        count += 1
        words = words[found[1]:]
        if not words:
            return alternatives
        if words[0] == "or":
            alternatives.append([])
        elif words[0] != "and":
            return None
        words = words[1:]


def read_text(text):
    """Returns the alternatives of a condition in a text of any length, or None if it is none."""
    return read([word for word in text.split(" ") if word])


def resolved(alternatives, scenario):
    """Returns the condition with numbers for names. A name that nothing has becomes None."""
    probes = scenario.protocol.PROBES

    def host(name):
        """Returns the number of a host."""
        return scenario.names.index(name) if name in scenario.names else None

    def probe(name):
        """Returns the number of a probe."""
        return probes.index(name) if name in probes else None

    def value(part):
        """Returns a part of a term with numbers."""
        if not isinstance(part, tuple):
            return part
        if part[0] == "S":
            return ("S", host(part[1]), probe(part[2]))
        return (part[0], host(part[1]) if part[0] == "H" else probe(part[1]))

    return [[(term[0], *(value(part) for part in term[1:])) for term in terms]
            for terms in alternatives]


def refusal(condition):
    """Returns 2 if a host does not exist, else 11 if a probe does not exist, else None."""
    parts = [part for terms in condition for term in terms for part in term[1:]
             if isinstance(part, tuple)]
    if any(part[0] in ("H", "S") and part[1] is None for part in parts):
        return 2
    if any(part[0] in ("P", "S") and part[-1] is None for part in parts):
        return 11
    return None


def holds(condition, world):
    """Returns whether all terms of one of the alternatives hold."""
    return any(all(term_holds(term, world) for term in terms) for terms in condition)


def term_holds(term, world):
    """Returns whether a term holds."""
    kind, first, *others = term
    if kind in ("up", "not up"):
        return world.is_up(first[1]) == (kind == "up")
    if kind in ("done", "not done"):
        return world.hosts[first[1]].done == (kind == "done")
    if kind == "compare":
        return compares(world, [world.shown(first[1], first[2])], *others)
    shown = world.all_shown(first[1])
    if kind == "agree":
        return len({value for value in shown if value != others[0]}) <= 1
    if kind == "differ":
        values = [value for value in shown if value != others[0]]
        return len(values) == len(set(values))
    if kind == "agree by":
        return agrees_by(shown, world.all_shown(others[0][1]), others[1])
    if kind in ("any", "all"):
        return compares(world, shown, *others, any if kind == "any" else all)
    op, value, than, number = others
    return compares(world, shown, op, value, lambda each: than(sum(each), number))


def compares(world, shown, op, value, of=all):
    """Returns whether the comparisons of these values hold, or the host of `value` is stopped.

    None among them stands for a stopped host, for which a comparison holds.
    """
    if isinstance(value, tuple):
        value = world.shown(value[1], value[2])
        if value is None:
            return True
    return of([one is None or op(one, value) for one in shown])


def agrees_by(shown, by, number):
    """Returns whether hosts with an equal second value have an equal first one, or `number`."""
    values = {}
    for one, key in zip(shown, by):
        if one != number:
            values.setdefault(key, set()).add(one)
    return all(len(several) == 1 for several in values.values())
