"""The four protocols by the names that a scenario has for them."""

from . import abd, echo, primary_backup, two_phase

PROTOCOLS = {
    "echo": echo,
    "primary_backup": primary_backup,
    "abd": abd,
    "two_phase": two_phase,
}

LEAST_SERVERS = {"echo": 1, "primary_backup": 2, "abd": 1, "two_phase": 2}
