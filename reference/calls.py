"""How a call is written on a line, and numbers that calls are tried with."""

from answers import show

TOP = 2**64 - 1


def call(name, *arguments):
    return " ".join([name] + [show(argument) for argument in arguments])


def around(*values):
    """Each value with its neighbours, and the ends of a 64-bit number."""
    near = {v + d for v in values for d in (-1, 0, 1)} | {0, 1, 2**32, 2**63, TOP}
    return sorted(v for v in near if 0 <= v <= TOP)
