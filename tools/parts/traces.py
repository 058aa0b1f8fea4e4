"""Traces and lines of reactions, by docs/formats.md."""
import re
from typing import NamedTuple

from program import BAD_TEXT, TRACE, Stop

RESET = "!reset"
STATUSES = {"paused": 1, "ended": 0}


class Line(NamedTuple):
    """A line of a reaction: the outputs that are present, and 1, 0 or none for paused, ended or neither."""

    present: list
    status: int


class Event(NamedTuple):
    """An instant of a trace: the inputs that are present, and whether a reset stands before it."""

    present: list
    is_first: bool


def lines_of(text):
    """The lines of reactions that a text has. A count of assignments after the lines of a guarded C text is none of them."""
    found, lines = [], text.splitlines()
    if lines and re.fullmatch(r"assignments [0-9]+", lines[-1]) and all(" | " in line for line in lines[:-1]):
        lines.pop()
    for number, line in enumerate(lines, 1):
        names, bar, status = line.partition(" | ")
        present = [] if names == "-" else names.split(" ")
        is_error = re.match(r"(cec|[a-z_]+): ", line) is not None
        if is_error or (bar and status not in STATUSES) or not all(re.fullmatch(r"[!-~]+", name) for name in present):
            raise Stop(BAD_TEXT, "line %d: no line of a reaction: %s" % (number, line))
        found.append(Line(present, STATUSES.get(status) if bar else None))
    return found


def groups_of(text):
    """The groups of a trace, each a list of names."""
    groups = re.sub(r"%[^\n]*", "", text).split(";")
    if groups[-1].strip():
        raise Stop(TRACE, "the trace ends inside an instant")
    return [group.split() for group in groups[:-1]]


def events_of(text):
    """The instants of a trace."""
    found, is_first = [], False
    for names in groups_of(text):
        if names == [RESET]:
            is_first = True
            continue
        found.append(Event(names, is_first))
        is_first = False
    return found


def trace_of(groups):
    """The text of a trace with these groups, one a line."""
    return "".join("%s;\n" % " ".join(group) for group in groups)


def names_in(lists):
    """The names of some lists, each once, in the order of their first sight."""
    return list(dict.fromkeys(name for names in lists for name in names))
