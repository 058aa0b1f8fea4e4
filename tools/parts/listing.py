"""Listings of `cec grc`, by docs/formats.md: the nodes of the selection tree and the wires."""
import re
from typing import NamedTuple

from program import BAD_TEXT, Stop

PATH = r"(?:\.|(?:\.[0-9]+)+)"
NODE = re.compile(r"(leaf|excl|pass) (%s)|(par) (%s) ([01]{2})" % (PATH, PATH))
LAYER = r"(r|s %s)" % PATH
WIRE = re.compile(
    r"(?P<out>out) (?P<signal>\S+)|(?P<go>go) (?P<path>%s) (?P<layer>r|s %s)"
    r"|(?P<st>st) (?P<path2>%s) (?P<layer2>r|s %s) (?P<name>\S+)"
    r"|(?P<end>end) (?P<path3>%s) (?P<layer3>r|s %s) (?P<code>[0-9]+)" % ((PATH,) * 6)
)


class Wire(NamedTuple):
    """A wire: its kind, its path and layer, and the name of its signal or its completion code."""

    kind: str
    path: str
    layer: str
    what: str


class Listing(NamedTuple):
    """The nodes of a listing by their paths, the marks of its parallels, and its wires in order."""

    kinds: dict
    marks: dict
    wires: list


def wire_of(text):
    """The wire that a text names; none where it names none."""
    match = WIRE.fullmatch(text)
    if not match:
        return None
    part = match.groupdict()
    path, layer = (part["path"] or part["path2"] or part["path3"]), (part["layer"] or part["layer2"] or part["layer3"])
    return Wire(part["out"] or part["go"] or part["st"] or part["end"], path, layer, part["signal"] or part["name"] or part["code"])


def listing_of(text):
    """The parts of a listing; a line that is none is told."""
    lines = text.splitlines()
    if not lines or lines[0] != "grc 1":
        raise Stop(BAD_TEXT, "line 1: not the head of a listing")
    found = Listing({}, {}, [])
    for number, line in enumerate(lines[1:], 2):
        node = NODE.fullmatch(line)
        head, _, rest = line.partition(" ")
        wire = wire_of(rest) if head == "w%d" % len(found.wires) else None
        if node:
            kind, path = (node.group(1), node.group(2)) if node.group(1) else (node.group(3), node.group(4))
            found.kinds[path] = kind
            if node.group(5):
                found.marks[path] = node.group(5)
        elif wire:
            found.wires.append(wire)
        else:
            raise Stop(BAD_TEXT, "line %d: no line of a listing: %s" % (number, line))
    return found


def parent(path):
    """The path of the statement that this one is a part of; none for the whole body."""
    return None if path == "." else path[: path.rindex(".")] or "."


def numbers(path):
    """The child numbers of a path."""
    return [int(part) for part in path.split(".") if part]


def lies_in(path, top):
    """Whether a path is another one or goes on from it."""
    return top == "." or path == top or path.startswith(top + ".")
