"""What to do about a limit that a source passes, and which counts multiply its code.

How often a count multiplies is this tool's own reading. The program is asked whether the source keeps the limits with 1 in place
of a count.
"""
import re
from typing import NamedTuple

from lint import counts_of, place_of_count
from program import LIMIT
from source import modules_of
from syntax import asked
from tokens import Unread

# The lines of docs/formats.md about a limit of a source, each with its last column.
CURES = {
    "source": "split it into programs that run side by side",
    "nesting": "move inner parts into modules",
    "kernel": "each turn of a count is code of its own: use a loop and an event",
    "statements": "run fewer copies of a module",
    "signals": "use fewer; each run of a module has its own local signals",
    "height": "move parts into a parallel branch or a loop",
    "traps": "aborts and counts are traps too; put branches side by side",
    "instances": "loops around loops copy their bodies: add a `pause` between them",
    "wires": "make counts smaller; `tools/explain --lint` names the ones that cost most",
    "text": "make the source smaller",
}
# Limits that a smaller count may keep.
OF_COUNTS = ("kernel", "height", "instances", "wires", "text")
# Each count costs some runs of the program, so only the greatest ones are looked at.
MOST_COUNTS = 6


class Counted(NamedTuple):
    """A count above 1: the place of its number, the number, what it repeats, and by how much it and those around it multiply."""

    at: int
    count: int
    words: str
    copies: int


def counts_in(text):
    """The counts of a source that are above 1, those that multiply the most code first."""
    try:
        modules = modules_of(text)
    except Unread:
        return []
    found, around = {}, []
    for module in modules:
        for statement, words in counts_of(module):
            number = re.compile(r"\d+").search(text, place_of_count(statement))
            found[number.start()] = (statement, int(number[0]), words)
    counts = []
    for at, (statement, count, words) in sorted(found.items()):
        around = [(end, copies) for end, copies in around if at < end]
        copies = count * (around[-1][1] if around else 1)
        if statement.form == "repeat":
            around.append((statement.end, copies))
        counts.append(Counted(at, count, words, copies))
    return sorted(counts, key=lambda it: (-it.copies, -it.at))


def keeps(text, main, at):
    """Whether a source keeps the limits with 1 in place of the count at a place."""
    number = re.match(r"\d+", text[at:])[0]
    return asked(text[:at] + "1" + text[at + len(number) :], main).status != LIMIT


def limit_notes(text, main, quantity):
    """Notes about a limit that is passed: pairs of a place, or none, and words."""
    notes = [(None, CURES[quantity])] if quantity in CURES else []
    for it in counts_in(text)[:MOST_COUNTS] if quantity in OF_COUNTS else []:
        copies = "" if it.copies == it.count else ", and %s times with the counts around it" % "{:,}".format(it.copies)
        enough = "; with 1 here the source keeps the limits" if keeps(text, main, it.at) else ""
        notes.append((it.at, "%s is code %d times%s%s" % (it.words, it.count, copies, enough)))
    return notes
