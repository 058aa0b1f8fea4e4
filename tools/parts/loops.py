"""A loop whose body can end in the instant in which it starts: a way through the body that takes no time, and the places where one
`pause` makes the fault go.

The way is this tool's own reading of the source. The program is asked about each place.
"""
import re
import time
from concurrent.futures import ThreadPoolExecutor
from typing import NamedTuple

from program import CYCLIC, DONE, STATIC
from source import all_statements, modules_of, parts_of
from syntax import PLACE, asked
from tokens import Unread, byte_at, line_and_column, tokens_of

# Each place costs a run of the program. The first few are tried on a slow machine too.
MOST_PLACES, FIRST_PLACES, SECONDS = 40, 12, 5
MOST_STEPS = 8


class Place(NamedTuple):
    """A place for a pause: where it is, what is inserted there, and the statement before, after or in which it is."""

    at: int
    insert: str
    statement: object


class Mend(NamedTuple):
    """A place where a pause makes the fault go, and whether another fault is left."""

    place: Place
    leaves_fault: bool


def loop_at(modules, at):
    """The loop that begins at a place; none where this reading has none there."""
    found = (it for module in modules for it in all_statements(module.body) if it.form == "loop" and it.start == at)
    return next(found, None)


# The way that takes no time.


def event_of(text, delay):
    """The event of a delay as it is written, without its count."""
    return re.sub(r"\A(immediate\b|\d+)\s*", "", text[delay.start : delay.end])


def status_words(text, delay, holds):
    """What a way needs of an event, in words."""
    event = event_of(text, delay)
    if re.fullmatch(r"\w+", event):
        return "%s is %s" % (event, "present" if holds else "absent")
    return "`%s` is %s" % (" ".join(event.split()), "true" if holds else "false")


class Ways:
    """Finds a way through a statement on which it starts and ends in the same instant. A way is a list of steps in words.

    Where there is no such way, or one needs an exit or parallel branches, it finds none.
    """

    def __init__(self, text, modules):
        self.text, self.modules = text, {module.name.name: module for module in reversed(modules)}

    def step(self, statement, words, where=""):
        line = line_and_column(self.text, statement.start)[0]
        return ["`%s` (line %d)%s" % (words, line, " where " + where if where else "")]

    def of(self, statement):
        """A way through a statement; an empty one for a part that is left out."""
        if statement is None:
            return []
        find = getattr(self, "of_" + statement.form.replace(" ", "_"), None)
        return find(statement, statement.parts) if find else None

    def after(self, first, rest):
        """Two ways in a row."""
        return None if first is None or rest is None else first + rest

    def of_nothing(self, statement, _):
        return self.step(statement, "nothing")

    def of_emit(self, statement, parts):
        return self.step(statement, "emit " + parts["signal"].name)

    def of_sequence(self, _, parts):
        found = []
        for part in parts["parts"]:
            found = self.after(found, self.of(part))
        return found

    def of_body(self, _, parts):
        """A way through a statement that ends where its body does."""
        return self.of(parts["body"])

    of_group = of_signal = of_repeat = of_trap = of_abort_cases = of_body

    def of_present(self, statement, parts):
        # A branch that is left out is what authors forget.
        for holds, branch in sorted(((True, parts["then"]), (False, parts["else"])), key=lambda it: (it[1] is not None, it[0])):
            way = self.of(branch)
            if way is not None:
                return self.step(statement, "present", status_words(self.text, parts["delay"], holds)) + way
        return None

    def of_present_cases(self, statement, parts):
        way = self.of(parts["else"])
        if way is not None:
            return self.step(statement, "present", "no case is true") + way
        for test, body in parts["cases"]:
            way = self.of(body)
            if way is not None:
                return self.step(statement, "present", status_words(self.text, test, True)) + way
        return None

    def immediate(self, statement, parts, words):
        """The step at an event that is not waited for; none where the delay is not immediate."""
        delay = parts["delay"]
        return self.step(statement, words, status_words(self.text, delay, True)) if delay.immediate else None

    def of_await(self, statement, parts):
        return self.after(self.immediate(statement, parts, "await immediate"), self.of(parts["do"]))

    def of_abort(self, statement, parts):
        way = self.of(parts["body"])
        return way if way is not None else self.after(self.immediate(statement, parts, "abort"), self.of(parts["do"]))

    def of_weak_abort(self, statement, parts):
        way = self.of(parts["body"])
        return way if way is not None else self.immediate(statement, parts, "weak abort")

    def of_suspend(self, statement, parts):
        first = self.step(statement, "suspend", status_words(self.text, parts["delay"], False)) if parts["delay"].immediate else []
        return self.after(first, self.of(parts["body"]))

    def of_run(self, statement, parts):
        module = self.modules.get(parts["module"].name)
        if module is None or self.of(module.body) is None:
            return None
        return self.step(statement, "run " + parts["module"].name)


def way_words(text, at):
    """The way through the body of the loop at a place that takes no time, in words; none where no straight one is found."""
    try:
        modules = modules_of(text)
    except Unread:
        return None
    loop = loop_at(modules, at)
    way = Ways(text, modules).of(loop.parts["body"]) if loop else None
    if not way:
        return None
    return "this way through the body takes no time: " + ", then ".join(way[:MOST_STEPS] + ["so on"] * (len(way) > MOST_STEPS))


# Pauses that make the fault go.


def places_in(text, body):
    """The places of a loop's body at which a pause can be: those of outer statements first."""
    waiting, lasts = [body], {id(body)}
    for statement in waiting:
        parts = parts_of(statement)
        waiting += parts
        # What follows a part is the next one of a sequence, or what follows the whole.
        if id(statement) in lasts or statement.form not in ("sequence", "group"):
            lasts |= {id(it) for it in (parts[-1:] if statement.form == "sequence" else parts)}
        if statement.form in ("sequence", "parallel", "group"):
            continue
        yield Place(statement.start, "pause; ", statement)
        if id(statement) in lasts:
            yield Place(statement.end, "; pause", statement)
        if statement.form.startswith("present") and statement.parts["else"] is None:
            inside = [it for it in tokens_of(text[statement.start : statement.end]) if it.kind == "end"]
            yield Place(statement.start + inside[-1].start, "else pause ", statement)


def tried(text, main, at, place):
    """What a pause at a place does to the fault of the loop at another place; none where the fault stays."""
    answer = asked(text[: place.at] + place.insert + text[place.at :], main)
    match = PLACE.match(answer.err.decode("latin-1"))
    # Of all static faults this one is looked for last, and the loop that begins first is reported.
    is_other = answer.status == STATIC and match and match[3].strip() == "instantaneous loop"
    is_other = is_other and byte_at(text, int(match[1]), 1) + int(match[2]) - 1 != at
    return Mend(place, answer.status != DONE) if answer.status in (DONE, CYCLIC) or is_other else None


def mends_of(text, main, at):
    """The places where one pause makes the fault of the loop at a place go, each of them asked; and how many were not asked."""
    try:
        loop = loop_at(modules_of(text), at)
    except Unread:
        return [], 0
    places = list(places_in(text, loop.parts["body"])) if loop else []
    found, ends = [], time.monotonic() + SECONDS
    with ThreadPoolExecutor(FIRST_PLACES) as asking:
        for first in range(0, min(len(places), MOST_PLACES), FIRST_PLACES):
            if first and time.monotonic() > ends:
                break
            found += asking.map(lambda place: tried(text, main, at, place), places[first : first + FIRST_PLACES])
    return sorted((it for it in found if it), key=lambda it: it.place.at), len(places) - len(found)
