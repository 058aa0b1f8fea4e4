"""What a source has that the program accepts and its author hardly means: signals that nothing reads or emits, in an interface or
local, names that hide others, traps that nothing leaves, statements that never start, repetitions that make much code.

All but the figures is this tool's own reading of the source. Statements that never start come from the static codes of the
kernel tree (places.py), and are reported only where that tree agrees with the program's listing. The figures are lines of
the program's C text, with the repetition and with one turn of it.
"""
import re
from typing import NamedTuple

from places import by_paths, kernel_of
from program import DONE
from source import all_statements, modules_of, parts_of
from syntax import asked
from tokens import Unread

MANY_LINES = 10000


class Warning(NamedTuple):
    """A warning: its place, what it says, and what to do."""

    at: int
    words: str
    advice: str


def delays_of(statement):
    """The tests of a statement itself."""
    own = [statement.parts["delay"]] if "delay" in statement.parts else []
    return own + [test for test, _ in statement.parts.get("cases", ())]


class Uses:
    """Which signals of each module's interface its body reads and emits, by itself or in modules that it runs."""

    def __init__(self, modules):
        self.modules = {module.name.name: module for module in reversed(modules)}
        self.read = {name: set() for name in self.modules}
        self.emitted = {name: set() for name in self.modules}
        before = None
        while before != (before := self.size()):
            for module in self.modules.values():
                self.walk(module.name.name, module.body, frozenset())

    def size(self):
        return sum(map(len, self.read.values())), sum(map(len, self.emitted.values()))

    def walk(self, name, statement, hidden):
        """Takes up the uses in a statement, in which some names are those of local signals."""
        for delay in delays_of(statement):
            self.read[name] |= {it.name for it in delay.names} - hidden
        if statement.form in ("emit", "sustain"):
            self.emitted[name] |= {statement.parts["signal"].name} - hidden
        if statement.form == "run" and statement.parts["module"].name in self.modules:
            self.walk_run(name, statement, hidden)
        inner = hidden | {it.name for it in statement.parts.get("signals", ())}
        for part in parts_of(statement):
            self.walk(name, part, inner)

    def walk_run(self, name, statement, hidden):
        """Takes up what a module that is run does with the signals of this one."""
        read, emitted = self.of_run(statement)
        self.read[name] |= read - hidden
        self.emitted[name] |= emitted - hidden

    def of_run(self, statement):
        """The names of this module whose signals a module that is run reads, and those that it emits."""
        run = statement.parts["module"].name
        actuals = {formal.name: actual.name for actual, formal in statement.parts["renamings"]}
        return tuple({actuals.get(it, it) for it in names} for names in (self.read[run], self.emitted[run]))


def unused_signals(modules, uses):
    """Warnings about signals of interfaces that nothing reads, or nothing emits."""
    for module in modules:
        name = module.name.name
        for it in module.signals["input"]:
            if it.name not in uses.read[name]:
                yield Warning(it.start, "input %s of %s is never read" % (it.name, name), "test it, or take it out of the interface")
        for it in module.signals["output"]:
            if it.name not in uses.emitted[name]:
                yield Warning(it.start, "output %s of %s is never emitted" % (it.name, name), "emit it, or take it out of the interface")
        for it in module.signals["inputoutput"]:
            if it.name not in uses.read[name] | uses.emitted[name]:
                words = "inputoutput %s of %s is never read and never emitted" % (it.name, name)
                yield Warning(it.start, words, "use it, or take it out of the interface")


# What is said of a local signal by whether something emits it, and whether something tests it.
DEAD_LOCALS = {
    (False, False): ("is never emitted and never tested", "use it, or take it out of the `signal`"),
    (True, False): ("is emitted and never tested", "test it, or take it and its emissions out"),
    (False, True): ("is tested and never emitted", "emit it, or take it and its tests out: it is absent in every instant"),
}


def dead_locals(module, uses):
    """Warnings about local signals that nothing emits, or nothing tests. One that a module which is run uses has none: an output
    that is left open, or an input that is held absent, is meant."""
    emitted, tested, passed, found = set(), set(), set(), []
    waiting = [(module.body, {})]
    while waiting:
        statement, scope = waiting.pop()
        scope = {**scope, **{it.name: it for it in statement.parts.get("signals", ())}}
        found += statement.parts.get("signals", ())
        tested |= {scope.get(it.name) for delay in delays_of(statement) for it in delay.names}
        if statement.form in ("emit", "sustain"):
            emitted.add(scope.get(statement.parts["signal"].name))
        if statement.form == "run" and statement.parts["module"].name in uses.modules:
            passed |= {scope.get(name) for names in uses.of_run(statement) for name in names}
        waiting += [(part, scope) for part in parts_of(statement)]
    for it in found:
        words, advice = DEAD_LOCALS.get((it in emitted, it in tested), ("", ""))
        if words and it not in passed:
            yield Warning(it.start, "local signal %s %s" % (it.name, words), advice)


def hidden_signals(module):
    """Warnings about local signals that have the name of a signal around them."""
    outer = {it.name: "the interface of %s" % module.name.name for names in module.signals.values() for it in names}
    waiting = [(module.body, outer)]
    while waiting:
        statement, scope = waiting.pop()
        for it in statement.parts.get("signals", ()):
            if it.name in scope:
                words = "local signal %s hides another %s, of %s" % (it.name, it.name, scope[it.name])
                yield Warning(it.start, words, "give it a name of its own, or take the `signal` away to use the outer one")
        scope = {**scope, **{it.name: "a signal around it" for it in statement.parts.get("signals", ())}}
        waiting += [(part, scope) for part in parts_of(statement)]


def left_traps(statement):
    """The traps that the exits in a statement leave, for exits out of the statement; and warnings about traps in it."""
    left, found = set(), []
    for part in parts_of(statement):
        if statement.form == "trap" and part is statement.parts["handler"]:
            continue
        names, warnings = left_traps(part)
        left |= names
        found += warnings
    if statement.form == "exit":
        left.add(statement.parts["trap"].name)
    if statement.form == "trap":
        trap = statement.parts["trap"]
        if trap.name not in left:
            found.append(Warning(trap.start, "trap %s is never left" % trap.name, "no `exit %s` is in its body" % trap.name))
        left.discard(trap.name)
        if statement.parts["handler"]:
            names, warnings = left_traps(statement.parts["handler"])
            left |= names
            found += warnings
    return left, found


def dead_kernels(body):
    """The source statements, by identity, of which no kernel statement ever starts by the static codes."""
    alive, dead, waiting = set(), set(), [(body, True)]
    while waiting:
        now, starts = waiting.pop()
        (alive if starts else dead).add(id(now.origin.statement))
        parts = [(part, starts) for part in now.parts]
        if now.form == "Seq" and not (now.parts[0].starts | now.parts[0].resumes) & 1:
            parts[1] = (now.parts[1], False)
        waiting += parts
    return dead - alive


def handlers_in_vain(modules):
    """The places of the handlers whose traps nothing leaves; the traps have a warning of their own."""
    for module in modules:
        warned = {it.at for it in left_traps(module.body)[1]}
        for statement in all_statements(module.body):
            if statement.form == "trap" and statement.parts["trap"].start in warned and statement.parts["handler"]:
                yield statement.parts["handler"].start


def never_started(body, skipped):
    """Warnings about statements that no static code lets start: of several in a row, or one in another, the first."""
    statements = {id(it.origin.statement): it.origin.statement for it in by_paths(body).values()}
    dead = dead_kernels(body)
    covered = set()
    for it in statements.values():
        parts = parts_of(it)
        for before, part in zip(parts, parts[1:]):
            if it.form == "sequence" and id(before) in dead:
                covered.add(id(part))
    end = -1
    for statement in sorted((statements[it] for it in dead), key=lambda it: (it.start, -it.end)):
        is_inside = statement.start < end
        end = max(end, statement.end)
        if is_inside or id(statement) in covered or statement.start in skipped:
            continue
        words = "this %s never starts: the statement before it never ends" % statement.form.split(" ")[0]
        yield Warning(statement.start, words, "a statement ends by itself, by an abort or a trap around it; `exit` leaves it")


def counts_of(module):
    """The repetitions of a module: the place of each count that is above 1, and what is repeated."""
    for statement in all_statements(module.body):
        if statement.form == "repeat" and statement.parts["count"] > 1:
            yield statement, "repeat %d times" % statement.parts["count"]
        for delay in delays_of(statement):
            if delay.count > 1:
                yield statement, "the count %d" % delay.count


def lines_of_c(text, main):
    """The lines of the C text of a source; none where it has none."""
    answer = asked(text, main, "c")
    return answer.out.count(b"\n") if answer.status == DONE else None


def costly_counts(text, main, modules):
    """Warnings about counts that make more than `MANY_LINES` lines of C, each by the text with a 1 in its place."""
    lines = lines_of_c(text, main)
    if lines is None or lines <= MANY_LINES:
        return
    for module in modules:
        for statement, words in counts_of(module):
            number = re.compile(r"\d+").search(text, place_of_count(statement))
            # With a 1 in place of a count n at least an nth of the lines is left.
            if lines - lines // int(number[0]) <= MANY_LINES:
                continue
            less = lines_of_c(text[: number.start()] + "1" + text[number.end() :], main)
            if less is not None and lines - less > MANY_LINES:
                told = "%s makes %s of the %s lines of C" % (words, "{:,}".format(lines - less), "{:,}".format(lines))
                advice = "each turn is code of its own; an input that a timer gives less often, or a loop that an event aborts, is code once"
                yield Warning(number.start(), told, advice)


def place_of_count(statement):
    """The place at which the count of a statement is looked for."""
    delay = statement.parts.get("delay")
    return delay.start if delay and delay.count > 1 else statement.start


def warnings_of(text, main, kernels_agree):
    """All warnings about a source that is accepted, in the order of their places."""
    try:
        modules = modules_of(text)
        body = kernel_of(text, main) if kernels_agree else None
    except Unread:
        return []
    uses = Uses(modules)
    found = list(unused_signals(modules, uses))
    for module in modules:
        found += hidden_signals(module)
        found += dead_locals(module, uses)
        found += left_traps(module.body)[1]
    if body:
        found += never_started(body, set(handlers_in_vain(modules)))
    found += costly_counts(text, main, modules)
    return sorted(set(found))
