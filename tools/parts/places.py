"""From the paths of a listing to places of the source: the kernel tree of a source, by docs/language.md, with an origin for
each statement. The tree that it gives is compared with the program's listing before a place is told."""
import sys
from typing import NamedTuple

from program import DONE, ask, main_words
from source import Delay, modules_of
from tokens import Unread

sys.setrecursionlimit(100000)


class Origin(NamedTuple):
    """Where a kernel statement comes from: the source statement, its module, the places of the runs that led there, and the turns
    of the counts around it, each as a number from 1 and the count."""

    statement: object
    module: str
    runs: tuple
    turns: tuple = ()


class Kernel(NamedTuple):
    """A kernel statement: its form, its parts, its origin, and the signals that it tests, emits or binds.

    A signal is the name that the source has at that place, the name that the listing has, and what tells it from others
    of that name. `starts` and `resumes` are the completion codes of a start and of a resumption, as sets of bits.
    """

    form: str
    parts: tuple
    origin: Origin
    signals: tuple
    place: tuple
    starts: int
    resumes: int


def trapped(codes):
    """Codes by the trap rule."""
    return (codes & 3) | (codes >> 2 & 1) | (codes >> 3 << 2)


def maxima(left, right):
    """All maxima of a code of one and a code of the other."""
    found = 0
    for code in range(max(left.bit_length(), right.bit_length())):
        upto = (2 << code) - 1
        if (left >> code & 1 and right & upto) or (right >> code & 1 and left & upto):
            found |= 1 << code
    return found


def codes_of(form, parts, code):
    """The codes of a start and of a resumption of a kernel statement, by docs/semantics.md."""
    starts, resumes = [it.starts for it in parts], [it.resumes for it in parts]
    if form in ("Nothing", "Emit"):
        return 1, 0
    if form == "Pause":
        return 2, 1
    if form == "Exit":
        return 1 << code, 0
    if form == "Present":
        return starts[0] | starts[1], resumes[0] | resumes[1]
    if form == "Suspend":
        return starts[0], resumes[0] | (2 if resumes[0] else 0)
    if form == "Loop":
        return starts[0] & ~1, (resumes[0] | (starts[0] if resumes[0] & 1 else 0)) & ~1
    if form == "Trap":
        return trapped(starts[0]), trapped(resumes[0])
    if form == "Local":
        return starts[0], resumes[0]
    if form == "Seq":
        started = starts[0] & ~1 | starts[1] if starts[0] & 1 else starts[0]
        resumed = resumes[0] & ~1 | (starts[1] if resumes[0] & 1 else 0)
        return started, resumed | (resumes[1] if (starts[0] | resumes[0]) & 1 else 0)
    left, right = (resumes[k] | (starts[k] | resumes[k]) & 1 for k in (0, 1))
    return maxima(*starts), maxima(left, right) if resumes[0] | resumes[1] else 0


class Expander:
    """Makes the kernel tree of a source; a method for each form, named after it."""

    def __init__(self, modules):
        self.modules = {module.name.name: module for module in reversed(modules)}
        self.origin, self.scope, self.traps, self.depth, self.locals = None, {}, {}, 0, 0

    def make(self, form, *parts, signals=(), place=None, code=0):
        place = place or (self.origin.statement.start, self.origin.statement.end)
        return Kernel(form, parts, self.origin, signals, place, *codes_of(form, parts, code))

    def module(self, module, scope, runs):
        """The body of a module, in which its signals mean what the scope says."""
        kept = self.scope, self.traps, self.origin
        self.scope, self.traps = scope, {}
        self.origin = Origin(module.body, module.name.name, runs, self.origin.turns if self.origin else ())
        body = self.of(module.body)
        self.scope, self.traps, self.origin = kept
        return body

    def of(self, statement):
        """The kernel statement of a source statement; nothing for a part that is left out."""
        if statement is None:
            return self.make("Nothing")
        kept = self.origin
        self.origin = kept._replace(statement=statement)
        made = self.FORMS[statement.form](
            self, **{"the_" + key: it for key, it in statement.parts.items()}
        )
        self.origin = kept
        return made

    def turns(self, count, make):
        """What a function makes, once for each turn of a count, as a sequence."""
        kept, made = self.origin, []
        for number in range(1, count + 1):
            self.origin = kept._replace(turns=kept.turns + ((number, count),)) if count > 1 else kept
            made.append(make())
        self.origin = kept
        return self.seq(*made)

    def seq(self, *parts):
        """A list of statements as a sequence that nests to the right."""
        made = parts[-1]
        for part in reversed(parts[:-1]):
            made = self.make("Seq", part, made)
        return made

    def trap(self, body):
        """A trap of the kernel around what a function makes, which is told the trap."""
        self.depth += 1
        made = self.make("Trap", body(self.depth))
        self.depth -= 1
        return made

    def exit_to(self, trap):
        return self.make("Exit", code=2 + self.depth - trap)

    def meant(self, name):
        """What a name means here."""
        return (name.name, *self.scope[name.name])

    def new_signal(self, name):
        """A signal of its own, as the scope keeps it."""
        self.locals += 1
        return name, self.locals

    def tests(self, delay):
        """The signals that a delay or a test reads, and its place."""
        return {"signals": tuple(self.meant(name) for name in delay.names), "place": (delay.start, delay.end)}

    def test(self, delay, yes, no):
        return self.make("Present", yes, no, **self.tests(delay))

    # What is as it is.

    def nothing(self):
        return self.make("Nothing")

    def pause(self):
        return self.make("Pause")

    def emit(self, the_signal):
        return self.make("Emit", signals=(self.meant(the_signal),))

    def exit(self, the_trap):
        return self.exit_to(self.traps[the_trap.name])

    def group(self, the_body):
        return self.of(the_body)

    def sequence(self, the_parts):
        return self.seq(*map(self.of, the_parts))

    def parallel(self, the_parts):
        made = [self.of(part) for part in the_parts]
        while len(made) > 1:
            right = made.pop()
            made[-1] = self.make("Par", made[-1], right)
        return made[0]

    def loop(self, the_body):
        return self.make("Loop", self.of(the_body))

    def signal(self, the_signals, the_body):
        kept = self.scope
        self.scope = {**kept, **{it.name: self.new_signal(it.name) for it in the_signals}}
        made = self.of(the_body)
        for it in reversed(the_signals):
            made = self.make("Local", made, signals=(self.meant(it),))
        self.scope = kept
        return made

    # What is derived.

    def halt(self, place=None):
        return self.make("Loop", self.make("Pause", place=place))

    def sustain(self, the_signal):
        return self.make("Loop", self.seq(self.emit(the_signal), self.make("Pause")))

    def wait(self, delay):
        """`await` of a delay."""
        def turn(trap):
            tested = self.test(delay, self.exit_to(trap), self.make("Nothing"))
            pause = self.make("Pause", place=(delay.start, delay.end))
            return self.make("Loop", self.seq(*((tested, pause) if delay.immediate else (pause, tested))))
        return self.turns(max(1, delay.count), lambda: self.trap(turn))

    def awaited(self, the_delay, the_do):
        waited = self.wait(the_delay)
        return self.seq(waited, self.of(the_do)) if the_do else waited

    def any_of(self, cases):
        """The delay that waits for one of several cases."""
        names = tuple(name for test, _ in cases for name in test.names)
        return Delay(False, 0, names, cases[0][0].start, cases[-1][0].end)

    def await_cases(self, the_cases):
        return self.seq(self.wait(self.any_of(the_cases)), self.present_cases(the_cases, None))

    def present(self, the_delay, the_then, the_else):
        return self.test(the_delay, self.of(the_then), self.of(the_else))

    def present_cases(self, the_cases, the_else):
        bodies = [self.of(body) for _, body in the_cases]
        made = self.of(the_else)
        for (test, _), body in zip(reversed(the_cases), reversed(bodies)):
            made = self.test(test, body, made)
        return made

    def suspended(self, delay, body):
        return self.make("Suspend", body, **self.tests(delay))

    def watched(self, delay, body, outer):
        """A body that is aborted strongly, inside a trap; it leaves the outer trap where it ends by itself."""
        def inside(trap):
            leave = outer if outer is not None else trap
            if delay.count >= 2:
                counter = ("x", *self.new_signal("x"))
                return self.make("Local", self.counted(delay, body, trap, leave, counter), signals=(counter,))
            left = self.seq(self.suspended(delay, body()), self.exit_to(leave))
            pause = self.make("Pause", place=(delay.start, delay.end))
            right = self.make("Loop", self.seq(pause, self.test(delay, self.exit_to(trap), self.make("Nothing"))))
            both = self.make("Par", left, right)
            if delay.immediate and outer is not None:
                return self.test(delay, self.exit_to(trap), both)
            return both
        return self.trap(inside)

    def counted(self, delay, body, trap, leave, counter):
        """The two branches of an abort at the count of a delay."""
        held = self.make("Suspend", body(), signals=(counter,))
        left = self.seq(held, self.exit_to(leave))
        right = self.seq(self.wait(delay), self.make("Emit", signals=(counter,)), self.exit_to(trap))
        return self.make("Par", left, right)

    def abort(self, the_body, the_delay, the_do):
        if the_do:
            return self.aborted_then(the_delay, lambda: self.of(the_body), lambda: self.of(the_do))
        made = self.watched(the_delay, lambda: self.of(the_body), None)
        return self.test(the_delay, self.make("Nothing"), made) if the_delay.immediate else made

    def aborted_then(self, delay, body, then):
        return self.trap(lambda trap: self.seq(self.watched(delay, body, trap), then()))

    def abort_cases(self, the_body, the_cases):
        body, then = lambda: self.of(the_body), lambda: self.present_cases(the_cases, None)
        return self.aborted_then(self.any_of(the_cases), body, then)

    def weak_abort(self, the_body, the_delay):
        return self.trap(lambda trap: self.make(
            "Par", self.seq(self.of(the_body), self.exit_to(trap)), self.seq(self.wait(the_delay), self.exit_to(trap))
        ))

    def suspend(self, the_body, the_delay):
        def turn(trap):
            pause = self.make("Pause", place=(the_delay.start, the_delay.end))
            return self.make("Loop", self.test(the_delay, pause, self.exit_to(trap)))
        if the_delay.immediate:
            return self.seq(self.trap(turn), self.suspended(the_delay, self.of(the_body)))
        return self.suspended(the_delay, self.of(the_body))

    def loop_each(self, the_body, the_delay):
        delay = the_delay._replace(immediate=False)
        return self.make("Loop", self.watched(delay, lambda: self.seq(self.of(the_body), self.halt((delay.start, delay.end))), None))

    def every(self, the_delay, the_body):
        return self.seq(self.wait(the_delay), self.loop_each(the_body, the_delay))

    def repeat(self, the_count, the_body):
        return self.turns(the_count, lambda: self.of(the_body))

    def trapping(self, the_trap, the_body, the_handler, the_handled):
        del the_handled  # It names the trap once more.
        kept = self.traps

        def inside(trap, after=None):
            self.traps = {**kept, the_trap.name: trap}
            made = self.of(the_body)
            self.traps = kept
            return made if after is None else self.seq(made, self.exit_to(after))
        if the_handler is None:
            return self.trap(inside)
        return self.trap(lambda outer: self.seq(self.trap(lambda trap: inside(trap, outer)), self.of(the_handler)))

    def run(self, the_module, the_renamings):
        module = self.modules[the_module.name]
        actuals = {formal.name: actual.name for actual, formal in the_renamings}
        scope = {}
        for names in module.signals.values():
            for formal in names:
                actual = actuals.get(formal.name, formal.name)
                scope[formal.name] = self.scope[actual]
        return self.module(module, scope, self.origin.runs + (self.origin.statement.start,))

    FORMS = {
        "nothing": nothing, "pause": pause, "halt": halt, "emit": emit, "sustain": sustain, "exit": exit, "group": group,
        "sequence": sequence, "parallel": parallel, "loop": loop, "loop each": loop_each, "every": every, "repeat": repeat,
        "signal": signal, "await": awaited, "await cases": await_cases, "present": present, "present cases": present_cases,
        "abort": abort, "abort cases": abort_cases, "weak abort": weak_abort, "suspend": suspend, "trap": trapping, "run": run,
    }



def kernel_of(text, main=None):
    """The kernel tree of a source's main module."""
    try:
        modules = modules_of(text)
        named = [module for module in modules if main in (None, module.name.name)]
        scope = {it.name: (it.name, it.name) for names in named[0].signals.values() for it in names}
        return Expander(modules).module(named[0], scope, ())
    except (KeyError, IndexError, RecursionError) as error:
        raise Unread("no kernel: %s" % error) from error


def by_paths(body):
    """All kernel statements by their paths, in preorder."""
    found, waiting = {}, [("", body)]
    while waiting:
        path, now = waiting.pop()
        found[path or "."] = now
        waiting += [("%s.%d" % (path, number), part) for number, part in reversed(list(enumerate(now.parts)))]
    return found


def selection_lines(body):
    """The lines of a listing that its selection tree has, from the kernel tree."""
    lines, waiting = [], [("", body)] if body.resumes else []
    kinds = {"Pause": "leaf", "Seq": "excl", "Present": "excl", "Par": "par"}
    while waiting:
        path, now = waiting.pop()
        marks = " " + "".join(str((it.starts | it.resumes) & 1) for it in now.parts) if now.form == "Par" else ""
        lines.append("%s %s%s" % (kinds.get(now.form, "pass"), path or ".", marks))
        live = [number for number, part in enumerate(now.parts) if part.resumes]
        if now.form == "Seq" and not (now.parts[0].starts | now.parts[0].resumes) & 1:
            live = [number for number in live if number == 0]
        waiting += [("%s.%d" % (path, number), now.parts[number]) for number in reversed(live)]
    return lines


def agrees(body, listing):
    """Whether a kernel tree has just the selection tree of a listing."""
    told = [line for line in listing.splitlines() if line.split(" ")[0] in ("leaf", "excl", "par", "pass")]
    return told == selection_lines(body)


def compared_places(file, text, main=None):
    """The kernel statements by their paths, where this reading agrees with the program's listing of the file; else none."""
    answer = ask("grc", *main_words(main), file)
    if answer.status != DONE:
        return None
    try:
        body = kernel_of(text, main)
    except Unread:
        return None
    return by_paths(body) if agrees(body, answer.out.decode("latin-1")) else None
