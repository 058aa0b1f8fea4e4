"""Why the program refuses a source, as notes at places of it: for tools/explain, which prints them, and for the language server."""
import difflib
import re
from typing import NamedTuple

import lint
from cycles import compared_kernels, cures_of, steps_of, wires_in
from faults import why_bad_byte, why_bad_count, why_bad_renaming
from habits import after_declaration, habit_note
from harmless import SECONDS, outlook
from limits import limit_notes
from loops import mends_of, way_words
from places import compared_places
from porting import row_at
from program import CYCLIC, DONE, LIMIT, STATIC, ask, main_words, read
from source import all_statements, modules_of
from syntax import PLACE, fault_of, in_words, tokens_that_could
from tokens import Unread, byte_at, line_and_column, line_at

NOTES = {
    "open comment": "no }% follows; comments do not nest",
    "number too large": "a number is below 2^128",
    "not an input": "a relation is between inputs and inputoutputs of its module",
    "recursive run": "a module cannot run itself, directly or through others",
    "input emitted": "an input comes from outside; declare a signal that is both as inputoutput",
    "instantaneous loop": "the body of this loop can end in the instant in which it starts; put a pause on each way through it",
}
WHERE_DECLARED = {
    "signal": "declare it: `input NAME;` or `output NAME;` before the body, or `signal NAME in p end` around its use",
    "trap": "an `exit NAME` is inside of its block, `trap NAME in .. end`; a module does not see a trap around its `run`: use a signal",
    "module": "a file has all its modules: write `module NAME: .. end module` into it",
}
FIRST_IS = {"module declared twice": "module", "signal declared twice": "signal"}
# Faults of tokens, which the program reports before any fault of the grammar.
OF_TOKENS = ("bad byte", "open comment", "number too large")


class Note(NamedTuple):
    """A note: its place and the place after it, `error`, `warning` or `note`, its words, and whether its line is shown."""

    at: int
    end: int
    kind: str
    words: str
    shows: bool


class Page:
    """The notes about one source, in order. A note without a place is one about the file."""

    def __init__(self, file, text):
        self.file, self.text, self.notes = file, text, []

    def add(self, at, kind, words, shows=None):
        """A note about a place; the line of an error or a warning is shown below it, and that of a note where it is asked for."""
        end = at if at is None else at + len(re.match(r"\w*", self.text[at:])[0] or self.text[at : at + 1])
        self.notes.append(Note(at, end, kind, words, kind != "note" if shows is None else shows))

    def without_errors(self):
        """Makes each error a note, where the program does what it was asked for in spite of it."""
        self.notes = [it._replace(kind="note") if it.kind == "error" else it for it in self.notes]

    def lines(self):
        """The notes as lines of the form FILE:LINE:COLUMN: that compilers have, each with its line of the source where it is shown."""
        for note in self.notes:
            if note.at is None:
                yield "%s: %s: %s" % (self.file, note.kind, note.words)
                continue
            line, column = line_and_column(self.text, note.at)
            yield "%s:%d:%d: %s: %s" % (self.file, line, column, note.kind, note.words)
            if note.shows:
                shown = line_at(self.text, line)
                yield "  " + shown
                # A column is counted in bytes, and a reader sees characters.
                before = shown[: column - 1].encode("latin-1").decode("utf-8", "replace")
                yield "  " + re.sub(r"[^\t]", " ", before) + "^"


def names_of_kind(text, at, kind):
    """The names of signals, modules or traps that could be meant at a place: those of the module around it."""
    try:
        modules = modules_of(text)
    except Unread:
        return []
    if kind == "module":
        return [module.name.name for module in modules]
    here = [module for module in modules if module.name.start <= at][-1]
    statements = list(all_statements(here.body))
    if kind == "trap":
        return [it.parts["trap"].name for it in statements if it.form == "trap"]
    found = [it.name for names in here.signals.values() for it in names]
    return found + [it.name for statement in statements for it in statement.parts.get("signals", ())]


def near_names(page, at, kind):
    """A note with the names that are near an unknown one."""
    name = re.match(r"\w*", page.text[at:])[0]
    names = {it.lower(): it for it in names_of_kind(page.text, at, kind) if it != name}
    near = difflib.get_close_matches(name.lower(), names, 3, 0.6)
    if near:
        page.add(at, "note", "did you mean %s?" % " or ".join(names[it] for it in near))
    elif name in names.values() or name in names_of_kind(page.text, at, kind):
        page.add(at, "note", "the %s %s is not visible here, outside of its body" % (kind, name))
    else:
        page.add(at, "note", WHERE_DECLARED[kind].replace("NAME", name))


def earlier_name(page, at):
    """A note with the place at which a name was declared before."""
    name = re.match(r"\w*", page.text[at:])[0]
    try:
        modules = modules_of(page.text)
    except Unread:
        return
    declared, kinds = [module.name for module in modules], {}
    for module in modules:
        kinds.update((it.start, kind) for kind, names in module.signals.items() for it in names)
        declared += [it for names in module.signals.values() for it in names]
        declared += [it for statement in all_statements(module.body) for it in statement.parts.get("signals", ())]
    before = [it.start for it in declared if it.name == name and it.start < at]
    if before:
        page.add(max(before), "note", "it was declared here")
        if {kinds.get(at), kinds.get(max(before))} == {"input", "output"}:
            page.add(at, "note", "a signal that comes from outside and is emitted too is declared once: `inputoutput %s;`" % name)


def syntax_notes(page, at):
    """Notes about a fault of syntax: the form of Esterel V5 or of other languages that is written there, and what could follow."""
    tokens = tokens_that_could(page.text, at)
    row = row_at(page.text, at, tokens)
    missing = after_declaration(page.text, at, tokens)
    if row:
        page.add(at, "note", "%s (docs/from_v5.md)" % row.words())
    elif missing:
        page.add(missing[0], "note", missing[1], missing[0] != at)
    else:
        note = habit_note(page.text, at, tokens)
        if note:
            page.add(at, "note", note)
    page.add(at, "note", "expected here: %s" % in_words(tokens))


def earlier_fault(page, at):
    """Where a fault of tokens hides one of the grammar before it, that one first: it is where a reader looks."""
    place, fault = fault_of(page.text[:at])
    if fault != "syntax" or place >= len(page.text[:at].rstrip()):
        return
    page.add(place, "error", "syntax (cec reports the fault of a token further on, since it reads all tokens first)")
    syntax_notes(page, place)


def explain_loop(page, at, main, wants_cures):
    """The notes about a loop whose body can end at once: a way through it, and pauses that make the fault go."""
    way = way_words(page.text, at)
    if way:
        page.add(at, "note", way)
    mends, untried = mends_of(page.text, main, at) if wants_cures else ([], 0)
    for place, leaves_fault in mends:
        what = {
            "pause; ": "a `pause;` here mends the loop: " + what_a_pause_changes(place.statement),
            "; pause": "a `; pause` here mends the loop: what follows then starts one instant later",
            "else pause ": "an `else pause` here mends the loop: the `present` then takes an instant where it takes no branch",
        }[place.insert]
        page.add(place.at, "note", what + ("; another fault is left" if leaves_fault else ""))
    if untried:
        page.add(at, "note", "places for a `pause` that were not tried: %d" % untried)


def explain_static(page, line, main, wants_cures):
    """The notes about a static fault."""
    match = PLACE.match(line)
    if not match:
        page.add(None, "error", line.removeprefix("cec: "))
        return
    at, fault = byte_at(page.text, int(match[1]), int(match[2])), match[3].strip()
    if fault in OF_TOKENS:
        earlier_fault(page, at)
    page.add(at, "error", fault)
    if fault == "syntax":
        syntax_notes(page, at)
    elif fault == "bad byte":
        page.add(at, "note", why_bad_byte(page.text, at))
    elif fault == "bad count":
        for words in why_bad_count(page.text, at):
            page.add(at, "note", words)
    elif fault == "bad renaming":
        for words in why_bad_renaming(page.text, at):
            page.add(at, "note", words)
    elif fault.startswith("unknown "):
        near_names(page, at, fault.removeprefix("unknown "))
    elif fault in FIRST_IS:
        earlier_name(page, at)
    elif fault.startswith("unbound "):
        name = fault.removeprefix("unbound ")
        module = re.match(r"\w*", page.text[at:])[0]
        page.add(at, "note", "no signal %s is visible here; write `run %s [signal YOURS/%s]`" % (name, module, name))
    else:
        note = next((words for head, words in NOTES.items() if fault.startswith(head)), None)
        if note:
            page.add(at, "note", note)
        if fault == "instantaneous loop":
            explain_loop(page, at, main, wants_cures)


def signal_words(signal):
    """A signal's name at its place, with its name in the cycle where that is another."""
    written, meant, _ = signal
    return written if written == meant else "%s, which is %s," % (written, meant)


def explain_steps(page, steps):
    """A note for each step of a cycle."""
    start = next(number for number, step in enumerate(steps) if step.kind == "test")
    for step in steps[start:] + steps[:start]:
        origin = step.kernel.origin
        where = ""
        if origin.runs:
            where = " (in module %s, run at line %d)" % (origin.module, line_and_column(page.text, origin.runs[-1])[0])
        words = {
            "test": "%s is tested here" % signal_words(step.signal) if step.signal else "",
            "emission": "and so %s may be emitted here, in the same instant" % signal_words(step.signal) if step.signal else "",
            "then": "the statement here starts once the one before it has ended",
            "again": "the loop starts again here",
        }[step.kind]
        page.add(step.kernel.place[0], "note", words + where, step.kind in ("test", "emission"))


def what_a_pause_changes(statement):
    """What changes with a pause before a statement."""
    if statement.form in ("emit", "sustain"):
        return "%s is then emitted one instant later" % statement.parts["signal"].name
    if statement.form.startswith("present") or statement.form.startswith("await"):
        return "the test here then looks one instant later"
    return "the statement here then starts one instant later"


def what_changes(cure):
    """What a cure changes."""
    if cure.is_weak:
        return "the body then still runs in the instant in which it is aborted"
    return what_a_pause_changes(cure.statement)


def explain_cycle(page, line, main, wants_cures):
    """The notes about a cycle."""
    wires = wires_in(line)
    kernels = compared_kernels(page.text, main) if wires else None
    steps = steps_of(wires, kernels) if kernels else None
    if not steps or not any(step.kind == "test" for step in steps):
        page.add(None, "error", line.strip().removeprefix("cec: "))
        page.add(None, "note", "the statements of the cycle are not shown, since this tool may read the source wrongly")
        return
    signals = list(dict.fromkeys(step.signal[1] for step in steps if step.kind == "test"))
    first = next(step for step in steps if step.kind == "test")
    chain = " -> ".join(signals + signals[:1])
    page.add(first.kernel.place[0], "error", "cyclic: in the same instant each of these signals waits for the one before it: %s" % chain, False)
    explain_steps(page, steps)
    if wants_cures:
        cures = cures_of(page.text, main, {step.kernel.origin.module for step in steps})
        for cure in cures:
            what = "a `pause;`" if not cure.is_weak else "`weak abort` in place of `abort`"
            page.add(cure.statement.start, "note", "%s here breaks the cycle: %s" % (what, what_changes(cure)))
        if not cures:
            page.add(first.kernel.place[0], "note", "no single `pause;` breaks all cycles; docs/cycles.md has other cures")


def explain_outlook(page, file, main, seconds=SECONDS):
    """The last notes about a cycle: whether it is harmless, as far as that is known."""
    for words in outlook(file, page.text, main, seconds):
        page.add(page.notes[0].at, "note", words, False)


def explain_limit(page, line, main):
    """The notes about a limit that the source passes."""
    page.add(None, "error", line)
    for at, words in limit_notes(page.text, main, line.removeprefix("limit: ")):
        page.add(at, "note", words, at is not None)
    page.add(None, "note", "docs/formats.md lists the limits")


def explain_lint(page, file, main):
    """The warnings about a source that is accepted."""
    agrees = compared_places(file, page.text, main) is not None
    for warning in lint.warnings_of(page.text, main, agrees):
        page.add(warning.at, "warning", warning.words)
        page.add(warning.at, "note", warning.advice)


def explained(file, main=None, wants_cures=True, wants_lint=False, shown=None):
    """The page of a file, and the status of `cec check`; the lines have the shown name where one is given. Whether a cycle is
    harmless is not looked for; `explain_outlook` does that."""
    answer = ask("check", *main_words(main), file)
    line = answer.err.decode("latin-1").strip()
    page = Page(shown or file, read(file) if answer.status in (DONE, STATIC, CYCLIC, LIMIT) else "")
    if answer.status == STATIC:
        explain_static(page, line, main, wants_cures)
    elif answer.status == CYCLIC:
        explain_cycle(page, line, main, wants_cures)
    elif answer.status == LIMIT:
        explain_limit(page, line.removeprefix("cec: "), main)
    elif answer.status != DONE:
        page.add(None, "error", line.removeprefix("cec: "))
    elif wants_lint:
        explain_lint(page, file, main)
    return page, answer.status
