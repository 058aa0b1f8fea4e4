"""Why the program refuses a trace, as notes at places of it, and a warning about a first instant whose inputs change nothing."""
import difflib
import os
import re
import tempfile

from cycles import compared_kernels, unknown_of
from explanation import Page, signal_words
from harmless import STUCK
from listing import wire_of
from program import DONE, TRACE, ask, main_words, read, write_file
from source import modules_of
from tokens import Unread, line_and_column
from traces import RESET

# How `cec run --via tri` ends at an instant that is not constructive.
NOT_CONSTRUCTIVE = re.compile(r"cec: instant (\d+): not constructive: (.*)")
FAULT = re.compile(r"cec: (?:instant (\d+)|byte (\d+)): (.*)")
FIRST = "the inputs of the first instant%s change nothing: an `await` does not see the instant in which it starts"
COMMENTS_OF_OTHERS = ("//", "/*", "--", "#")
EMPTY = "begin %s with an empty instant, `;`"


def plain_trace(text):
    """A trace with spaces in place of its comments."""
    return re.sub(r"%[^\n]*", lambda it: " " * len(it[0]), text)


def groups_at(text):
    """The places of the instants of a trace, resets not counted: where each begins and where it ends."""
    return [place for stretch in stretches_at(text) for place in stretch]


def stretches_at(text):
    """The same, as a list for each stretch between resets; the first one is that before the first reset."""
    found, start = [[]], 0
    for part in re.findall(r"[^;]*;?", plain_trace(text)):
        end = start + len(part)
        if part.rstrip(";").strip() == RESET:
            found.append([])
        elif part.strip():
            found[-1].append((start + len(part) - len(part.lstrip()), end))
        start = end
    return found


def main_module(source, main):
    """The main module of a source; none where this reading does not follow it."""
    try:
        return next((it for it in modules_of(read(source)) if main in (None, it.name.name)), None)
    except Unread:
        return None


def name_at(text, place, name, last=False):
    """Where a name is in an instant, its first or its last occurrence."""
    found = [it.start() for it in re.finditer(r"(?<!\w)%s(?!\w)" % re.escape(name), text[place[0] : place[1]])]
    return place[0] + (found[-1 if last else 0] if found else 0)


def unknown_input(page, at, name, module):
    """What could be meant by a name that is no input."""
    given = [it.name for kind in ("input", "inputoutput") for it in module.signals[kind]] if module else []
    near = difflib.get_close_matches(name.lower(), {it.lower(): it for it in given}, 3, 0.6)
    if name.startswith(COMMENTS_OF_OTHERS):
        page.add(at, "note", "a comment in a trace is written `%` and the rest of the line")
    elif "," in name:
        page.add(at, "note", "names are separated by spaces, without commas")
    elif module and name in [it.name for it in module.signals["output"]]:
        page.add(at, "note", "%s is an output; a trace has the inputs of each instant" % name)
    elif near:
        page.add(at, "note", "did you mean %s?" % " or ".join(it for it in given if it.lower() in near))
    else:
        page.add(at, "note", "the inputs of the program: %s" % (", ".join(given) or "none"))


def broken_relation(page, at, number, source, module):
    """The words of a relation that an instant breaks."""
    if module and number <= len(module.relations):
        kind, names = module.relations[number - 1]
        words = (" %s " % kind).join(it.name for it in names)
        line = line_and_column(read(source), names[0].start)[0]
        meant = "no two of these are present in one instant" if kind == "#" else "where the first is present, the second is too"
        page.add(at, "note", "relation %d is `%s`, in line %d of %s: %s" % (number, words, line, source, meant))


def trace_fault(page, line, source, main):
    """The notes about a fault of a trace."""
    match = FAULT.match(line)
    if not match:
        page.add(None, "error", line.removeprefix("cec: "))
        return
    words, groups, module = match[3], groups_at(page.text), main_module(source, main)
    if match[2]:
        page.add(int(match[2]), "error", words)
        page.add(int(match[2]), "note", "a trace has names, spaces, `;`, and comments after `%`")
        return
    place = groups[int(match[1]) - 1] if int(match[1]) <= len(groups) else (len(page.text), len(page.text))
    fault, _, name = words.rpartition(" ")
    at = name_at(page.text, place, name, fault == "repeated") if fault in ("unknown input", "repeated") else place[0]
    page.add(at, "error", "instant %s: %s" % (match[1], words))
    if fault == "unknown input":
        unknown_input(page, at, name, module)
    elif fault == "breaks relation":
        broken_relation(page, at, int(name), source, module)
    elif fault == "repeated":
        page.add(at, "note", "each input is given once in an instant")
    elif words == "open":
        page.add(at, "note", "each instant ends with `;`, the last one too")
    elif words == "bad reset":
        page.add(at, "note", "a reset is a group of its own: `%s;`" % RESET)


def lines_of_run(source, main, text):
    """The lines of a run over a trace; none where it is refused."""
    with tempfile.TemporaryDirectory() as folder:
        name = os.path.join(folder, "shown.trace")
        write_file(name, text)
        answer = ask("run", "--via", "blif", *main_words(main), source, name)
    return answer.out if answer.status == DONE else None


def first_instants(page, source, main):
    """Warnings about inputs that change no line up to the next reset: those of the first instant, and of each first one after a reset.
    The program is asked without all of them at once, since a reset leaves nothing of what was before it."""
    text, stretches = plain_trace(page.text), stretches_at(page.text)
    without, is_given = text, []
    for stretch in stretches:
        start, end = stretch[0] if stretch else (0, 0)
        is_given.append(bool(text[start:end].rstrip(";").strip()))
        without = without[:start] + re.sub(r"[^;\n]", " ", without[start:end]) + without[end:]
    if not any(is_given):
        return
    given, blank = (lines_of_run(source, main, it) for it in (text, without))
    if given is None or blank is None:
        return
    lines, at = list(zip(given.splitlines(), blank.splitlines())), 0
    for number, stretch in enumerate(stretches):
        if is_given[number] and all(one == other for one, other in lines[at : at + len(stretch)]):
            page.add(stretch[0][0], "warning", FIRST % (" after a reset" if number else ""))
            page.add(stretch[0][0], "note", EMPTY % ("again" if number else "the trace"))
        at += len(stretch)


def where_run(page, origin):
    """The module of a place and the line of the run that led there, in brackets; nothing for the main module."""
    return " (in module %s, run at line %d)" % (origin.module, line_and_column(page.text, origin.runs[-1])[0]) if origin.runs else ""


def explain_unknown(page, unknown):
    """A note for each test of an unknown signal, and for each emission that may happen. Several kernel statements of one place, as
    those of an `abort`, or of the turns of a `repeat`, have one note."""
    words = {"test": "%s is tested here, and stays unknown in this instant", "emission": "whether %s is emitted here stays unknown"}
    notes = [(it.kernel.place[0], words[it.kind] % signal_words(it.signal) + where_run(page, it.kernel.origin)) for it in unknown]
    for at, note in dict.fromkeys(notes):
        page.add(at, "note", note, True)


def stuck_explained(trace, source, main=None):
    """The pages of a trace and of its source whose dependencies form a cycle, and the status of `cec run --via tri` over the trace."""
    answer = ask("run", "--via", "tri", *main_words(main), source, trace)
    page, of_source = Page(trace, read(trace) if answer.status in (DONE, TRACE, STUCK) else ""), Page(source, read(source))
    lines = answer.err.decode("latin-1").strip().splitlines()
    if answer.status == TRACE:
        trace_fault(page, lines[-1], source, main)
    elif answer.status == STUCK and NOT_CONSTRUCTIVE.match(lines[-1]):
        match, groups = NOT_CONSTRUCTIVE.match(lines[-1]), groups_at(page.text)
        wires = [wire_of(text) for text in match[2].split(", ")]
        kernels = compared_kernels(of_source.text, main)
        page.add(groups[int(match[1]) - 1][0], "error", "instant %s: not constructive" % match[1])
        if kernels and None not in wires:
            explain_unknown(of_source, unknown_of(wires, kernels))
        else:
            page.add(None, "note", "the unknown wires: " + match[2])
    elif answer.status == DONE:
        page.add(None, "note", "each instant of this trace is constructive")
    else:
        page.add(None, "error", lines[-1].removeprefix("cec: ") if lines else "status %d" % answer.status)
    return page, of_source, answer.status


def trace_explained(trace, source, main=None, wants_lint=False):
    """The page of a trace, and the status of `cec run` over it."""
    answer = ask("run", "--via", "blif", *main_words(main), source, trace)
    page = Page(trace, read(trace) if answer.status in (DONE, TRACE) else "")
    lines = answer.err.decode("latin-1").strip().splitlines()
    if answer.status == TRACE:
        trace_fault(page, lines[-1], source, main)
    elif answer.status != DONE:
        page.add(None, "error", lines[-1].removeprefix("cec: ") if lines else "status %d" % answer.status)
    elif wants_lint:
        first_instants(page, source, main)
    return page, answer.status
