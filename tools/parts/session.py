"""Runs of a source that also show what it does inside: the pauses that are held, the statements that emit, its local signals.

The lines are those of `cec run`. The pauses are latches of the BLIF text: latch 0 is the first instant's, and latch K + 1 is leaf K.
Emissions and local signals are wires of the listing, which the guarded C text has under the same numbers. `cec exec` shows both
as outputs of these texts. A source with a cycle has no text: it is run by three-valued reactions, with its lines alone.
"""
import os
import re
import tempfile
from typing import NamedTuple

from blif import blif_of
from listing import listing_of, wire_of
from places import compared_places
from program import CYCLIC, DONE, Stop, ask, main_words, read, text_of, write_file
from source import modules_of
from tokens import Unread, line_and_column
from traces import RESET, lines_of, trace_of

NOT_CONSTRUCTIVE = 12
# What begins the words of a place that is a test, by the form of its statement.
HEADS = {"await": "await ", "await cases": "await ", "every": "every ", "loop each": "each ", "abort": "when ", "abort cases": "when ",
         "weak abort": "when ", "suspend": "when "}


class Inside(NamedTuple):
    """What happened inside a program in an instant: the places of statements that emitted, each with its signal; and the local
    signals that were present, by their labels."""

    emitted: list
    locals: list


def leaves_of(source, text, main, latches):
    """The kernel statement of each leaf; none where the tools' reading of the source does not agree with the listing."""
    kernels = compared_places(source, text, main)
    listing = text_of("grc", *main_words(main), source)
    paths = [line.split(" ")[1] for line in listing.splitlines() if line.startswith("leaf ")]
    return None if kernels is None or len(paths) != latches else [kernels[path] for path in paths]


def words_of_leaf(text, kernel):
    """What a leaf waits for, in the words of the source."""
    start, end = kernel.place
    words = " ".join(text[start:end].split()).encode("latin-1").decode("utf-8", "replace")
    is_test = start != kernel.origin.statement.start
    return (HEADS.get(kernel.origin.statement.form, "") if is_test else "") + words


def labels_of(text, kernels):
    """A label for each local signal of the source, by the path of its binder: its name, with lines where names meet."""
    found = {path: it for path, it in kernels.items() if it.form == "Local" and it.origin.statement.form == "signal"}
    line = lambda place: str(line_and_column(text, place)[0])
    ways = [
        lambda it: it.signals[0][1],
        lambda it: "%s:%s" % (it.signals[0][1], line(it.origin.statement.start)),
        lambda it: "%s:%s" % (it.signals[0][1], "/".join(map(line, (it.origin.statement.start, *it.origin.runs)))),
        lambda it: "%s:%s#%d" % (it.signals[0][1], line(it.origin.statement.start), it.signals[0][2]),
    ]
    labels = {}
    for way in ways:
        words = {path: way(it) for path, it in found.items() if path not in labels}
        all_words = list(words.values())
        labels.update((path, word) for path, word in words.items() if all_words.count(word) == 1)
    return labels


def showing_text(text, wires):
    """A guarded C text with these wires as outputs; a wire of a block that does not run is 0."""
    declared = set(re.findall(r"^int (w\d+);$", text, re.MULTILINE))
    wanted = {"w%d" % wire for wire in wires} & declared
    lines, first, second, is_open = [], [], [], False
    for line in text.splitlines():
        if line.startswith("int react("):
            lines += ["int O__%s;" % name for name in sorted(wanted)]
        if line.startswith("if ("):
            is_open, first, second = True, [], None
        elif line == "} else {":
            second = []
        elif line == "}" and is_open:
            missing = [name for name in first if name in wanted and name not in (second or [])]
            lines += ["} else {"] if missing and second is None else []
            lines += ["%s = 0;" % name for name in missing]
            is_open = False
        elif is_open:
            (first if second is None else second).append(line.split(" ")[0])
        if line.startswith("return "):
            lines += ["O__%s = %s;" % (name, name) for name in sorted(wanted)]
        lines.append(line)
    return "\n".join(lines + [""])


class Session:
    """A source that is run over groups of a trace, inside a folder of its own."""

    def __init__(self, source, main=None, takes_cycles=False):
        self.source, self.main, self.text = source, main, read(source)
        self.folder = tempfile.TemporaryDirectory(prefix="cec-session-")
        self.leaves, self.places, self.emitters, self.labels, self.is_cyclic = None, None, {}, {}, False
        answer = ask("check", *main_words(main), source)
        if takes_cycles and answer.status == CYCLIC:
            self.is_cyclic = True
            self.take_interface()
        else:
            self.take_texts()

    def take_interface(self):
        """The signals of a source that has no text, from its main module."""
        try:
            modules = modules_of(self.text)
        except Unread as error:
            raise Stop(CYCLIC, "the dependencies have a cycle, and the interface is not read") from error
        signals = next(it for it in modules if self.main in (None, it.name.name)).signals
        both = [it.name for it in signals["inputoutput"]]
        self.inputs = [it.name for it in signals["input"]] + both
        self.outputs = both + [it.name for it in signals["output"]]

    def take_texts(self):
        """The signals, the latches and the wires of the texts, with their places in the source."""
        blif = blif_of(text_of("blif", *main_words(self.main), self.source))
        self.inputs = blif.inputs
        self.outputs = [name.removesuffix(".out") for name in blif.outputs[:-1]]
        self.blif_file, self.c_file = (os.path.join(self.folder.name, name) for name in ("shown.blif", "shown.c"))
        shown = ["_s%d" % number for number in range(1, len(blif.latches))]
        write_file(self.blif_file, blif._replace(outputs=shown + blif.outputs[-1:]).text())
        kernels = compared_places(self.source, self.text, self.main)
        listing = listing_of(text_of("grc", *main_words(self.main), self.source))
        paths = [path for path, kind in listing.kinds.items() if kind == "leaf"]
        if kernels is None or len(paths) != len(shown):
            return
        self.leaves = [kernels[path] for path in paths]
        self.places = [kernel.place for kernel in self.leaves]
        self.take_wires(listing, kernels)

    def take_wires(self, listing, kernels):
        """Which wires say that a statement emits, and that a local signal is present."""
        self.labels = labels_of(self.text, kernels)
        bound = {kernels[path].signals[0][1:]: label for path, label in self.labels.items()}
        for number, wire in enumerate(listing.wires):
            kernel = kernels.get(wire.path)
            if wire.kind == "go" and kernel.form == "Emit" and kernel.origin.statement.form in ("emit", "sustain"):
                signal = kernel.signals[0][1:]
                self.emitters[number] = (kernel.place, bound.get(signal, signal[0]), None)
            elif wire.kind == "st" and wire.path in self.labels:
                self.emitters[number] = (None, None, self.labels[wire.path])
        write_file(self.c_file, showing_text(text_of("c", "--guard", *main_words(self.main), self.source), self.emitters))

    def local_names(self):
        """The labels of the local signals, in the order of the source."""
        return list(self.labels.values())

    def stop_lines(self):
        """The lines of the source on which the program can wait or emit."""
        places = [*(self.places or ()), *(place for place, _, _ in self.emitters.values() if place)]
        return {line_and_column(self.text, start)[0] for start, _ in places}

    def lines(self, groups):
        """The lines of the program over these groups; the program's fault where a group is none of its."""
        name = os.path.join(self.folder.name, "given.trace")
        write_file(name, trace_of(groups))
        answer = ask("run", "--via", "tri" if self.is_cyclic else "blif", *main_words(self.main), self.source, name)
        if answer.status == NOT_CONSTRUCTIVE:
            raise Stop(NOT_CONSTRUCTIVE, not_constructive(answer.err.decode("latin-1").strip()))
        if answer.status != DONE:
            raise Stop(answer.status, answer.err.decode("latin-1").strip().removeprefix("cec: "))
        return lines_of(answer.out.decode("latin-1"))

    def inside(self, groups):
        """For each instant of these groups what happened inside."""
        if self.places is None or not self.emitters:
            return [Inside([], []) for group in groups if group != [RESET]]
        name = os.path.join(self.folder.name, "inside.trace")
        write_file(name, trace_of(groups))
        printed = text_of("exec", "--via", "guard", self.c_file, name).splitlines()
        found = []
        for line in lines_of("\n".join(line for line in printed if not line.startswith("assignments "))):
            wires = [self.emitters[int(it[2:])] for it in line.present if it.startswith("_w")]
            emitted = sorted({(place, signal) for place, signal, label in wires if place})
            present = {label for _, _, label in wires if label}
            found.append(Inside(emitted, [it for it in self.labels.values() if it in present]))
        return found

    def held(self, groups):
        """For each instant of these groups the places of the pauses that are held after it, in the order of the source."""
        if self.places is None:
            return [[] for group in groups if group != [RESET]]
        # A silent instant before each reset, and after the last instant, shows what is held then.
        asked, kept = [], []
        for group in groups + [[RESET]]:
            if group == [RESET]:
                asked += [[], [RESET]]
                kept += [False]
            else:
                asked.append(group)
                kept += [True]
        name = os.path.join(self.folder.name, "shown.trace")
        write_file(name, trace_of(asked))
        lines = lines_of(text_of("exec", "--via", "blif", self.blif_file, name))
        found = []
        for number, is_kept in enumerate(kept):
            if is_kept:
                leaves = [int(net[2:]) - 1 for net in lines[number + 1].present]
                found.append(sorted({self.places[leaf] for leaf in leaves}))
        return found


def not_constructive(line):
    """A line about an instant that is not constructive, with the signals that stay unknown in place of wires."""
    match = re.fullmatch(r"cec: (instant \d+): not constructive: (.*)", line)
    wires = [wire_of(text) for text in match[2].split(", ")] if match else []
    names = list(dict.fromkeys(wire.what for wire in wires if wire and wire.kind in ("out", "st")))
    return "%s is not constructive: %s stay unknown" % (match[1], ", ".join(names) or "some wires") if match else line
