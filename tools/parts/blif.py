"""BLIF texts of the profile of docs/formats.md, as lines: read and written again, with nothing said of what they compute."""
import re
from typing import NamedTuple

from program import BAD_TEXT, Stop

WORD = re.compile(r"[!-~]+")


class Latch(NamedTuple):
    """A latch: the net that it takes, its own name, and its first value."""

    source: str
    name: str
    init: str


class Blif(NamedTuple):
    """A text: its name, its inputs, outputs and latches in order, and its tables, each with its names and its rows."""

    model: str
    inputs: list
    outputs: list
    latches: list
    tables: list

    def names(self):
        """All names that the text has."""
        found = set(self.inputs) | set(self.outputs)
        found.update(name for latch in self.latches for name in latch[:2])
        return found.union(*(names for names, _ in self.tables))

    def text(self, latch_words=""):
        """The text again, its latches with these words before their first value."""
        lines = [".model %s" % self.model]
        lines += [".inputs %s" % " ".join(self.inputs)] if self.inputs else []
        lines += [".outputs %s" % " ".join(self.outputs)]
        lines += [".latch %s %s %s%s" % (it.source, it.name, latch_words, it.init) for it in self.latches]
        for names, rows in self.tables:
            lines.append(".names %s" % " ".join(names))
            lines += rows
        return "\n".join(lines + [".end", ""])


def numbered_lines(text):
    """The lines of a text with the numbers of their first parts: comments taken out, continued lines joined."""
    joined, start = "", None
    for number, line in enumerate(text.replace("\r\n", "\n").split("\n"), 1):
        start = start or number
        line = line.partition("#")[0]
        if line.endswith("\\"):
            joined += line[:-1]
            continue
        yield start, (joined + line).split()
        joined, start = "", None


def blif_of(text):
    """The parts of a text of the profile. The program alone tells whether a text is of it; here it is only cut up."""
    found = Blif("", [], [], [], [])
    for number, words in numbered_lines(text):
        if not words:
            continue
        head, rest = words[0], words[1:]
        if head == ".model":
            found = found._replace(model=" ".join(rest))
        elif head == ".inputs":
            found.inputs.extend(rest)
        elif head == ".outputs":
            found.outputs.extend(rest)
        elif head == ".latch" and len(rest) == 3 and rest[2] in "01":
            found.latches.append(Latch(*rest))
        elif head == ".names" and rest:
            found.tables.append((rest, []))
        elif head == ".end":
            return found
        elif head[0] in "01-" and found.tables and words[-1] == "1":
            found.tables[-1][1].append(" ".join(words))
        else:
            raise Stop(BAD_TEXT, "line %d: not in the profile" % number)
    raise Stop(BAD_TEXT, "the text has no .end")
