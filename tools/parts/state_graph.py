"""The graph of a program's reachable states as a text for Graphviz, a drawing, or lines of words; each edge is run by the program."""
import shutil
import subprocess
import tempfile
from collections import Counter

from automaton import Automaton, replay
from blif import blif_of
from program import MISSING, USAGE, Stop, main_words, read, text_of
from relations import check_pairs, forbidden_pairs
from session import leaves_of, words_of_leaf
from tokens import line_and_column

SHOWN_WAITS, SHOWN_WORDS = 4, 28


def quoted(text):
    """A text as a string of Graphviz."""
    return '"%s"' % text.replace("\\", "\\\\").replace('"', '\\"').replace("\n", "\\n")


def leaf_labels(text, leaves):
    """What each leaf waits for: a line, its words, and in brackets the turns of the counts around it. Where leaves of several runs of
    a module have the same label, they have the lines of the runs too."""
    labels, runs = [], {}
    for kernel in leaves:
        words = words_of_leaf(text, kernel)
        shown = words if len(words) <= SHOWN_WORDS else words[: SHOWN_WORDS - 2] + ".."
        turns = ["%d of %d" % it for it in kernel.origin.turns]
        labels.append(("%d: %s" % (line_and_column(text, kernel.place[0])[0], shown), turns))
        runs.setdefault(str(labels[-1]), set()).add(kernel.origin.runs)
    found = []
    for (words, turns), kernel in zip(labels, leaves):
        lines = ["run at line %s" % "/".join(str(line_and_column(text, it)[0]) for it in kernel.origin.runs)]
        inner = turns + (lines if len(runs[str((words, turns))]) > 1 else [])
        found.append(words + (" (%s)" % ", ".join(inner) if inner else ""))
    return found


class Graph:
    """The states and the edges that are drawn, with what the program waits for in each state."""

    def __init__(self, automaton, merges, text, leaves):
        self.automaton, self.leaves = automaton, leaves
        self.labels = leaf_labels(text, leaves or [])
        own = list(range(len(automaton.states)))
        self.numbers = automaton.classes() if merges else own
        self.exact = automaton.edges(own)
        self.edges = automaton.edges(self.numbers) if merges else self.exact
        self.members, self.common = {}, None
        for state, number in enumerate(self.numbers):
            self.members.setdefault(number, []).append(state)

    def waits(self, state):
        """What the program waits for in a state, in the order of the source: a line and its words."""
        if self.leaves is None:
            return []
        held = [at - 1 for at, value in enumerate(self.automaton.states[state]) if value and at > 0]
        return list(dict.fromkeys(self.labels[leaf] for leaf in sorted(held, key=lambda it: self.leaves[it].place)))

    def name(self, number):
        """What a state is called: the start, the end, or its number."""
        if 0 in self.members[number]:
            return "start"
        first = self.members[number][0]
        return "ended" if not any(self.automaton.states[first][1:]) and not self.pauses(first) else "state %d" % number

    def pauses(self, state):
        """Whether the program waits in a state: some step into it says so."""
        return any(edge.pauses for edge in self.exact if edge.end == state)

    def telling(self, waits):
        """Of some places at which the program waits the few that are shown: those that the fewest states have, in order."""
        if self.common is None:
            self.common = Counter(wait for number in self.members for wait in self.waits(self.members[number][0]))
        rare = sorted(waits, key=lambda it: self.common[it])[:SHOWN_WAITS]
        return [wait for wait in waits if wait in rare]

    def label(self, number):
        """The lines of a state: its name, what it waits for, and how many states it stands for."""
        lines = [self.name(number)]
        waits = self.waits(self.members[number][0])
        lines += self.telling(waits) + (["and %d more" % (len(waits) - SHOWN_WAITS)] if len(waits) > SHOWN_WAITS else [])
        if len(self.members[number]) > 1:
            lines.append("%d states alike" % len(self.members[number]))
        return lines

    def drawn(self, draws_all):
        """The edges that are drawn, each with its words."""
        for edge in self.edges:
            if draws_all or edge.start != edge.end or edge.outputs:
                words = self.automaton.words_of(edge)
                yield edge, words + (" / " + " ".join(edge.outputs) if edge.outputs else "")

    def dot(self, draws_all):
        """The graph as a text for Graphviz."""
        lines = ["digraph states {", "  rankdir=LR;", "  node [shape=box, style=rounded, fontname=monospace, fontsize=10];"]
        lines += ["  edge [fontname=monospace, fontsize=9];"]
        for number in sorted(self.members):
            look = {"start": ", penwidth=2", "ended": ", shape=doublecircle"}.get(self.name(number), "")
            lines.append("  s%d [id=state%d, label=%s%s];" % (number, number, quoted("\n".join(self.label(number))), look))
        lines += ["  s%d -> s%d [label=%s];" % (edge.start, edge.end, quoted(words)) for edge, words in self.drawn(draws_all)]
        return "\n".join(lines + ["}", ""])

    def table(self, draws_all):
        """The graph as lines of words."""
        lines = ["%d states, %d edges" % (len(self.members), len(self.edges))]
        words_of = {}
        for edge, words in self.drawn(draws_all):
            words_of.setdefault(edge.start, []).append("  %s -> %s" % (words, self.name(edge.end)))
        for number in sorted(self.members):
            name, *rest = self.label(number)
            lines += ["%s%s" % (name, " (%s)" % "; ".join(rest) if rest else ""), *words_of.get(number, [])]
        return "\n".join(lines + [""])


def names_of(words, known, what):
    """The names that a word lists; none where there is no word."""
    if words is None:
        return None
    names = [name for name in words.split(",") if name]
    for name in names:
        if name not in known:
            raise Stop(USAGE, "no %s %s" % (what, name))
    return names


def svg_of(dot):
    """A drawing by Graphviz."""
    if not shutil.which("dot"):
        raise Stop(MISSING, "no Graphviz here (its command dot); --as dot and --as text need none")
    return subprocess.run(["dot", "-Tsvg"], input=dot.encode("utf-8"), capture_output=True, check=True).stdout.decode("utf-8")


def graph_of(source, main, most_states, merges=False, inputs=None, outputs=None):
    """The graph of a source, each edge of which the program has run; inputs and outputs are lists of names to keep, as words."""
    text = read(source)
    blif = blif_of(text_of("blif", *main_words(main), source))
    known = [name.removesuffix(".out") for name in blif.outputs[:-1]]
    inputs_kept, outputs_kept = names_of(inputs, blif.inputs, "input"), names_of(outputs, known, "output")
    pairs = forbidden_pairs(text, main)
    with tempfile.TemporaryDirectory() as folder:
        check_pairs(folder, source, main, pairs)
        automaton = Automaton(blif, pairs, most_states, inputs_kept, outputs_kept)
        leaves = leaves_of(source, text, main, len(blif.latches) - 1)
        graph = Graph(automaton, merges, text, leaves)
        replay(automaton, graph.exact, source, main, folder)
    return graph
