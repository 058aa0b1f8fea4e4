"""The reachable states of a program, from the latches of its BLIF text, with what each event does in each of them.

A state is the values of the latches, an event those of the inputs. The text is evaluated over all events at once: in a state each
net is a function of the inputs (diagrams.py). What is found is run by the program: `replay` makes one trace with each edge in
it, `cec run` must give its lines, and `cec exec` of the text must show its states.
"""
import os
from typing import NamedTuple

from diagrams import FALSE, TRUE, Diagrams
from program import UNDECIDED, Stop, main_words, text_of, write_file
from traces import RESET, lines_of, trace_of


class Outcome(NamedTuple):
    """What an event does: the outputs that are present, whether the program pauses, and the state after it."""

    outputs: tuple
    pauses: bool
    state: object


class Edge(NamedTuple):
    """A step: the states before and after it, its outputs and its status, the function of its events, and products of them."""

    start: int
    end: int
    outputs: tuple
    pauses: bool
    events: int
    products: tuple


class Automaton:
    """The states in the order in which they are found, the first one being the start, and for each one a diagram of outcomes."""

    def __init__(self, blif, pairs, most_states, kept_inputs=None, kept_outputs=None):
        self.blif, self.inputs = blif, blif.inputs
        self.outputs = [name.removesuffix(".out") for name in blif.outputs[:-1]]
        self.kept_outputs = self.outputs if kept_outputs is None else kept_outputs
        self.diagrams = Diagrams(len(self.inputs))
        self.branches, self.outcomes = {}, {}
        self.given = {name: self.diagrams.input(at) if kept_inputs is None or name in kept_inputs else FALSE
                      for at, name in enumerate(self.inputs)}
        self.legal = self.legal_events(pairs)
        self.cells = [(names[-1], [list(zip(names[:-1], row.split()[0])) if len(names) > 1 else [] for row in rows])
                      for names, rows in blif.tables]
        self.states, self.roots = [tuple(int(it.init) for it in blif.latches)], []
        self.numbers = {self.states[0]: 0}
        self.explore(most_states)

    def legal_events(self, pairs):
        """The function of the events that meet the relations."""
        found = TRUE
        for left, right, value in pairs:
            second = self.given[right] if value == "1" else self.diagrams.negated(self.given[right])
            found = self.diagrams.both(found, self.diagrams.negated(self.diagrams.both(self.given[left], second)))
        return found

    def nets(self, state):
        """Each net in a state, as a function of the event."""
        diagrams = self.diagrams
        values = dict(self.given)
        values.update((latch.name, value) for latch, value in zip(self.blif.latches, state))
        for name, rows in self.cells:
            total = FALSE
            for row in rows:
                fits = TRUE
                for net, cell in row:
                    if cell != "-":
                        fits = diagrams.both(fits, values[net] if cell == "1" else diagrams.negated(values[net]))
                        if fits == FALSE:
                            break
                total = diagrams.either(total, fits)
            values[name] = total
        return values

    def explore(self, most_states):
        """Finds the states, breadth first."""
        at = 0
        while at < len(self.states):
            nets = self.nets(self.states[at])
            shown = [nets[name] for name in self.blif.outputs]
            kept = [nets[latch.source] for latch in self.blif.latches]
            self.roots.append(self.split((self.legal, *shown, *kept)))
            for outcome in self.leaves(self.roots[-1]):
                if outcome.state not in self.numbers:
                    self.numbers[outcome.state] = len(self.states)
                    self.states.append(outcome.state)
            if len(self.states) > most_states:
                raise Stop(UNDECIDED, "more than %d states; --states raises the bound, --inputs leaves inputs out" % most_states)
            at += 1

    def split(self, functions):
        """A diagram whose leaves are outcomes, from the functions of an event: whether it is legal, the outputs, the next state."""
        if functions[0] == FALSE:
            return None
        found = self.branches.get(functions)
        if found is None:
            place = min(self.diagrams.nodes[it][0] for it in functions)
            if place == len(self.inputs):
                found = self.outcome(functions[1:])
            else:
                halves = [self.diagrams.below(it, place) for it in functions]
                low, high = (self.split(tuple(it[side] for it in halves)) for side in (0, 1))
                found = low if low == high else (place, low, high)
            self.branches[functions] = found
        return found

    def outcome(self, values):
        """The outcome of one event, each value being known."""
        outputs = tuple(name for name, value in zip(self.outputs, values) if value and name in self.kept_outputs)
        ends = len(self.blif.outputs)
        found = Outcome(outputs, values[ends - 1] == TRUE, tuple(values[ends:]))
        return self.outcomes.setdefault(found, found)

    def leaves(self, root):
        """The outcomes of a diagram, each once."""
        found, waiting, seen = {}, [root], set()
        while waiting:
            now = waiting.pop()
            if now is None or id(now) in seen:
                continue
            seen.add(id(now))
            if isinstance(now, Outcome):
                found[now] = None
            else:
                waiting += [now[2], now[1]]
        return list(found)

    def classes(self):
        """A number for each state, the same for two that show the same over all further events: bisimulation, by refinement."""
        numbers, count = [0] * len(self.states), 1
        while True:
            known, signatures = {}, {}
            new = []
            for root in self.roots:
                signature = self.signature(root, numbers, known)
                new.append(signatures.setdefault(signature, len(signatures)))
            if len(signatures) == count:
                return new
            numbers, count = new, len(signatures)

    def signature(self, root, numbers, known):
        """A diagram with classes in place of states; equal ones are one number."""
        if root is None:
            return -1
        key = known.get(id(root))
        if key is None:
            if isinstance(root, Outcome):
                made = (root.outputs, root.pauses, numbers[self.numbers[root.state]])
            else:
                low, high = (self.signature(it, numbers, known) for it in root[1:])
                made = low if low == high else (root[0], low, high)
            key = made if isinstance(made, int) else known.setdefault(made, len(known))
            known[id(root)] = key
        return key

    def edges(self, numbers):
        """The edges between classes of states; each class has those of its first state."""
        found = []
        for first, number in {number: at for at, number in reversed(list(enumerate(numbers)))}.items():
            events = {}
            self.gather(self.roots[number], TRUE, events, numbers)
            for (outputs, pauses, end), function in events.items():
                upper = self.diagrams.either(function, self.diagrams.negated(self.legal))
                products, _ = self.diagrams.cover(function, upper)
                found.append(Edge(first, end, outputs, pauses, function, tuple(products)))
        return sorted(found, key=lambda it: (it.start, it.end, it.products))

    def gather(self, root, above, events, numbers):
        """Adds the events that lead to each outcome of a diagram, below the events that lead to the diagram."""
        if root is None:
            return
        if isinstance(root, Outcome):
            key = (root.outputs, root.pauses, numbers[self.numbers[root.state]])
            events[key] = self.diagrams.either(events.get(key, FALSE), self.diagrams.both(above, self.legal))
            return
        test = self.diagrams.input(root[0])
        self.gather(root[1], self.diagrams.both(above, self.diagrams.negated(test)), events, numbers)
        self.gather(root[2], self.diagrams.both(above, test), events, numbers)

    def event_of(self, edge, product):
        """An event of an edge that one of its products stands for, as the names of its inputs."""
        function = self.diagrams.both(edge.events, self.diagrams.product(product))
        return [self.inputs[place] for place in self.diagrams.event(function)]

    def words_of(self, edge):
        """The events of an edge as a test of the language."""
        sums = []
        for product in edge.products:
            parts = [("" if value else "not ") + self.inputs[place] for place, value in sorted(product)]
            sums.append(" and ".join(parts) or "tick")
        sums.sort(key=lambda it: (it.count(" and "), it))
        return " or ".join("(%s)" % it if " and " in it and len(sums) > 1 else it for it in sums)


def steps_by_state(automaton, edges):
    """For each state its steps: an event for each product of each edge, and the state after it."""
    found = {}
    for edge in edges:
        for product in edge.products:
            found.setdefault(edge.start, []).append((automaton.event_of(edge, product), edge))
    return found


def way_to_open(steps, start, is_open):
    """The shortest list of steps from a state to one with steps that are still to be taken; none where no way leads there."""
    before, waiting = {start: None}, [start]
    for now in waiting:
        if is_open(now):
            way = []
            while before[now]:
                now, step = before[now]
                way.append(step)
            return way[::-1]
        for step in steps.get(now, []):
            if step[1].end not in before:
                before[step[1].end] = (now, step)
                waiting.append(step[1].end)
    return None


def tour(automaton, edges):
    """A list of steps and resets that takes each product of each edge. Each stretch ends with one more step, whose start shows
    the state that it reached."""
    steps = steps_by_state(automaton, edges)
    left = {state: list(them) for state, them in steps.items()}
    found, now = [], 0
    while any(left.values()):
        way = way_to_open(steps, now, lambda state: left.get(state))
        if way is None:
            found += [steps[now][0], None]
            now = 0
            continue
        for step in way or [left[now][0]]:
            if step in left[now]:
                left[now].remove(step)
            found.append(step)
            now = step[1].end
    return found + [steps[now][0]]


def replay(automaton, edges, source, main, folder):
    """Runs each edge by the program: the lines of `cec run` over the source, and the states that `cec exec` shows of the text."""
    steps = tour(automaton, edges)
    events = [[RESET] if step is None else step[0] for step in steps]
    trace, shown = os.path.join(folder, "tour.trace"), os.path.join(folder, "states.blif")
    write_file(trace, trace_of(events))
    lines = lines_of(text_of("run", "--via", "blif", *main_words(main), source, trace))
    # The latches are shown as outputs under their own names.
    names = [latch.name for latch in automaton.blif.latches]
    write_file(shown, automaton.blif._replace(outputs=names + automaton.blif.outputs[-1:]).text())
    held = lines_of(text_of("exec", "--via", "blif", shown, trace))
    taken = [step[1] for step in steps if step]
    if len(lines) != len(taken) or len(held) != len(taken):
        raise Stop(UNDECIDED, "the program does not confirm the states")
    for line, latches, edge in zip(lines, held, taken):
        outputs = tuple(name for name in line.present if name in automaton.kept_outputs)
        state = tuple(int(name in latches.present) for name in names)
        if (outputs, bool(line.status), state) != (edge.outputs, edge.pauses, automaton.states[edge.start]):
            raise Stop(UNDECIDED, "the program does not confirm a step from state %d" % edge.start)
    return len(taken)
