"""The third program, `cec-prove`: what it may answer about a claim, by a search of all reachable states.

Stands for `Words`, `Lines` and `Statuses` (crates/cec_prove_commands/specs/), for `Claims`, `Verdicts`, `Surveys`,
`Sameness` and `TraceTexts` (crates/cec_prove_sources/specs/), for `Coverings` and `Lines`
(crates/cec_prove_covers/specs/), and for `Devices`, `Claims`, `Verdicts`, `Surveys` and `Sameness`
(crates/cec_prove_texts/specs/), and for `Answers` (crates/cec_prove_cycles/specs/). Whether an answer comes at all is
free: `undecided` may come for any program.
"""

from __future__ import annotations

import itertools
from typing import Optional, Sequence, Union

from rules.blif import NetRunner
from rules.circuit_runs import TriMachine
from rules.command import SourceRunner
from rules.compiling import Compiled
from rules.netlist import NetMachine
from rules.optimizer import circuit_of
from rules.traces import Relation, first_broken

CLAIMS = (b"never", b"always")
COMMANDS = CLAIMS + (b"all", b"cover", b"same")
OWN_WORDS = (b"--help", b"--version")
LEVELS = tuple(b"%d" % number for number in range(1, 10))
PROVED, USAGE, FILE_FAULT, STATIC, LIMIT, STUCK, REFUTED, UNDECIDED, NO_SIGNAL, OTHER = 0, 2, 3, 4, 8, 12, 20, 21, 22, 23
# The option that has no value: the files are texts.
TEXT = b"--text"
# A search over more inputs or more reactions than this is given up.
MOST_INPUTS, MOST_REACTIONS = 6, 6_000


class Misuse(Exception):
    """Words without a meaning, and what is wrong with them."""

    def __init__(self, words: bytes) -> None:
        super().__init__(words)
        self.words = words


class Asked:
    """A command about a source or a text, or about two, and the options."""

    def __init__(self, command: bytes, signal: bytes, files: list[bytes], options: dict[bytes, bytes]) -> None:
        self.command = command
        self.signal = signal
        self.files = files
        self.assumed = options.get(b"--assume")
        self.main = options.get(b"--main")
        self.is_text = TEXT in options


def is_plain(word: bytes) -> bool:
    return word != b"" and word[:1] != b"-"


def plain_word(what: bytes, word: bytes) -> bytes:
    if not is_plain(word):
        raise Misuse(b"not a %s: " % what + word)
    return word


def options_of(words: Sequence[bytes], command: bytes) -> dict[bytes, bytes]:
    """Options, each at most once, and each but one with its value. A text has no modules and no points."""
    options: dict[bytes, bytes] = {}
    left = list(words)
    while left:
        key = left.pop(0)
        takes = {b"--effort": True, b"--main": TEXT not in options, b"--assume": command != b"same"}
        if is_plain(key):
            raise Misuse(b"one word too many: " + key)
        if key == TEXT:
            is_known, is_fit, value = command != b"cover" and b"--main" not in options, True, b""
        elif not left and key in takes:
            raise Misuse(b"no value after " + key)
        else:
            value = left.pop(0) if left else b""
            is_known = takes.get(key, False)
            is_fit = value in LEVELS if key == b"--effort" else is_plain(value)
        if key in options or not is_known or not is_fit:
            raise Misuse(b"bad option: " + key)
        options[key] = value
    return options


def asked_of(words: Sequence[bytes]) -> Optional[Asked]:
    """What is asked, or None where the words are about the program."""
    if not words:
        raise Misuse(b"no command")
    command, rest = words[0], list(words[1:])
    if command in OWN_WORDS:
        if rest:
            raise Misuse(b"one word too many: " + rest[0])
        return None
    if command not in COMMANDS:
        raise Misuse(b"unknown word: " + command)
    last, signal, files = command, b"", []
    if command in CLAIMS:
        if not rest:
            raise Misuse(b"no signal after " + command)
        last = signal = plain_word(b"signal", rest.pop(0))
    for _ in range(2 if command == b"same" else 1):
        if not rest:
            raise Misuse(b"no file after " + last)
        last = plain_word(b"file", rest.pop(0))
        files.append(last)
    return Asked(command, signal, files, options_of(rest, command))


class Circuit:
    """The circuit of a text, by the names of its inputs and outputs; a text that has none raises Refused."""

    def __init__(self, text: bytes) -> None:
        self.blif, _ = circuit_of(text)
        self.in_names = list(self.blif.inputs)
        self.out_names = [name.removesuffix(b".out") for name in self.blif.outputs[:-1]]
        self.relations: list[Relation] = []


Subject = Union[Compiled, Circuit]


def has_cycle(done: Subject) -> bool:
    """Whether the dependencies of a source have a cycle."""
    return isinstance(done, Compiled) and done.shape.order() is None


class CircuitMachine:
    """The machine of a circuit, whose state can be set."""

    def __init__(self, circuit: Circuit) -> None:
        self.runner = NetRunner(circuit.blif)
        self.state = list(self.runner.latches)

    def react(self, event: Sequence[bool]) -> tuple[list[bool], Optional[bool]]:
        self.runner.latches = list(self.state)
        self.runner.react(event)
        self.state = list(self.runner.latches)
        return self.runner.outputs, self.runner.word


def machine_of(done: Subject) -> Union[NetMachine, CircuitMachine, TriMachine]:
    """Its reaction to an event is None where the program is not constructive."""
    if isinstance(done, Circuit):
        return CircuitMachine(done)
    return TriMachine(done.shape) if has_cycle(done) else NetMachine(done.shape.generate())


def runner_of(done: Subject) -> Union[SourceRunner, NetRunner]:
    if isinstance(done, Circuit):
        return NetRunner(done.blif)
    return SourceRunner(done, "tri" if has_cycle(done) else "blif")


class Question:
    """A claim about an outgoing signal of a compiled source, or an output of a text, by places, and the one that is
    assumed.
    """

    def __init__(self, done: Subject, is_always: bool, place: int, assumed: Optional[int]) -> None:
        self.done = done
        self.is_always = is_always
        self.place = place
        self.assumed = assumed

    def is_kept(self, outputs: Sequence[bool]) -> bool:
        """Whether a reaction has what is assumed."""
        return self.assumed is None or bool(outputs[self.assumed])

    def is_broken(self, outputs: Sequence[bool]) -> bool:
        """Whether a reaction breaks the claim."""
        return bool(outputs[self.place]) != self.is_always


def first_breaks(questions: Sequence[Question]) -> list[tuple[str, int]]:
    """Of claims about one program, with the same signal assumed: `never`, `in` and the number of instants of a shortest
    trace that breaks the claim, or `unknown`.

    A reset leads to a state that the search begins with, so resets add nothing.
    """
    if not questions:
        return []
    done = questions[0].done
    found = [("never", 0)] * len(questions)
    if len(done.in_names) > MOST_INPUTS:
        return [("unknown", 0)] * len(questions)
    every = itertools.product((False, True), repeat=len(done.in_names))
    events = [event for event in every if first_broken(done.relations, event) is None]
    machine = machine_of(done)
    start = tuple(machine.state)
    seen, level, reactions, depth = {start}, [start], 0, 0
    open_ones = set(range(len(questions)))
    while level and open_ones:
        depth += 1
        following = []
        for state, event in itertools.product(level, events):
            reactions += 1
            if reactions > MOST_REACTIONS:
                return [("unknown", depth - 1) if number in open_ones else it for number, it in enumerate(found)]
            machine.state = list(state)
            answer = machine.react(event)
            if answer is None:
                return [("unknown", depth - 1) if number in open_ones else it for number, it in enumerate(found)]
            outputs, _ = answer
            if not questions[0].is_kept(outputs):
                continue
            for number in [number for number in open_ones if questions[number].is_broken(outputs)]:
                found[number] = ("in", depth)
                open_ones.remove(number)
            after = tuple(machine.state)
            if after not in seen:
                seen.add(after)
                following.append(after)
        level = following
    return found


def first_break(question: Question) -> tuple[str, int]:
    """The same of one claim."""
    return first_breaks([question])[0]


def first_difference(one: Subject, two: Subject) -> tuple[str, int]:
    """The same about a shortest trace to reactions of two programs, or circuits, that are not the same."""
    if len(one.in_names) > MOST_INPUTS:
        return "unknown", 0
    every = itertools.product((False, True), repeat=len(one.in_names))
    events = [event for event in every if first_broken(one.relations, event) is None]
    machines = [machine_of(done) for done in (one, two)]
    start = tuple(tuple(machine.state) for machine in machines)
    seen, level, reactions, depth = {start}, [start], 0, 0
    while level:
        depth += 1
        following = []
        for states, event in itertools.product(level, events):
            reactions += 1
            if reactions > MOST_REACTIONS:
                return "unknown", depth - 1
            answers = []
            for machine, state in zip(machines, states):
                machine.state = list(state)
                answers.append(machine.react(event))
            if None in answers:
                return "unknown", depth - 1
            if answers[0] != answers[1]:
                return "in", depth
            after = tuple(tuple(machine.state) for machine in machines)
            if after not in seen:
                seen.add(after)
                following.append(after)
        level = following
    return "never", 0


def trace_of(names: Sequence[bytes], events: Sequence[Sequence[bool]], is_one_line: bool = False) -> bytes:
    """The one spelling of a trace: a line for each instant, or all in one line."""
    words = [b"".join(name + b" " for name, bit in zip(names, event) if bit) for event in events]
    return b"".join(b" " + word + b";" if is_one_line else word + b";\n" for word in words)
