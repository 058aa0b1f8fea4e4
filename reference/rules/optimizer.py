"""The second program, `cec-opt`: which texts it takes, and what it must answer of a text.

Stands for `Words`, `Lines` and `Statuses` (crates/cec_opt_commands/specs/), `Interfaces` (crates/blif_net/specs/) and
`Faults` (crates/cec_opt_texts/specs/). Which smaller netlist is found is free.
"""

from __future__ import annotations

import re
from dataclasses import dataclass, replace
from typing import Optional, Sequence

from rules.blif import Blif, NetRunner, read_blif
from rules.embedded_c import DECLARATIONS, DEFINITIONS, HEADER, Layout, name_fault
from rules.outcomes import text_line
from rules.text_faults import TextFault
from rules.traces import Relation

COMMANDS = (b"blif", b"c", b"verilog", b"check")
HELP = b"""cec-opt blif TEXT      writes the optimized circuit of TEXT, a BLIF file, as BLIF
cec-opt c TEXT         the same as C
cec-opt c --embed NAME TEXT
                       the same as embedded C: a header for any number of instances of NAME
    --packed           after NAME: one bit for each latch of an instance
    --declarations     after NAME: of two files the header NAME.h, with the types and the prototypes
    --definitions      after NAME: of two files the other one, NAME.c, which includes NAME.h
    --header           after NAME: one header with all of it, as without a word for a file
cec-opt verilog TEXT   the same as structural Verilog
cec-opt verilog --reset NAME TEXT
                       the same as Verilog for synthesis, with the reset NAME at edges of the clock
    --async            after NAME: the reset takes effect at once
    --active-low       after NAME: the reset is active where its port is low
    --initial          after NAME: the registers have their first values at power-up too
    --module M         after NAME: the name of the module, in place of the circuit's
    --prefix           after NAME: inputs are i_X and outputs o_X, where X is the signal
    --encode           after NAME and with --source: the circuit with its state in a code, not the lighter one
cec-opt check TEXT     writes the sizes of the circuit and of the optimized one
    --never A,B[,..]   right after the command: at most one of these inputs of TEXT is ever present
    --implies A,B      right after the command: the input B of TEXT is present whenever A is
                       any number of both; events that break one of them do not count
    --source FILE      in place of TEXT: compiles the source FILE, with its state plain and in a code,
                       and takes the lighter circuit; a latch weighs as much as four gates
                       its dependencies may have a cycle, if it is constructive for every event
    --main M           after --source: of the module M, not of the first one
cec-opt --help         writes these lines
cec-opt --version      writes the program's name and version
"""
# What the program writes about itself, by the word that asks for it.
ABOUT = {b"--help": HELP, b"--version": b"cec-opt 0.1.0\n"}
NAME = re.compile(rb"[A-Za-z][A-Za-z0-9_]*\Z")
SOURCE, MAIN = OPTIONS = (b"--source", b"--main")
EMBED, PACKED = b"--embed", b"--packed"
RESET, MODULE, ENCODE = b"--reset", b"--module", b"--encode"
NEVER, IMPLIES = RELATIONS = (b"--never", b"--implies")
# The words after `verilog --reset NAME` that have no value.
FLAGS = (b"--async", b"--active-low", b"--initial", b"--prefix")
# The words for the file of embedded C.
FILES = {b"--header": HEADER, b"--declarations": DECLARATIONS, b"--definitions": DEFINITIONS}
USAGE, FILE_FAULT, STATIC, BAD_TEXT, LIMIT, BAD_COMPONENT = 2, 3, 4, 7, 8, 14
# The lines of the faults of a component, without the signal at fault.
COMPONENT_LINES = {
    "NoName": b"the name after --embed is not a letter followed by letters, digits and _",
    "TypeTaken": b"the name after --embed, with _t, is a type of the library",
    "Reserved": b"a signal is a word of C or C++: ",
}


class Refused(Exception):
    """A status and the text after `cec-opt: `."""

    def __init__(self, status: int, line: bytes, names: Sequence[bytes] = ()) -> None:
        Exception.__init__(self, status, line)
        self.status = status
        self.line = line
        self.names = list(names)


@dataclass
class Asked:
    """What the words ask for: a command on a file, which is a source or a text; none where it is about the program."""

    command: bytes
    file: Optional[bytes] = None
    is_source: bool = False
    main: Optional[bytes] = None
    # The name of the component of embedded C, and its layout.
    component: Optional[bytes] = None
    layout: Layout = Layout()
    # The name of the reset of Verilog with one, and the words about it.
    reset: Optional[bytes] = None
    flags: tuple[bytes, ...] = ()
    module: Optional[bytes] = None
    is_encoded: bool = False
    # The relations of the inputs of a text: the word of each, and its names.
    given: tuple[tuple[bytes, tuple[bytes, ...]], ...] = ()


def misuse(line: bytes) -> Refused:
    return Refused(USAGE, line + b", see cec-opt --help")


def is_plain(word: bytes) -> bool:
    """Whether a word is a file or a name."""
    return word[:1] not in (b"", b"-")


def asked_of(words: Sequence[bytes]) -> Asked:
    """What words ask for; raises Refused where they have no meaning."""
    if not words:
        raise misuse(b"no command")
    first, rest = words[0], words[1:]
    if first in ABOUT:
        if rest:
            raise misuse(b"one word too many: " + rest[0])
        return Asked(first)
    if first not in COMMANDS:
        raise misuse(b"unknown word: " + first)
    given, more = relations_of(rest)
    asked = task_asked(first, more)
    if given and asked.is_source:
        raise misuse(b"a source has relations of its own: " + rest[0])
    return replace(asked, given=given)


def relations_of(words: Sequence[bytes]) -> tuple[tuple[tuple[bytes, tuple[bytes, ...]], ...], Sequence[bytes]]:
    """The relations that words begin with, and the words after them."""
    given: tuple[tuple[bytes, tuple[bytes, ...]], ...] = ()
    rest = words
    while len(rest) > 1 and rest[0] in RELATIONS:
        names = tuple(rest[1].split(b","))
        if b"" in names or len(names) < 2 or (rest[0] == IMPLIES and len(names) > 2):
            break
        given += ((rest[0], names),)
        rest = rest[2:]
    return given, rest


def task_asked(first: bytes, rest: Sequence[bytes]) -> Asked:
    """What a command and the words after its relations ask for."""
    if first == b"verilog" and rest and rest[0] == RESET:
        return reset_asked(rest[1:])
    component, layout = None, Layout()
    if first == b"c" and rest and rest[0] == EMBED:
        if len(rest) == 1:
            raise misuse(b"no value after " + EMBED)
        component, rest = rest[1], rest[2:]
        if not is_plain(component):
            raise misuse(b"bad option: " + EMBED)
        layout, rest = laid_out(rest)
    if not rest:
        raise misuse(b"no file after " + first)
    if is_plain(rest[0]):
        if len(rest) > 1:
            raise misuse(b"one word too many: " + rest[1])
        return Asked(first, rest[0], component=component, layout=layout)
    if len(rest) == 1:
        raise misuse((b"no value after " if rest[0] in OPTIONS + RELATIONS else b"not a file: ") + rest[0])
    given = options_of(rest)
    if SOURCE not in given:
        raise misuse(b"no file after " + first)
    return Asked(first, given[SOURCE], True, given.get(MAIN), component, layout)


def reset_asked(words: Sequence[bytes]) -> Asked:
    """What the words after `verilog --reset` ask for: the name of the reset, and words in any order."""
    if not words:
        raise misuse(b"no value after " + RESET)
    if not is_plain(words[0]):
        raise misuse(b"bad option: " + RESET)
    given: dict[bytes, bytes] = {}
    file: Optional[bytes] = None
    flags: tuple[bytes, ...] = ()
    waiting: Optional[bytes] = None
    is_encoded = False
    for word in words[1:]:
        if waiting is not None:
            taken = waiting in given or (file is not None and waiting in OPTIONS)
            if taken or not is_plain(word):
                raise misuse(b"bad option: " + waiting)
            given[waiting], waiting = word, None
        elif word in (MODULE, *OPTIONS):
            waiting = word
        elif is_plain(word):
            if file is not None or SOURCE in given or MAIN in given or is_encoded:
                raise misuse(b"one word too many: " + word)
            file = word
        elif word == ENCODE and file is None and not is_encoded:
            is_encoded = True
        elif word not in FLAGS or word in flags:
            raise misuse(b"bad option: " + word)
        else:
            flags += (word,)
    if waiting is not None:
        raise misuse(b"no value after " + waiting)
    source, module = given.get(SOURCE), given.get(MODULE)
    if source is None and (file is None or MAIN in given):
        raise misuse(b"no file after verilog")
    is_source = source is not None
    main, reset = given.get(MAIN), words[0]
    return Asked(b"verilog", source or file, is_source, main, reset=reset, flags=flags, module=module, is_encoded=is_encoded)


def laid_out(words: Sequence[bytes]) -> tuple[Layout, Sequence[bytes]]:
    """The layout that one or two words at the front ask for, and the words after them."""
    packed, file, rest = False, None, words
    while rest and len(words) - len(rest) < 2 and (rest[0] == PACKED or rest[0] in FILES):
        if packed if rest[0] == PACKED else file is not None:
            raise misuse(b"bad option: " + rest[0])
        if rest[0] == PACKED:
            packed = True
        else:
            file = FILES[rest[0]]
        rest = rest[1:]
    return Layout(packed, file or HEADER), rest


def options_of(words: Sequence[bytes]) -> dict[bytes, bytes]:
    """The two options, each at most once."""
    given: dict[bytes, bytes] = {}
    for at in range(0, min(len(words), 4), 2):
        key = words[at]
        if at + 1 == len(words):
            raise misuse(b"no value after " + key)
        if key not in OPTIONS or key in given or not is_plain(words[at + 1]):
            raise misuse(b"bad option: " + key)
        given[key] = words[at + 1]
    if len(words) > 4:
        raise misuse(b"one word too many: " + words[4])
    return given


def interface_fault(blif: Blif) -> Optional[bytes]:
    """The first fault of the names of a circuit."""
    if not blif.outputs or blif.outputs[-1] != b"_paused":
        return b"last output is not _paused"
    if not NAME.match(blif.name):
        return b"bad model: " + blif.name
    for name in blif.inputs:
        if not NAME.match(name):
            return b"bad input: " + name
    shown = blif.outputs[:-1]
    for name in shown:
        plain = NAME.match(name) and name not in blif.inputs
        given = name.endswith(b".out") and name[:-4] in blif.inputs
        if not plain and not given:
            return b"bad output: " + name
    seen = set()
    for name in shown:
        if name in seen:
            return b"output twice: " + name
        seen.add(name)
    return None


def circuit_of(text: bytes) -> tuple[Blif, NetRunner]:
    """The circuit of a text that the optimizer takes, and its machine."""
    try:
        blif = read_blif(text)
    except TextFault as fault:
        raise Refused(BAD_TEXT, text_line(fault))
    fault_line = interface_fault(blif)
    if fault_line is not None:
        raise Refused(BAD_TEXT, fault_line)
    try:
        return blif, NetRunner(blif)
    except TextFault as fault:
        raise Refused(BAD_TEXT, text_line(fault), fault.data)


def numbered_relations(blif: Blif, asked: Asked) -> list[Relation]:
    """The relations by the numbers of inputs; raises Refused at the first name that is no input."""
    number = {name: at for at, name in reversed(list(enumerate(blif.inputs)))}
    relations: list[Relation] = []
    for word, names in asked.given:
        for name in names:
            if name not in number:
                raise Refused(BAD_TEXT, b"no input: " + name)
        numbers = [number[name] for name in names]
        relations.append(("excludes", numbers) if word == NEVER else ("implies", *numbers))
    return relations


def plain_outputs(blif: Blif) -> list[bytes]:
    """The names of the outputs except `_paused`; one with the name of an input has no `.out`."""
    return [name[:-4] if name.endswith(b".out") else name for name in blif.outputs[:-1]]


def component_line(name: bytes, signals: Sequence[bytes]) -> Optional[bytes]:
    """The line of the first fault of the name of a component and of its signals."""
    fault = name_fault(name, signals)
    return None if fault is None else COMPONENT_LINES[fault[0]] + fault[1]


def gates_at_most(blif: Blif) -> int:
    """A bound on the gates of the netlist of a circuit: two for each cell, two for each row, one for each table and
    one.
    """
    return 1 + sum(1 + sum(2 * len(row) + 2 for row in rows) for _, _, rows in blif.tables)
