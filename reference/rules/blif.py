"""BLIF texts: their profile, the circuits that they describe, and the text of a netlist.

Stands for `Lines`, `Statements`, `Circuits`, `Runs`, `Spelled` and `Written` (crates/blif_text/specs/), after the
Berkeley Logic Interchange Format.
"""

from __future__ import annotations

from typing import Sequence, Any, Optional

import re

from rules.expressions import NotWritten, gate_label, net_number
from rules.netlist import Net, letter_names
from rules.text_faults import TEXT_LIMIT, TextFault, find_cycle


class Blif:
    def __init__(self) -> None:
        self.name = b""
        self.inputs: list[Any] = []
        self.outputs: list[Any] = []
        self.latches: list[Any] = []  # (from, to, init)
        self.tables: list[Any] = []  # (inputs, output, rows); a row is the bytes of its cells
        self.places: list[Any] = []  # in the order of the text: ('drive' or 'use', name)

    def uses(self) -> dict[bytes, list[bytes]]:
        return {output: inputs for inputs, output, rows in self.tables}


def blif_lines(text: bytes) -> tuple[Any, ...]:
    """The joined lines as (number of the first line, bytes without comments), and the line count."""
    parts = text.split(b"\n")
    lines = []
    for k, part in enumerate(parts):
        if k + 1 < len(parts):
            if part.endswith(b"\r"):
                part = part[:-1]
        elif part == b"":
            break  # a line feed at the very end opens no further line; '' has no line
        at = part.find(b"#")
        if at >= 0:
            part = part[:at]
        lines.append(part)
    joined = []
    k = 0
    while k < len(lines):
        number = k + 1
        pieces = []
        while lines[k].endswith(b"\\") and k + 1 < len(lines):
            pieces.append(lines[k][:-1])
            k += 1
        pieces.append(lines[k])
        k += 1
        joined.append((number, b"".join(pieces)))
    return joined, len(lines)


BLIF_LINE = re.compile(rb"[ \t!-~]*\Z")


ROW = re.compile(rb"[01-]+\Z")


def read_blif(text: bytes) -> Blif:
    if len(text) > TEXT_LIMIT:
        raise TextFault("TooLong")
    joined, count = blif_lines(text)
    blif = Blif()
    state = "model"
    rows: Any = None
    width = 0
    for number, line in joined:
        if not BLIF_LINE.match(line) or b"\\" in line:
            raise TextFault("Line", number)
        words = re.findall(rb"[^ \t]+", line)
        if not words:
            continue
        head = words[0]
        if state == "ended":
            raise TextFault("Line", number)
        if state == "model":
            if head != b".model" or len(words) > 2:
                raise TextFault("Line", number)
            blif.name = words[1] if len(words) == 2 else b""
            state = "body"
        elif head == b".inputs":
            rows = None
            for name in words[1:]:
                blif.inputs.append(name)
                blif.places.append(("drive", name))
        elif head == b".outputs":
            rows = None
            for name in words[1:]:
                blif.outputs.append(name)
                blif.places.append(("use", name))
        elif head == b".latch":
            rows = None
            if len(words) != 4 or words[3] not in (b"0", b"1"):
                raise TextFault("Line", number)
            blif.latches.append((words[1], words[2], words[3] == b"1"))
            blif.places.append(("use", words[1]))
            blif.places.append(("drive", words[2]))
        elif head == b".names":
            if not 2 <= len(words) <= 10:
                raise TextFault("Line", number)
            rows = []
            width = len(words) - 2
            blif.tables.append((words[1:-1], words[-1], rows))
            for name in words[1:-1]:
                blif.places.append(("use", name))
            blif.places.append(("drive", words[-1]))
        elif head == b".end" and len(words) == 1:
            state = "ended"
        elif rows is not None and width == 0 and words == [b"1"]:
            rows.append(b"")
        elif (
            rows is not None
            and width > 0
            and len(words) == 2
            and len(head) == width
            and ROW.match(head)
            and words[1] == b"1"
        ):
            rows.append(head)
        else:
            raise TextFault("Line", number)
    if state != "ended":
        raise TextFault("Line", count + 1)
    driven = set()
    for kind, name in blif.places:
        if kind == "drive":
            if name in driven:
                raise TextFault("TwoDrivers", name)
            driven.add(name)
    for kind, name in blif.places:
        if kind == "use" and name not in driven:
            raise TextFault("NoDriver", name)
    return blif


class NetRunner:
    def __init__(self, blif: Blif) -> None:
        order, cycle = find_cycle(blif.uses())
        if cycle is not None:
            raise TextFault("Loop", cycle)
        self.blif = blif
        place: dict[Any, Any] = {}
        for name in blif.inputs:
            place[name] = len(place)
        for _, name, _ in blif.latches:
            place[name] = len(place)
        table_of = {}
        for table in blif.tables:
            place[table[1]] = len(place)
            table_of[table[1]] = table
        self.place = place
        self.steps = []
        masks = {}
        for name in order:
            inputs, output, rows = table_of[name]
            key = (len(inputs), tuple(rows))
            if key not in masks:
                mask = 0
                for value in range(1 << len(inputs)):
                    for row in rows:
                        if all(cell == 45 or (value >> j & 1) == cell - 48 for j, cell in enumerate(row)):
                            mask |= 1 << value
                            break
                masks[key] = mask
            self.steps.append((place[output], tuple(place[n] for n in inputs), masks[key]))
        self.latch_places = [(place[f], place[t], init) for f, t, init in blif.latches]
        self.output_places = [place[n] for n in blif.outputs]
        self.has_word = bool(blif.outputs) and blif.outputs[-1] == b"_paused"
        self.in_names = list(blif.inputs)
        self.out_names = blif.outputs[:-1] if self.has_word else list(blif.outputs)
        self.values = [0] * len(place)
        self.reset()

    def reset(self) -> None:
        self.latches: list[Any] = [int(init) for _, _, init in self.latch_places]
        self.all_outputs = [False] * len(self.output_places)

    def react(self, inputs: Sequence[bool]) -> None:
        values = self.values
        for j, bit in enumerate(inputs):
            values[j] = 1 if bit else 0
        for (_, to, _), bit in zip(self.latch_places, self.latches):
            values[to] = bit
        for output, operands, mask in self.steps:
            if len(operands) == 2:
                values[output] = mask >> (values[operands[0]] | values[operands[1]] << 1) & 1
            elif len(operands) == 1:
                values[output] = mask >> values[operands[0]] & 1
            else:
                index = 0
                for j, operand in enumerate(operands):
                    index |= values[operand] << j
                values[output] = mask >> index & 1
        self.latches = [values[f] for f, _, _ in self.latch_places]
        self.all_outputs = [bool(values[p]) for p in self.output_places]

    @property
    def outputs(self) -> list[bool]:
        return self.all_outputs[:-1] if self.has_word else self.all_outputs

    @property
    def word(self) -> Optional[bool]:
        return self.all_outputs[-1] if self.has_word else None

    def value(self, name: bytes) -> bool:
        return bool(self.values[self.place[name]])


def blif_output_name(net: Net, name: bytes) -> bytes:
    return name + b".out" if name in net.inputs else name


def write_blif(net: Net) -> bytes:
    names = letter_names(net, b"_", lambda j, name: b"_i%d" % j)
    first = net.first_gate()
    lines = [b".model " + net.name]
    if net.inputs:
        lines.append(b".inputs " + b" ".join(net.inputs))
    lines.append(b" ".join([b".outputs"] + [blif_output_name(net, n) for n, _ in net.outputs] + [b"_paused"]))
    for j, (init, source) in enumerate(net.latches):
        lines.append(b".latch %s _s%d %d" % (names[source], j, init))
    for j, name in enumerate(net.inputs):
        lines += [b".names %s _i%d" % (name, j), b"1 1"]
    rows = {"and": [b"11 1"], "or": [b"1- 1", b"-1 1"], "not": [b"0 1"], "copy": [b"1 1"]}
    for k, (op, _) in enumerate(net.gates):
        operands = () if op[0] == "const" else op[1:]
        lines.append(b" ".join([b".names"] + [names[n] for n in operands] + [names[first + k]]))
        if op[0] == "const":
            lines += [b"1"] if op[1] else []
        else:
            lines += rows[op[0]]
    for name, source in net.outputs:
        lines += [b".names %s %s" % (names[source], blif_output_name(net, name)), b"1 1"]
    lines += [b".names %s _paused" % names[net.paused], b"1 1", b".end"]
    return b"".join(line + b"\n" for line in lines)


OPS = {(1, (b"1",)): "copy", (1, (b"0",)): "not", (2, (b"11",)): "and", (2, (b"1-", b"-1")): "or"}


def net_of_blif(blif: Blif) -> Net:
    """The net of a written BLIF; the caller compares write_blif of it with the text."""
    ins, lats = len(blif.inputs), len(blif.latches)
    table = {b"_i%d" % j: j for j in range(ins)}
    table.update({b"_s%d" % j: ins + j for j in range(lats)})
    gates = []
    outs = blif.outputs
    if not outs or outs[-1] != b"_paused":
        raise NotWritten("the last output is not _paused")
    count = len(blif.tables) - ins - len(outs)
    if count < 0:
        raise NotWritten("too few tables")
    for k in range(count):
        inputs, output, rows = blif.tables[ins + k]
        wire = gate_label(output, b"_", k)
        if not inputs:
            op: Any = ("const", bool(rows))
        else:
            kind = OPS.get((len(inputs), tuple(rows)))
            if kind is None:
                raise NotWritten("the table of %r is no gate" % output)
            op = (kind,) + tuple(net_number(table, n) for n in inputs)
        table[output] = ins + lats + k
        gates.append((op, wire))
    sources = [net_number(table, t[0][0]) if len(t[0]) == 1 else -1 for t in blif.tables[ins + count :]]
    names = [n[:-4] if n.endswith(b".out") and n[:-4] in blif.inputs else n for n in outs[:-1]]
    return Net(
        blif.name,
        blif.inputs,
        list(zip(names, sources)),
        sources[-1],
        [(init, net_number(table, f)) for f, _, init in blif.latches],
        gates,
    )
