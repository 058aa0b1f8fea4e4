"""The whole program: what each command answers.

Stands for `Jobs`, `Outcomes` and `Accepted` (crates/cec_commands/specs/) and for the function `cec`. The texts of
`blif`, `c` and `verilog` are one allowed answer: the gates are free. So is the last line of `run --via guard`,
which counts the assignments of a guarded text. All else on standard output, on standard error and in the status is
fixed.
"""

from __future__ import annotations

import os
import sys
from typing import Iterable, Mapping, Optional, Protocol, Sequence, Union

from rules.circuit_runs import TriMachine
from rules.compiling import Compiled, check_line, compile_source, listing, text_of
from rules.generator import generate_source, next_event
from rules.guarded_c import GuardedRunner, read_guarded
from rules.limits import MAX_SOURCE, MAX_TEXT, MAX_TRACE
from rules.netlist import NetMachine
from rules.outcomes import STATUS, USAGE, Outcome, Result, err_line, text_line, trace_line
from rules.text_faults import TextFault
from rules.texts import TextMachine, open_text
from rules.traces import Relation, TraceFault, TraceReader, reaction_line
from rules.words import Asked, help_text, read_words

PIECE = 65536


class Files(Protocol):
    def read(self, name: bytes) -> Optional[bytes]:
        ...


class Disk:
    def read(self, name: bytes) -> Optional[bytes]:
        try:
            with open(name, "rb") as file:
                return file.read()
        except (OSError, ValueError):
            return None


class FilesInMemory:
    """A map of files; a call whose number, from 1, is in `failing` fails."""

    def __init__(self, entries: Mapping[bytes, bytes], failing: Iterable[int] = ()) -> None:
        self.entries = entries
        self.failing = set(failing)
        self.calls = 0

    def read(self, name: bytes) -> Optional[bytes]:
        self.calls += 1
        return None if self.calls in self.failing else self.entries.get(name)


class Out:
    """A sink that fails at the calls in `failing` and appends nothing there."""

    def __init__(self, failing: Iterable[int] = ()) -> None:
        self.pieces: list[bytes] = []
        self.calls = 0
        self.failing = set(failing)

    def write(self, piece: bytes) -> None:
        self.calls += 1
        if self.calls in self.failing:
            raise Outcome("WriteFault", b"cannot write")
        self.pieces.append(piece)

    def write_text(self, text: bytes) -> None:
        for at in range(0, len(text), PIECE):
            self.write(text[at : at + PIECE])

    def bytes(self) -> bytes:
        return b"".join(self.pieces)


class SourceRunner:
    """Runs a compiled source. `via guard` counts the assignments of a text as well."""

    def __init__(self, done: Compiled, via: str) -> None:
        self.done = done
        self.in_names, self.out_names = done.in_names, done.out_names
        self.outputs: list[bool] = []
        self.word: Optional[bool] = None
        self.guarded: Optional[GuardedRunner] = None
        if via == "guard":
            self.guarded = GuardedRunner(read_guarded(text_of(done, "guard")))
        self.machine: Union[TriMachine, NetMachine]
        if via == "tri":
            self.machine = TriMachine(done.shape)
        else:
            self.machine = NetMachine(done.shape.generate())
        self.instant = 0

    def reset(self) -> None:
        self.machine.reset()
        if self.guarded:
            self.guarded.reset()

    def react(self, event: Sequence[bool]) -> None:
        self.instant += 1
        answer = self.machine.react(event)
        if answer is None:
            assert isinstance(self.machine, TriMachine)
            names = [self.done.shape.wire_text(w) for w in self.machine.unknown]
            raise Outcome("NotConstructive", b"instant %d: not constructive: " % self.instant + b", ".join(names))
        self.outputs, self.word = answer
        if self.guarded:
            word = self.guarded.react(event)
            assert (self.guarded.outputs, word) == (self.outputs, self.word)

    @property
    def total(self) -> int:
        return self.guarded.total if self.guarded else 0


def read_file(files: Files, name: bytes, limit: int, limit_name: bytes) -> bytes:
    text = files.read(name)
    if text is None:
        raise Outcome("FileFault", b"cannot read " + name)
    if len(text) > limit:
        raise Outcome("Limit", b"limit: " + limit_name)
    return text


def run_trace(
    runner: Union[SourceRunner, TextMachine],
    text: bytes,
    relations: Sequence[Relation],
    out: Out,
    count_line: bool,
) -> None:
    """Writes the line of each reaction, up to the first fault of the trace."""
    reader = TraceReader(text, runner.in_names, relations)
    while True:
        try:
            item = reader.next()
        except TraceFault as fault:
            raise Outcome("Trace", trace_line(fault), fault.key())
        if item is None:
            break
        if isinstance(item, str):
            runner.reset()
            continue
        runner.react(item)
        out.write(reaction_line(runner.out_names, runner.outputs, runner.word))
    if count_line:
        assert isinstance(runner, (SourceRunner, GuardedRunner))
        out.write(b"assignments %d\n" % runner.total)


def do_gen(asked: Asked, out: Out) -> None:
    source, draw = generate_source(asked.start, asked.branches)
    if asked.run is None:
        out.write_text(source)
        return
    runner = SourceRunner(compile_source(source), "blif")
    emitted = paused = 0
    for _ in range(asked.run):
        runner.react(next_event(draw))
        emitted += sum(runner.outputs)
        paused += bool(runner.word)
    out.write_text(b"instants %d\nemitted %d\npaused %d\n" % (asked.run, emitted, paused))


def do_exec(asked: Asked, files: Files, out: Out) -> None:
    text = read_file(files, asked.files[0], MAX_TEXT, b"text")
    try:
        runner = open_text(asked.via, text)
    except TextFault as fault:
        raise Outcome("BadText", text_line(fault), (asked.via, text, fault))
    trace_text = read_file(files, asked.files[1], MAX_TRACE, b"trace")
    run_trace(runner, trace_text, (), out, asked.via == "guard")


def do(asked: Asked, files: Files, out: Out) -> None:
    command = asked.command
    if command == "help":
        out.write_text(help_text())
        return
    if command == "gen":
        do_gen(asked, out)
        return
    if command == "exec":
        do_exec(asked, files, out)
        return
    source = read_file(files, asked.files[0], MAX_SOURCE, b"source")
    done = compile_source(source, asked.main, command == "run" and asked.via == "tri")
    if command == "check":
        out.write_text(check_line(done))
    elif command == "grc":
        out.write_text(listing(done.shape))
    elif command == "run":
        trace_text = read_file(files, asked.files[1], MAX_TRACE, b"trace")
        run_trace(SourceRunner(done, asked.via), trace_text, done.relations, out, asked.via == "guard")
    else:
        out.write_text(text_of(done, "guard" if asked.guard else command, asked.encode))


def call(words: Sequence[bytes], files: Union[Files, Mapping[bytes, bytes]], failing: Iterable[int] = ()) -> Result:
    """What the program answers; calls of the sink whose numbers are in `failing` fail."""
    reader: Files = FilesInMemory(files) if isinstance(files, Mapping) else files
    out = Out(failing)
    asked = read_words(words)
    try:
        if asked is None:
            raise Outcome("Usage", USAGE)
        do(asked, reader, out)
        return Result(Outcome("Done"), out.bytes(), b"")
    except Outcome as outcome:
        return Result(outcome, out.bytes(), err_line(outcome.line))


def main(argv: Sequence[str]) -> int:
    words = [os.fsencode(word) for word in argv]
    for word in words:
        try:
            word.decode()
        except UnicodeDecodeError:
            return 13
    result = call(words, Disk())
    status, err = result.status, result.err
    try:
        at = 0
        while at < len(result.out):
            at += os.write(1, result.out[at : at + PIECE])
    except OSError:
        status, err = STATUS["WriteFault"], err_line(b"cannot write")
    try:
        os.write(2, err)
    except OSError:
        pass
    return status


if __name__ == "__main__":
    sys.exit(main(sys.argv[1:]))
