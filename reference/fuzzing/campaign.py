"""Compares the built programs with the reference on random cases.

Case K of a seed is always the same, so `--seed S --only K` repeats one. Each
difference is shrunk, printed, and kept in a folder with its files, its words and both answers. The exit status is
1 where there is one.
"""

from __future__ import annotations

import argparse
import multiprocessing
import os
import shlex
import shutil
import sys
import tempfile
import time
from collections import deque
from multiprocessing.pool import AsyncResult, Pool
from pathlib import Path
from typing import Iterator, Optional

from fuzzing.cases import KINDS, PROGRAMS, Case, drawn_case
from fuzzing.fixed import ROWS
from fuzzing.judging import judge
from fuzzing.programs import Answer, Programs
from fuzzing.shrinking import shrunk

TOP = Path(__file__).resolve().parent.parent.parent
BUILT = {
    "cec": "crates/cec/out/cec",
    "cec-opt": "crates/cec_opt/out/cec_opt",
    "cec-prove": "crates/cec_prove/out/cec_prove",
}
VARIABLES = {"cec": "CEC", "cec-opt": "CEC_OPT", "cec-prove": "CEC_PROVE"}
SMALL_ROW = 4096


class Report:
    """What became of one case."""

    def __init__(self, label: str, kind: str, outcome: str, note: Optional[str]) -> None:
        self.label = label
        self.kind = kind
        self.outcome = outcome
        self.note = note
        self.text = ""


class Options:
    """What every process needs to know."""

    def __init__(self, words: argparse.Namespace) -> None:
        self.seed: int = words.seed
        self.kinds: list[str] = words.kinds.split(",")
        self.programs = {name: program_of(name, getattr(words, VARIABLES[name].lower())) for name in BUILT}
        self.timeout: float = words.timeout
        self.shrink_seconds: float = words.shrink
        self.out = Path(words.out)
        self.room = ""


def program_of(name: str, given: Optional[str]) -> list[str]:
    found = given or os.environ.get(VARIABLES[name])
    return shlex.split(found) if found else [str(TOP / BUILT[name])]


def answer_lines(title: str, answer: Optional[Answer]) -> bytes:
    if answer is None:
        return b""
    out, err, status = answer
    return b"%s, status %s\n  stdout %r\n  stderr %r\n" % (title.encode(), str(status).encode(), out[:2000], err[:2000])


def show(case: Case, label: str, note: str, got: Answer, want: Optional[Answer], repeat: str) -> bytes:
    """A case as text: the note, how to repeat it, the words, the files and both answers."""
    words = b" ".join(shlex.quote(os.fsdecode(word)).encode() for word in case.words)
    text = b"%s: %s\nrepeat: %s\ncall: %s %s\n" % (
        label.encode(),
        note.encode(),
        repeat.encode(),
        case.program.encode(),
        words,
    )
    for name, data in sorted(case.files.items()):
        text += (
            b"file %s, %d lines:\n" % (name, len(data.splitlines())) + data + (b"" if data.endswith(b"\n") else b"\n")
        )
    return text + answer_lines("the program", got) + answer_lines("the reference", want)


def keep(folder: Path, case: Case, text: bytes) -> None:
    shutil.rmtree(folder, ignore_errors=True)
    folder.mkdir(parents=True)
    for name, data in case.files.items():
        (folder / os.fsdecode(name)).write_bytes(data)
    (folder / "case.txt").write_bytes(text)


def try_case(case: Case, label: str, repeat: str, programs: Programs, options: Options) -> Report:
    try:
        judgement = judge(case, programs)
    except Exception as problem:  # a fault of the reference is a difference too
        report = Report(label, case.kind, "reference", "reference: %s: %s" % (type(problem).__name__, problem))
        report.text = show(case, label, report.note or "", (b"", b"", ""), None, repeat).decode("utf-8", "replace")
        return report
    report = Report(label, case.kind, judgement.outcome, judgement.note)
    if judgement.note is not None:
        small = shrunk(case, programs, options.shrink_seconds)
        again = judge(small, programs)
        text = show(small, label, again.note or judgement.note, again.got, again.want, repeat)
        keep(options.out / label, case, show(case, label, judgement.note, judgement.got, judgement.want, repeat))
        keep(options.out / (label + "-small"), small, text)
        report.text = text.decode("utf-8", "replace")
    return report


WORKER: dict[str, object] = {}


def start_worker(options: Options) -> None:
    WORKER["options"] = options
    WORKER["programs"] = Programs(options.programs, options.timeout, options.room)


def do_batch(numbers: list[int]) -> list[Report]:
    options, programs = WORKER["options"], WORKER["programs"]
    assert isinstance(options, Options) and isinstance(programs, Programs)
    reports = []
    for number in numbers:
        if number < 0:
            row = ROWS[-number - 1]
            case = Case("fixed", "cec", row.words, row.files)
            repeat, label = "--fixed " + shlex.quote(row.label), "fixed-%d" % -number
        else:
            case = drawn_case(options.seed, number, options.kinds)
            repeat = "--seed %d --only %d --kinds %s" % (options.seed, number, ",".join(options.kinds))
            label = "%d-%d-%s" % (options.seed, number, case.kind)
        reports.append(try_case(case, label, "reference/fuzz " + repeat, programs, options))
    return reports


def batches(words: argparse.Namespace, end: float) -> Iterator[list[int]]:
    """Fixed rows as negative numbers, then numbers of drawn cases."""
    if words.only is not None:
        yield [words.only]
        return
    if words.fixed is not None:
        rows = [-k - 1 for k, row in enumerate(ROWS) if words.fixed in ("all", row.label)]
        rows = [n for n in rows if words.fixed != "all" or sum(map(len, ROWS[-n - 1].files.values())) <= SMALL_ROW]
        for at in range(0, len(rows), 20):
            yield rows[at : at + 20]
    number = 0
    while (words.cases is None or number < words.cases) and time.time() < end:
        last = number + 20 if words.cases is None else min(number + 20, words.cases)
        yield list(range(number, last))
        number = last


class Progress:
    """A line on a terminal, and the summary."""

    def __init__(self) -> None:
        self.start = time.time()
        self.counts: dict[str, dict[str, int]] = {}
        self.cases = self.differences = 0
        self.shown = 0.0

    def add(self, report: Report) -> None:
        outcomes = self.counts.setdefault(report.kind, {})
        outcomes[report.outcome] = outcomes.get(report.outcome, 0) + 1
        self.cases += 1
        if report.note is not None:
            self.differences += 1
            self.clear()
            print(report.text, flush=True)
        now = time.time()
        if sys.stderr.isatty() and now - self.shown > 0.2:
            self.shown = now
            rate = self.cases / max(now - self.start, 0.001)
            line = "%d cases, %d differences, %.0f s, %.0f cases a second" % (
                self.cases,
                self.differences,
                now - self.start,
                rate,
            )
            print("\r" + line, end="", file=sys.stderr, flush=True)

    def clear(self) -> None:
        if sys.stderr.isatty():
            print("\r" + " " * 78 + "\r", end="", file=sys.stderr, flush=True)

    def summary(self, quiet: bool) -> str:
        self.clear()
        lines = []
        for kind, outcomes in sorted(self.counts.items()):
            total = sum(outcomes.values())
            parts = ", ".join("%s %d" % pair for pair in sorted(outcomes.items(), key=lambda pair: -pair[1]))
            lines.append("%-9s %6d: %s" % (kind, total, parts))
        ending = "%d cases, %d differences, %.0f s" % (self.cases, self.differences, time.time() - self.start)
        return "\n".join(([] if quiet else lines) + [ending])


def in_turn(pool: Pool, work: Iterator[list[int]], ahead: int) -> Iterator[list[Report]]:
    """The reports of batches, of which only a few are given out ahead."""
    waiting: deque[AsyncResult[list[Report]]] = deque()
    for numbers in work:
        waiting.append(pool.apply_async(do_batch, (numbers,)))
        if len(waiting) >= ahead:
            yield waiting.popleft().get()
    while waiting:
        yield waiting.popleft().get()


def arguments(argv: list[str]) -> argparse.Namespace:
    parser = argparse.ArgumentParser(prog="reference/fuzz", description=__doc__)
    parser.add_argument("--seed", type=int, default=1, help="which cases (default: 1)")
    parser.add_argument("--cases", type=int, help="how many; default: 1,000, or as many as --seconds allows")
    parser.add_argument("--seconds", type=float, help="begin no further case after this time")
    parser.add_argument(
        "--jobs", type=int, default=os.cpu_count() or 1, help="processes (default: one for each processor)"
    )
    parser.add_argument("--kinds", default=",".join(KINDS), help="kinds of cases, with commas (default: %(default)s)")
    parser.add_argument("--only", type=int, metavar="K", help="case K of the seed alone")
    parser.add_argument(
        "--fixed", metavar="LABEL", help="the worked case with this label, or `all`, in addition to the random ones"
    )
    parser.add_argument("--cec", metavar="PROGRAM", help="default: $CEC, or " + BUILT["cec"])
    parser.add_argument("--cec-opt", metavar="PROGRAM", help="default: $CEC_OPT, or " + BUILT["cec-opt"])
    parser.add_argument("--cec-prove", metavar="PROGRAM", help="default: $CEC_PROVE, or " + BUILT["cec-prove"])
    parser.add_argument("--out", default="fuzz_differences", metavar="FOLDER", help="where differences are kept")
    parser.add_argument("--shrink", type=float, default=60, metavar="SECONDS", help="time for shrinking (default: 60)")
    parser.add_argument(
        "--timeout",
        type=float,
        default=60,
        metavar="SECONDS",
        help="time for one call, before a second try (default: 60)",
    )
    parser.add_argument("--differences", type=int, default=10, metavar="N", help="end after this many (default: 10)")
    parser.add_argument("--quiet", action="store_true", help="the last line of the summary alone")
    words = parser.parse_args(argv)
    if words.cases is None and words.seconds is None:
        words.cases = 0 if words.fixed is not None and words.fixed != "all" else 1000
    for kind in words.kinds.split(","):
        if kind not in KINDS:
            parser.error("no kind %s" % kind)
    return words


def main(argv: list[str]) -> int:
    words = arguments(argv)
    options = Options(words)
    for name in sorted({"cec"} | {PROGRAMS.get(kind, "cec") for kind in options.kinds}):
        program = options.programs[name]
        if shutil.which(program[0]) is None:
            print("fuzz: no program %s for %s: build it, or name one" % (program[0], name), file=sys.stderr)
            return 2
    end = time.time() + words.seconds if words.seconds is not None else float("inf")
    progress = Progress()
    with tempfile.TemporaryDirectory(prefix="cec_fuzz_") as room:
        options.room = room
        with multiprocessing.Pool(words.jobs, start_worker, (options,)) as pool:
            for reports in in_turn(pool, batches(words, end), words.jobs * 2):
                for report in reports:
                    progress.add(report)
                if progress.differences >= words.differences:
                    break
    print(progress.summary(words.quiet))
    return 1 if progress.differences else 0
