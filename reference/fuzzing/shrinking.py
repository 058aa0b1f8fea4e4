"""Makes a case smaller in which the program and the reference differ."""

from __future__ import annotations

import re
import time
from typing import Callable, Optional

from fuzzing.cases import Case
from fuzzing.judging import judge
from fuzzing.programs import Programs

TOKEN = re.compile(rb"[A-Za-z0-9_.!]+|\s+|[^A-Za-z0-9_.!\s]", re.S)
LINE = re.compile(rb"[^\n]*\n|[^\n]+")


def kind_of(note: Optional[str]) -> Optional[str]:
    """A note without what differs from case to case."""
    return re.sub(r"[0-9]+", "", note.split(":")[0]) if note else None


def without_runs(pieces: list[bytes], differs: Callable[[list[bytes]], bool], end: float) -> list[bytes]:
    """The pieces without the runs that are not needed, long runs first, until the time is over."""
    size = max(1, len(pieces) // 2)
    while True:
        at = 0
        while at < len(pieces):
            if time.time() > end:
                return pieces
            less = pieces[:at] + pieces[at + size :]
            if differs(less):
                pieces = less
            else:
                at += size
        if size == 1:
            return pieces
        size //= 2


def without_pairs(pieces: list[bytes], differs: Callable[[list[bytes]], bool], end: float) -> list[bytes]:
    """The pieces without pairs that are not needed, such as brackets, or a word and its `end`, with what is between
    or not.
    """
    first = 0
    while first < len(pieces):
        for last in range(len(pieces) - 1, first, -1):
            if time.time() > end:
                return pieces
            if pieces[first].isspace() or pieces[last].isspace():
                continue
            less = pieces[:first] + pieces[first + 1 : last] + pieces[last + 1 :]
            if differs(less):
                pieces = less
                break
        else:
            first += 1
    return pieces


def with_plain(pieces: list[bytes], differs: Callable[[list[bytes]], bool], end: float) -> list[bytes]:
    """The pieces with one plain statement in place of several pieces."""
    first = 0
    while first < len(pieces):
        for last in range(len(pieces), first + 1, -1):
            if time.time() > end:
                return pieces
            for plain in (b"pause", b"nothing"):
                less = pieces[:first] + [plain] + pieces[last:]
                if len(b"".join(less)) < len(b"".join(pieces)) and differs(less):
                    pieces = less
                    break
            else:
                continue
            break
        first += 1
    return pieces


SIMPLER = [
    (re.compile(rb"%\{.*?\}%|%[^\n]*\n", re.S), b" "),
    (re.compile(rb"\s+"), b" "),
]
MANY = 120


def shrunk(case: Case, programs: Programs, seconds: float) -> Case:
    """A case in which nothing more can be left out, or the smallest one that the time allows."""

    def note_of(trial: Case) -> Optional[str]:
        try:
            return kind_of(judge(trial, programs).note)
        except Exception as problem:  # a fault of the reference is a difference too
            return "reference: %s" % type(problem).__name__

    kind = note_of(case)
    if kind is None:
        return case
    end = time.time() + seconds
    words, files = list(case.words), dict(case.files)

    def same(trial_words: list[bytes], trial_files: dict[bytes, bytes]) -> bool:
        return note_of(Case(case.kind, case.program, trial_words, trial_files)) == kind

    before = None
    while before != (words, files) and time.time() < end:
        before = (list(words), dict(files))
        for at in range(len(words) - 1, 0, -1):
            for width in (2, 1):
                fewer = words[:at] + words[at + width :]
                if fewer != words and same(fewer, files):
                    words = fewer
                    break
        for name in sorted(files):
            for pattern, plain in SIMPLER:
                simpler = pattern.sub(plain, files[name])
                if simpler != files[name] and same(words, {**files, name: simpler}):
                    files[name] = simpler

            def differs(pieces: list[bytes], name: bytes = name) -> bool:
                return same(words, {**files, name: b"".join(pieces)})

            for pieces_of in (LINE, TOKEN):
                files[name] = b"".join(without_runs(pieces_of.findall(files[name]), differs, end))
            for further in (without_pairs, with_plain):
                pieces = TOKEN.findall(files[name])
                if len(pieces) <= MANY:
                    files[name] = b"".join(further(pieces, differs, end))
    used = {word for word in words}
    return Case(case.kind, case.program, words, {name: data for name, data in files.items() if name in used or data})
