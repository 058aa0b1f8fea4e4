"""What `cec-prove` answers, against a search of all reachable states; a trace that it writes is run."""

from __future__ import annotations

import re
from typing import Optional, Sequence, Union

from fuzzing.cases import Case
from fuzzing.constructive import stuck_line, stuck_state
from fuzzing.written import Difference
from rules.blif import NetRunner, read_blif
from rules.command import SourceRunner
from rules.compiling import Compiled, compile_source
from rules.front import flat_program
from rules.optimizer import BAD_TEXT, Refused
from rules.outcomes import Outcome, line_column
from rules.points import covered, points_of
from rules.prover import (
    FILE_FAULT,
    LIMIT,
    NO_SIGNAL,
    OTHER,
    PROVED,
    REFUTED,
    STATIC,
    STUCK,
    UNDECIDED,
    USAGE,
    Asked,
    Circuit,
    Misuse,
    Question,
    Subject,
    asked_of,
    first_break,
    first_breaks,
    first_difference,
    has_cycle,
    runner_of,
    trace_of,
)
from rules.text_faults import is_loop
from rules.traces import TraceFault, TraceReader

REACHED = re.compile(rb"(\d+:\d+: [a-z]+) (never|undecided|reached:(.*))\n", re.DOTALL)
SEARCHED = re.compile(rb"cec-prove: undecided, instants searched: (\d+)\n")
Answer = tuple[bytes, bytes, int]
Found = tuple[str, int]
Runner = Union[SourceRunner, NetRunner]


def line(text: bytes) -> bytes:
    return b"cec-prove: " + text + b"\n"


def is_refused(got: Answer, status: int, err: Optional[bytes]) -> Optional[str]:
    """What is amiss where an answer has no trace; a line may be free."""
    if got[2] != status:
        return "status %r, not %r" % (got[2], status)
    if got[0]:
        return "stdout"
    return None if err is None or got[1] == err else "stderr"


def judge_source(outcome: Outcome, file: bytes, got: Answer) -> Optional[str]:
    """A source that does not compile, for another cause than a cycle."""
    if outcome.kind == "Static":
        return is_refused(got, STATIC, b"cec: " + outcome.line + b"\n")
    return is_refused(got, LIMIT, line(b"a limit is passed, see cec check " + file))


def judge_cycle(done: Compiled, name: bytes, got: Answer) -> Optional[tuple[str, Optional[str]]]:
    """An outcome about the cycle of a source, and what is amiss; None where the answer has another one. The second source
    of a comparison has its name in the line. Any cycle may be shown.
    """
    out, err, status = got
    if status == STUCK:
        try:
            return "stuck", None if err == line(name + stuck_line(done, out)) else "stderr"
        except Difference as difference:
            return "stuck", str(difference)
    if status == UNDECIDED and err.startswith(b"cec-prove: " + name + b"undecided: "):
        return "undecided cycle", "stdout" if out else None
    if status == LIMIT and err.startswith(b"cec-prove: " + name + b"limit: nets: "):
        return "too many nets", "stdout" if out else None
    return None


def judge_cycles(asked: Asked, done: Sequence[Subject], got: Answer) -> Optional[tuple[str, Optional[str]]]:
    """The same of all sources. Every other outcome says that none of them is known to stop."""
    names = [b"", asked.files[-1] + b": "]
    spoken = 1 if len(done) == 2 and got[1].startswith(b"cec-prove: " + names[1]) else 0
    for number, subject in enumerate(done):
        if not isinstance(subject, Compiled) or not has_cycle(subject):
            continue
        about = judge_cycle(subject, names[number], got) if number == spoken else None
        if about is not None:
            return about
        if stuck_state(subject):
            return "constructive", "some events lead to an instant that is not constructive"
    return None


def judge_text(refused: Refused, text: bytes, name: bytes, got: Answer) -> Optional[str]:
    """A text without a circuit; any loop of its tables may be shown. The second text of a comparison has its name."""
    note = is_refused(got, BAD_TEXT, None)
    if note or got[1] == line(name + refused.line):
        return note
    head = b"cec-prove: " + name + b"loop: "
    if refused.names and got[1].startswith(head) and got[1].endswith(b"\n"):
        names = got[1][len(head) : -1].split(b" -> ")
        return None if is_loop(read_blif(text).uses(), names) else "not a loop"
    return "stderr"


def events_of(done: Subject, text: bytes, is_one_line: bool = False) -> tuple[list[list[bool]], Optional[str]]:
    """The events of a trace that is spelled in the one way and meets the relations; and what is amiss."""
    reader, events = TraceReader(text, done.in_names, done.relations), []
    while True:
        try:
            item = reader.next()
        except TraceFault as fault:
            return [], "trace: %s" % fault.kind
        if item is None:
            break
        if isinstance(item, str):
            return [], "trace: a reset"
        events.append(list(item))
    if text != trace_of(done.in_names, events, is_one_line):
        return [], "trace: another spelling"
    return events, None if events else "trace: no instant"


def is_constructive(runner: Runner, event: Sequence[bool]) -> bool:
    """Runs one instant; false where the program has no reaction."""
    try:
        runner.react(event)
    except Outcome:
        return False
    return True


def judge_trace(question: Question, text: bytes, is_one_line: bool = False) -> Optional[str]:
    """A trace breaks the claim in its last instant alone."""
    events, note = events_of(question.done, text, is_one_line)
    runner, broken = runner_of(question.done), False
    for number, event in enumerate(events):
        if broken:
            return "trace: the claim is broken before the last instant"
        if not is_constructive(runner, event):
            return "trace: instant %d is not constructive" % (number + 1)
        if not question.is_kept(runner.outputs):
            return "trace: what is assumed is absent in instant %d" % (number + 1)
        broken = question.is_broken(runner.outputs)
    return note or (None if broken else "trace: its last instant does not break the claim")


def judge_difference(one: Subject, two: Subject, text: bytes) -> Optional[str]:
    """A trace leads to reactions that are not the same, in its last instant alone."""
    events, note = events_of(one, text)
    runners, differs = [runner_of(done) for done in (one, two)], False
    for event in events:
        if differs:
            return "trace: the programs differ before the last instant"
        if not all([is_constructive(runner, event) for runner in runners]):
            return "trace: an instant is not constructive"
        differs = (runners[0].outputs, runners[0].word) != (runners[1].outputs, runners[1].word)
    return note or (None if differs else "trace: its last reactions are the same")


def judge_verdict(found: Found, got: Answer, refutation: Optional[str]) -> tuple[str, Optional[str]]:
    """A verdict against the first break that a search found; of a trace it is known what is amiss."""
    (kind, depth), (out, err, status) = found, got
    if status == REFUTED:
        if err != line(b"refuted"):
            return "refuted", "stderr"
        return "refuted", "refuted, and no state breaks the claim" if kind == "never" else refutation
    if out:
        return kind, "stdout"
    if status == PROVED and err == line(b"proved"):
        return "proved", "proved, and %d instants break the claim" % depth if kind == "in" else None
    searched = SEARCHED.fullmatch(err)
    if status != UNDECIDED or searched is None:
        return kind, "status %r, err %r" % (status, err)
    if kind == "in" and depth <= int(searched[1]):
        return "undecided", "%s instants searched, and %d break the claim" % (searched[1].decode(), depth)
    return "undecided", None


def judge_claim(asked: Asked, done: Subject, got: Answer) -> tuple[str, Optional[str]]:
    for name in [asked.signal] + ([asked.assumed] if asked.assumed is not None else []):
        if name not in done.out_names:
            return "no signal", is_refused(got, NO_SIGNAL, line(b"no outgoing signal " + name))
    question = question_of(done, asked.command == b"always", asked.signal, asked.assumed)
    return judge_verdict(first_break(question), got, judge_trace(question, got[0]) if got[2] == REFUTED else None)


def question_of(done: Subject, is_always: bool, signal: bytes, assumed: Optional[bytes]) -> Question:
    place = done.out_names.index(assumed) if assumed is not None else None
    return Question(done, is_always, done.out_names.index(signal), place)


def judge_presence(
    done: Subject, name: bytes, assumed: Optional[bytes], word: bytes, rest: Sequence[bytes]
) -> Optional[str]:
    """The lines of one signal in a survey: its word, and a trace to an instant with it and to one without it."""
    shown = set()
    for is_always, said in ((False, b" present:"), (True, b" absent:")):
        question, told = question_of(done, is_always, name, assumed), [it for it in rest if it.startswith(name + said)]
        kind, depth = first_break(question)
        if word == (b"always" if is_always else b"never") and kind == "in":
            return "%s of %s, and %d instants break it" % (word.decode(), name.decode(), depth)
        if len(told) > 1 or (told and kind == "never"):
            return "a trace of %s%s" % (name.decode(), said.decode())
        if told:
            shown.add(is_always)
            note = judge_trace(question, told[0][len(name + said) : -1], True)
            if note:
                return "%s%s %s" % (name.decode(), said.decode(), note)
    wanted = {b"never": (0,), b"always": (0,), b"sometimes": (2,), b"undecided": (0, 1)}.get(word, ())
    return None if len(shown) in wanted and len(rest) == len(shown) else "the lines of %s" % name.decode()


def judge_survey(asked: Asked, done: Subject, got: Answer) -> tuple[str, Optional[str]]:
    out, err, status = got
    if asked.assumed is not None and asked.assumed not in done.out_names:
        return "no signal", is_refused(got, NO_SIGNAL, line(b"no outgoing signal " + asked.assumed))
    lines, is_whole = out.splitlines(keepends=True), True
    for name in done.out_names:
        word = re.fullmatch(re.escape(name) + rb" (never|always|sometimes|undecided)\n", lines[0]) if lines else None
        if word is None:
            return "survey", "no line of %s" % name.decode()
        count = 1
        while count < len(lines) and lines[count].startswith((name + b" present:", name + b" absent:")):
            count += 1
        note = judge_presence(done, name, asked.assumed, word[1], lines[1:count])
        if note:
            return "survey", note
        is_whole &= word[1] != b"undecided"
        lines = lines[count:]
    said, ends = (b"all signals are decided", PROVED) if is_whole else (b"some signals are undecided", UNDECIDED)
    return "survey", "stdout" if lines else None if (err, status) == (line(said), ends) else "stderr or status"


def judge_point(question: Optional[Question], found: Found, said: bytes, trace: Optional[bytes]) -> Optional[str]:
    """What is said of one point: its signal is the one of the question."""
    kind, depth = found
    if said == b"never" and kind == "in":
        return "never, and %d instants reach it" % depth
    if trace is None or question is None:
        return None
    return "reached, and no state does" if kind == "never" else judge_trace(question, trace, True)


def judge_covering(asked: Asked, text: bytes, done: Compiled, got: Answer) -> tuple[str, Optional[str]]:
    """The lines of all points, each against a search in the program that shows which points are reached."""
    out, err, status = got
    if asked.assumed is not None and asked.assumed not in done.out_names:
        return "no signal", is_refused(got, NO_SIGNAL, line(b"no outgoing signal " + asked.assumed))
    points, questions, is_whole = points_of(flat_program(text, asked.main)), [], True
    lines = out.splitlines(keepends=True)
    if len(lines) != len(points):
        return "covering", "%d lines of %d points" % (len(lines), len(points))
    try:
        shown = Compiled(text, asked.main, cyclic_ok=True, change=covered)
        place = done.out_names.index(asked.assumed) if asked.assumed is not None else None
        questions = [Question(shown, False, len(done.out_names) + number, place) for number in range(len(points))]
    except Outcome:
        pass  # the signals of all points together pass a limit
    breaks = first_breaks(questions)
    for number, (kind, at) in enumerate(points):
        told, head = REACHED.fullmatch(lines[number]), line_column(text, at) + b": " + kind
        if told is None or told[1] != head:
            return "covering", "the line of %s" % head.decode()
        question, found = (questions[number], breaks[number]) if questions else (None, ("unknown", 0))
        note = judge_point(question, found, told[2], told[3])
        if note:
            return "covering", "%s: %s" % (head.decode(), note)
        is_whole &= told[2] != b"undecided"
    said, ends = (b"all points are decided", PROVED) if is_whole else (b"some points are undecided", UNDECIDED)
    return "covering", None if (err, status) == (line(said), ends) else "stderr or status"


def judge_comparison(one: Subject, two: Subject, got: Answer) -> tuple[str, Optional[str]]:
    """Where several parts of the interfaces differ, the line may be that of any."""
    differs = {
        b"given signals": one.in_names != two.in_names,
        b"outgoing signals": one.out_names != two.out_names,
        b"relations": one.relations != two.relations,
    }
    lines = [line(b"the " + name + b" differ") for name in differs if differs[name]]
    if lines:
        return "other", None if not got[0] and got[1] in lines and got[2] == OTHER else "the interfaces differ"
    refutation = judge_difference(one, two, got[0]) if got[2] == REFUTED else None
    return judge_verdict(first_difference(one, two), got, refutation)


def judge(case: Case, got: Answer) -> tuple[str, Optional[str]]:
    """The outcome, and what is amiss. Where two files are at fault, the line may be that of either."""
    try:
        asked = asked_of(case.words)
    except Misuse as misuse:
        return "usage", is_refused(got, USAGE, line(misuse.words + b", see cec-prove --help"))
    if asked is None:
        return "own", None if got[2] == PROVED and got[0] and not got[1] else "an answer about the program"
    done, faults = subjects_of(asked, case, got)
    if faults:
        return "refused", None if None in faults else faults[0]
    about = judge_cycles(asked, done, got)
    if about is not None:
        return about
    if asked.command == b"same":
        return judge_comparison(done[0], done[1], got)
    if isinstance(done[0], Compiled) and asked.command == b"cover":
        return judge_covering(asked, case.files[asked.files[0]], done[0], got)
    return judge_survey(asked, done[0], got) if asked.command == b"all" else judge_claim(asked, done[0], got)


def subjects_of(asked: Asked, case: Case, got: Answer) -> tuple[list[Subject], list[Optional[str]]]:
    """What is asked about, and of each file that is at fault what is amiss."""
    done: list[Subject] = []
    faults: list[Optional[str]] = []
    for number, file in enumerate(asked.files):
        if file not in case.files:
            faults.append(is_refused(got, FILE_FAULT, line(b"cannot read " + file)))
            continue
        text = case.files[file]
        try:
            done.append(Circuit(text) if asked.is_text else compile_source(text, asked.main, cyclic_ok=True))
        except Refused as refused:
            faults.append(judge_text(refused, text, file + b": " if number else b"", got))
        except Outcome as outcome:
            faults.append(judge_source(outcome, file, got))
    return done, faults
