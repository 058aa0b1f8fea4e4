"""What the program answered, against what the reference answers."""

from __future__ import annotations

from typing import Any, Optional

from fuzzing import claims, optimized
from fuzzing.cases import Case, Files
from fuzzing.programs import TIMEOUT, Answer, Programs
from fuzzing.semantics import check_kernel
from fuzzing.written import Difference, check_text
from rules.command import call
from rules.outcomes import STATUS, Result
from rules.text_faults import is_loop
from rules.texts import uses_of_text
from rules.words import Asked, read_words


# Programs whose answers have some freedom: what is due is judged and not computed.
JUDGES = {"cec-opt": optimized.judge, "cec-prove": claims.judge}


class Judgement:
    """What is amiss, if anything; the outcome that is due; and both answers."""

    def __init__(self, note: Optional[str], outcome: str, got: Answer, want: Optional[Answer]) -> None:
        self.note = note
        self.outcome = outcome
        self.got = got
        self.want = want


def judge(case: Case, programs: Programs) -> Judgement:
    got = programs.answer(case.program, case.words, case.files)
    if got[2] == TIMEOUT:
        return Judgement(TIMEOUT, TIMEOUT, got, None)
    if case.program in JUDGES:
        if got[2] == STATUS["NoMemory"]:
            return Judgement("out of memory", "NoMemory", got, None)
        outcome, note = JUDGES[case.program](case, (got[0], got[1], int(got[2])))
        return Judgement(note, outcome, got, None)
    want = call(case.words, case.files)
    note = differences(case, got, want, programs)
    return Judgement(note, want.outcome.kind, got, (want.out, want.err, want.status))


def differences(case: Case, got: Answer, want: Result, programs: Programs) -> Optional[str]:
    out, err, status = got
    if status == STATUS["NoMemory"]:
        return "out of memory"
    if status != want.status:
        return "status %r, not %r" % (status, want.status)
    asked = read_words(case.words)
    kind = want.outcome.kind
    if kind == "Done" and asked is not None and asked.command in ("blif", "c", "verilog"):
        return text_difference(asked, case.files, out, err)
    if kind == "Done" and asked is not None and asked.command == "run" and asked.via == "guard":
        return guard_difference(asked, case.files, got, want, programs)
    if out != want.out:
        return "stdout"
    if asked is not None and asked.command == "run":
        note = check_kernel(asked, case.files, want)
        if note is not None:
            return note
    if err == want.err:
        return None
    if kind == "Cyclic":
        return cycle_difference(want.outcome.data, err)
    if kind == "BadText":
        return text_fault_difference(want.outcome.data, err)
    return "stderr"


def text_difference(asked: Asked, files: Files, out: bytes, err: bytes) -> Optional[str]:
    if err:
        return "stderr is not empty"
    via = "guard" if asked.guard else asked.command
    try:
        check_text(via, files[asked.files[0]], out, asked.main, asked.encode)
    except Difference as difference:
        return "text: %s" % difference
    return None


def cycle_difference(data: Any, err: bytes) -> Optional[str]:
    """Any closed walk of the dependency relation may be shown."""
    shape, _ = data
    head = b"cec: cyclic: "
    if not err.startswith(head) or not err.endswith(b"\n"):
        return "stderr"
    place = {shape.wire_text(w): w for w in range(len(shape.wires))}
    edges = set(shape.edges)
    walk = []
    for name in err[len(head) : -1].split(b" -> "):
        if name not in place:
            return "cycle: no wire %r" % name
        walk.append(place[name])
    for k, w in enumerate(walk):
        if (w, walk[(k + 1) % len(walk)]) not in edges:
            return "cycle: no edge from %r" % shape.wire_text(w)
    return None


def text_fault_difference(data: Any, err: bytes) -> Optional[str]:
    """Any loop of the definitions may be shown."""
    via, text, fault = data
    head = b"cec: loop: "
    if fault.kind != "Loop" or not err.startswith(head) or not err.endswith(b"\n"):
        return "stderr"
    names = err[len(head) : -1].split(b" -> ")
    return None if is_loop(uses_of_text(via, text), names) else "not a loop"


def guard_difference(asked: Asked, files: Files, got: Answer, want: Result, programs: Programs) -> Optional[str]:
    """The lines are fixed; the count is that of the text that `c --guard` writes."""
    out, err, _ = got
    if err:
        return "stderr is not empty"
    head, _, last = out.rstrip(b"\n").rpartition(b"\n")
    mine = want.out.rstrip(b"\n").rpartition(b"\n")[0]
    if head != mine or not last.startswith(b"assignments ") or not out.endswith(b"\n"):
        return "stdout"
    more = [b"c", b"--guard"]
    if asked.main is not None:
        more.append(b"--main=" + asked.main)
    more += [b"--pick=" + str(asked.pick).encode(), asked.files[0]]
    text, _, status = programs.answer("cec", more, files)
    if status != 0:
        return "c --guard gives status %r" % status
    again = call([b"exec", b"--via", b"guard", b"text", b"trace"], {b"text": text, b"trace": files[asked.files[1]]})
    return None if again.out == out else "exec on the text of c --guard differs from run"
