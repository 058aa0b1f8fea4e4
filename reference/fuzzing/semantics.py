"""The reference against itself: the lines of a run are those of the reactions by Must and Can, where the kernel is
small.
"""

from __future__ import annotations

from typing import Optional

from fuzzing.cases import Files
from rules.front import front
from rules.kernel import Tree, parts, size
from rules.outcomes import Result
from rules.reactions import react
from rules.traces import TraceFault, TraceReader, reaction_line
from rules.words import Asked

MAX_SIZE = 40
MAX_LOCALS = 3
MAX_EVENTS = 6


def depth_of_locals(t: Tree) -> int:
    """How many local signals are declared in one another; each doubles the work."""
    return (t[0] == "Local") + max([depth_of_locals(part) for part in parts(t)] or [0])


def check_kernel(asked: Asked, files: Files, want: Result) -> Optional[str]:
    if want.outcome.kind not in ("Done", "Trace", "NotConstructive"):
        return None
    kp = front(files[asked.files[0]], asked.main)
    if size(kp.body) > MAX_SIZE or depth_of_locals(kp.body) + kp.both + kp.outputs > MAX_LOCALS:
        return None
    names = [name.encode() for name in kp.signals]
    given = kp.inputs + kp.both
    relations = [("implies", r[1], r[2]) if r[0] == "Implies" else ("excludes", r[1]) for r in kp.relations]
    reader = TraceReader(files[asked.files[1]], names[:given], relations)
    lines = []
    term = kp.body
    for _ in range(MAX_EVENTS):
        try:
            item = reader.next()
        except TraceFault:
            break
        if item is None:
            break
        if isinstance(item, str):
            term = kp.body
            continue
        answer = react(kp, term, item)
        if answer is None:
            return None if want.outcome.kind == "NotConstructive" else "reference: no reaction by Must and Can"
        lines.append(reaction_line(names[kp.inputs : given + kp.outputs], answer[0], answer[1] == 1))
        term = answer[2]
    return None if want.out.startswith(b"".join(lines)) else "reference: other lines by Must and Can"
