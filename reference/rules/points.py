"""The points of a program, and the program with one more output for each, which it emits where the point is.

Stands for `Points` and `Covered` (crates/est_cover/specs/), for all points at once. A point is the place where an
emission, a pause, a wait or a branch of a test starts.
"""

from __future__ import annotations

from typing import Any, Optional, TYPE_CHECKING

from rules.expansion import Flat

if TYPE_CHECKING:
    from rules.kernel import Tree

Point = tuple[bytes, int]  # the kind, and the byte at which it begins
LEAVES = {"Pause": b"pause", "Halt": b"halt", "Emit": b"emit", "Sustain": b"sustain"}


class Marker:
    """A walk over a body: the points in order, and the body in which each of them emits the signal of its number."""

    def __init__(self, visible: int, count: int) -> None:
        self.points: list[Point] = []
        self.visible = visible  # the signals of the interface come first, then those of the points, then the others
        self.count = count

    def moved(self, signal: int) -> int:
        return signal if signal < self.visible else signal + self.count

    def test(self, e: Tree) -> Tree:
        if e[0] == "Sig":
            return ("Sig", self.moved(e[1]))
        if e[0] in ("And", "Or"):
            return (e[0], [self.test(x) for x in e[1]])
        return e if e[0] == "Tick" else (e[0], self.test(e[1]))

    def delay(self, d: Tree) -> Tree:
        return d[:-1] + (self.test(d[-1]),)

    def begin(self, kind: bytes, span: tuple[int, int]) -> Tree:
        """One more point, and the emission of its signal."""
        self.points.append((kind, span[0]))
        return ("Emit", span, self.visible + len(self.points) - 1)

    def branch(self, kind: bytes, whole: tuple[int, int], s: Optional[Tree]) -> Tree:
        """A branch of a test, which is a point where it is not written, too."""
        return self.begin(kind, whole) if s is None else self.begun(kind, s)

    def after(self, kind: bytes, s: Optional[Tree]) -> Optional[Tree]:
        """What comes after a wait, an abortion or a trap, if anything does."""
        return None if s is None else self.begun(kind, s)

    def begun(self, kind: bytes, s: Tree) -> Tree:
        mark = self.begin(kind, s[1])
        return ("Seq", s[1], [mark, self.stmt(s)])

    def cases(self, whole: tuple[int, int], cases: list[Any]) -> list[Any]:
        return [(self.test(e), self.branch(b"case", whole, p)) for e, p in cases]

    def stmt(self, s: Tree) -> Tree:
        f, span = s[0], s[1]
        if f in LEAVES or f in ("Await", "AwaitCase"):
            mark = self.begin(LEAVES.get(f, b"await"), span)
            return ("Seq", span, [mark, self.inner(s)])
        return self.inner(s)

    def inner(self, s: Tree) -> Tree:
        """A statement with its parts marked, the parts in the order in which they are written."""
        f, span = s[0], s[1]
        if f in ("Emit", "Sustain"):
            return (f, span, self.moved(s[2]))
        if f == "Await":
            return (f, span, self.delay(s[2]), self.after(b"do", s[3]))
        if f == "AwaitCase":
            return (f, span, self.cases(span, s[2]))
        if f == "Present":
            yes = self.branch(b"then", span, s[3])
            return (f, span, self.test(s[2]), yes, self.branch(b"else", span, s[4]))
        if f == "PresentCase":
            cases = self.cases(span, s[2])
            return (f, span, cases, self.branch(b"else", span, s[3]))
        if f in ("Seq", "Par"):
            return (f, span, [self.stmt(p) for p in s[2]])
        if f == "Loop":
            return (f, span, self.stmt(s[2]))
        if f == "Every":
            return (f, span, self.delay(s[2]), self.stmt(s[3]))
        if f in ("LoopEach", "WeakAbort", "Suspend"):
            return (f, span, self.stmt(s[2]), self.delay(s[3]))
        if f == "Repeat":
            return s[:4] + (self.stmt(s[4]),)
        if f == "Abort":
            body = self.stmt(s[2])
            return (f, span, body, self.delay(s[3]), self.after(b"do", s[4]))
        if f == "AbortCase":
            body = self.stmt(s[2])
            return (f, span, body, self.cases(span, s[3]))
        if f == "Trap":
            body = self.stmt(s[2])
            return (f, span, body, self.after(b"handle", s[3]))
        if f == "Signal":
            return (f, span, [self.moved(k) for k in s[2]], self.stmt(s[3]))
        return s


def points_of(flat: Flat) -> list[Point]:
    marker = Marker(0, 0)
    marker.stmt(flat.body)
    return marker.points


def covered(flat: Flat) -> Flat:
    """The program with an output for each point, after its own outputs. Nothing tests them."""
    count, visible = len(points_of(flat)), flat.inputs + flat.both + flat.outputs
    names = flat.signals[:visible] + ["" for _ in range(count)] + flat.signals[visible:]
    body = Marker(visible, count).stmt(flat.body)
    return Flat(flat.name, names, flat.inputs, flat.both, flat.outputs + count, flat.relations, body)
