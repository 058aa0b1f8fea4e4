"""Source trees, flat trees and kernel terms as antt text, and flat trees from such text.

Places are `at START END`, a statement is `s START END FORM`, a name `v TEXT START`.
"""

from __future__ import annotations

from typing import Any, Callable, Optional

from equations.antt import apply, codes, inner, listed
from rules.kernel import Tree

Show = Callable[[Any], str]


def at(span: tuple[int, int]) -> str:
    return "at %d %d" % span


def name(value: tuple[str, tuple[int, int]]) -> str:
    return "v (%s) %d" % (codes(value[0]), value[1][0])


class Trees:
    """Prints statements; `show_name` prints what a signal, a trap or a module is called by."""

    def __init__(self, prefix: str, show_name: Show, flat: bool) -> None:
        self.prefix = prefix
        self.show_name = show_name
        self.flat = flat

    def form(self, head: str, *arguments: Any) -> str:
        return apply(self.prefix + head, *arguments)

    def expr(self, e: Tree) -> str:
        head = e[0]
        if head == "Tick":
            return self.form(head, at(e[1]))
        if head == "Sig":
            return self.form(head, self.show_name(e[1]))
        if head in ("And", "Or"):
            return self.form(head, apply(self.prefix + "exprs", listed(self.expr(part) for part in e[1])))
        return self.form(head, self.expr(e[1]))

    def delay(self, d: Tree) -> str:
        if d[0] == "Count":
            return self.form("Count", d[1], at(d[2]), self.expr(d[3]))
        return self.form(d[0], self.expr(d[1]))

    def part(self, s: Optional[Tree]) -> str:
        return self.form("Missing") if s is None else self.form("Written", self.stmt(s))

    def cases(self, cases: Any) -> str:
        text = self.form("NoCases")
        for e, p in reversed(cases):
            text = self.form("MoreCases", self.expr(e), self.part(p), text)
        return text

    def stmt(self, s: Tree) -> str:
        return "%s %d %d %s" % (self.prefix.replace(".", "") + "s", s[1][0], s[1][1], inner(self.of(s)))

    def names(self, names: Any) -> str:
        return listed(self.show_name(x) for x in names)

    def of(self, s: Tree) -> str:
        head = s[0]
        if head in ("Nothing", "Pause", "Halt"):
            return self.form(head)
        if head in ("Emit", "Sustain", "Exit"):
            return self.form(head, self.show_name(s[2]))
        if head == "Await":
            return self.form(head, self.delay(s[2]), self.part(s[3]))
        if head == "AwaitCase":
            return self.form(head, self.cases(s[2]))
        if head == "Present":
            return self.form(head, self.expr(s[2]), self.part(s[3]), self.part(s[4]))
        if head == "PresentCase":
            return self.form(head, self.cases(s[2]), self.part(s[3]))
        if head in ("Loop", "Group"):
            return self.form(head, self.stmt(s[2]))
        if head in ("LoopEach", "WeakAbort", "Suspend"):
            return self.form(head, self.stmt(s[2]), self.delay(s[3]))
        if head == "Every":
            return self.form(head, self.delay(s[2]), self.stmt(s[3]))
        if head == "Repeat":
            return self.form(head, s[2], at(s[3]), self.stmt(s[4]))
        if head == "Abort":
            return self.form(head, self.stmt(s[2]), self.delay(s[3]), self.part(s[4]))
        if head == "AbortCase":
            return self.form(head, self.stmt(s[2]), self.cases(s[3]))
        if head == "Trap" and self.flat:
            return self.form(head, self.stmt(s[2]), self.part(s[3]))
        if head == "Trap":
            handler = "NoHandler" if s[4] is None else apply("Handled", name(s[4][0]), self.stmt(s[4][1]))
            return self.form(head, name(s[2]), self.stmt(s[3]), handler)
        if head == "Signal":
            return self.form(head, self.names(s[2]), self.stmt(s[3]))
        if head == "Run":
            renames = ["as_ %s %s" % (inner(name(a)), inner(name(b))) for a, b in s[3]]
            return self.form(head, name(s[2]), listed(renames))
        assert head in ("Seq", "Par"), head
        return self.form(head, apply(self.prefix + "stmts", listed(self.stmt(part) for part in s[2])))


SOURCE = Trees("", name, False)


def flat(prefix: str) -> Trees:
    return Trees(prefix, str, True)


def declaration(d: Tree) -> str:
    if d[0] != "Relation":
        return apply(d[0], SOURCE.names(d[1]))
    relations = []
    for r in d[1]:
        if r[0] == "Implies":
            relations.append(apply("Implies", name(r[1]), name(r[2])))
        else:
            relations.append(apply("Excludes", SOURCE.names(r[1])))
    return apply("Relations", listed(relations))


def module(m: Tree) -> str:
    return apply("modul", name(m[1]), listed(declaration(d) for d in m[2]), SOURCE.stmt(m[3]))


def program(modules: list[Tree]) -> str:
    return listed(module(m) for m in modules)


def kernel(t: Tree, prefix: str = "t.") -> str:
    """A kernel term, whose constructors have a prefix."""
    head = t[0]
    if head == "Loop":
        return apply(prefix + head, at(t[1]), kernel(t[2], prefix))
    parts = [kernel(part, prefix) if isinstance(part, tuple) else part for part in t[1:]]
    return apply(prefix + head, *parts)


# ---------------------------------------------------------------- flat trees from text


def span_of(value: Tree) -> tuple[int, int]:
    return (value[1], value[2])


def chain(value: Tree, width: int = 1) -> list[Any]:
    """The parts of `MoreStmts a (MoreStmts b NoStmts)`."""
    out: list[Any] = []
    while len(value) > 1:
        out.append(value[1] if width == 1 else value[1 : 1 + width])
        value = value[-1]
    return out


def flat_expr(value: Tree) -> Tree:
    head = value[0]
    if head == "Tick":
        return (head, span_of(value[1]))
    if head == "Sig":
        return (head, value[1])
    if head in ("And", "Or"):
        return (head, [flat_expr(part) for part in chain(value[1])])
    return (head, flat_expr(value[1]))


def flat_delay(value: Tree) -> Tree:
    if value[0] == "Count":
        return ("Count", value[1], span_of(value[2]), flat_expr(value[3]))
    return (value[0], flat_expr(value[1]))


def flat_part(value: Tree) -> Optional[Tree]:
    return None if value[0] == "Missing" else flat_stmt(value[1])


def flat_stmt(value: Tree) -> Tree:
    """A flat statement from the tree that `read_term` makes of `At (at 38 57) ..`."""
    place, form = value[1], value[2]
    head = form[0]
    parts: list[Any] = []
    for part in form[1:]:
        kind = part[0] if isinstance(part, tuple) else None
        if kind == "At":
            parts.append(flat_stmt(part))
        elif kind in ("Missing", "Written"):
            parts.append(flat_part(part))
        elif kind in ("MoreStmts", "NoStmts"):
            parts.append([flat_stmt(x) for x in chain(part)])
        elif kind in ("MoreCases", "NoCases"):
            parts.append([(flat_expr(e), flat_part(p)) for e, p in chain(part, 2)])
        elif kind in ("Plain", "Immediate", "Count"):
            parts.append(flat_delay(part))
        elif kind == "at":
            parts.append(span_of(part))
        elif kind is None:
            parts.append(part)
        else:
            parts.append(flat_expr(part))
    return (head, span_of(place)) + tuple(parts)
