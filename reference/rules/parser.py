"""Source trees: the grammar, and the place of the first token that no program can have there.

Stands for `Grammar` and `Nesting` (crates/est_ast/specs/) and for the places of syntax faults
(crates/est_parse/specs/).

  Name       (text, (start, end))
  test       ("Tick", span) ("Sig", Name) ("Not", e) ("And", [e..]) ("Or", [e..]) ("Round", e) ("Square", e)
  delay      ("Plain", e) ("Immediate", e) ("Count", n, span, e)
  case       (test, statement or None)
  statement  (form, span, parts..)
"""

from __future__ import annotations

from typing import NoReturn, Any, TYPE_CHECKING

from rules.limits import MAX_NESTING
from rules.refusals import limit, static

if TYPE_CHECKING:
    from rules.kernel import Tree


ITEM_START = frozenset(
    """nothing pause halt emit sustain exit [ await present
loop every positive repeat abort weak suspend trap signal run""".split()
)


class Parser:
    """A recursive descent reader with one token ahead.

    It never takes a token that no program can have there: an optional part that does not begin with the token
    ahead is left, without moving, to what is around it. So the first token that nobody takes is the place of the
    fault. `open` is the number of nodes that are open and count for the limit on nesting.
    """

    def __init__(self, tokens: list[Any], bound: int = MAX_NESTING) -> None:
        self.toks = tokens
        self.sym = [("NAME" if k == "ident" else "NUMBER" if k == "num" else v) for (k, v, _, _) in tokens]
        self.n = len(tokens)
        self.i = 0
        self.open = 0
        self.bound = bound

    # -- small parts
    def at(self, s: str) -> bool:
        return self.i < self.n and self.sym[self.i] == s

    def at_any(self, symbols: Tree | frozenset[str]) -> bool:
        return self.i < self.n and self.sym[self.i] in symbols

    def fail(self) -> NoReturn:
        raise static("Syntax", self.i)

    def take(self, s: str) -> Tree:
        if not self.at(s):
            self.fail()
        t = self.toks[self.i]
        self.i += 1
        return t

    def optional(self, s: str) -> None:
        if self.at(s):
            self.i += 1

    def name(self) -> Tree:
        t = self.take("NAME")
        return (t[1], (t[2], t[3]))

    def start(self) -> int:
        return self.toks[self.i][2]

    def span(self, start: int) -> tuple[int, int]:
        return (start, self.toks[self.i - 1][3])

    def room(self) -> None:
        """The token ahead opens a node, or forces one: is there room for it?"""
        if self.open >= self.bound:
            raise limit("Nesting", self.i)

    def enter(self) -> None:
        """Take the token ahead, which opens a node that counts."""
        self.room()
        self.open += 1
        self.i += 1

    def leave(self) -> None:
        self.open -= 1

    # -- program, modules, declarations
    def program(self) -> list[Any]:
        mods = [self.module()]
        while self.i < self.n:
            mods.append(self.module())
        return mods

    def module(self) -> Tree:
        self.take("module")
        name = self.name()
        self.take(":")
        decls = []
        heads = ("input", "output", "inputoutput", "relation")
        while self.at_any(heads):
            decls.append(self.decl())
        body = self.stmt()
        if self.at("."):
            self.i += 1
        else:
            self.take("end")
            self.take("module")
        return ("Module", name, decls, body)

    def decl(self) -> Tree:
        word = self.sym[self.i]
        self.i += 1
        if word == "relation":
            rels = [self.rel()]
            while self.at(","):
                self.i += 1
                rels.append(self.rel())
            self.take(";")
            return ("Relation", rels)
        names = [self.name()]
        while self.at(","):
            self.i += 1
            names.append(self.name())
        self.take(";")
        return ({"input": "Input", "output": "Output", "inputoutput": "InputOutput"}[word], names)

    def rel(self) -> Tree:
        a = self.name()
        if self.at("=>"):
            self.i += 1
            return ("Implies", a, self.name())
        self.take("#")
        names = [a, self.name()]
        while self.at("#"):
            self.i += 1
            names.append(self.name())
        return ("Excludes", names)

    # -- statements
    def stmt(self) -> Tree:
        start = self.start() if self.i < self.n else 0
        parts = [self.seq()]
        while self.at("||"):
            self.i += 1
            parts.append(self.seq())
        if len(parts) == 1:
            return parts[0]
        return ("Par", self.span(start), parts)

    def seq(self) -> Tree:
        start = self.start() if self.i < self.n else 0
        parts = [self.item()]
        while self.at(";"):
            self.i += 1
            if not self.at_any(ITEM_START):
                break  # the optional ';'
            parts.append(self.item())
        if len(parts) == 1:
            return parts[0]
        return ("Seq", self.span(start), parts)

    def item(self) -> Tree:
        if not self.at_any(ITEM_START):
            self.fail()
        start = self.start()
        word = self.sym[self.i]
        node = getattr(self, "item_" + ("group" if word == "[" else word))()
        return (node[0], self.span(start)) + node[1:]

    def item_nothing(self) -> Tree:
        self.i += 1
        return ("Nothing",)

    def item_pause(self) -> Tree:
        self.i += 1
        return ("Pause",)

    def item_halt(self) -> Tree:
        self.i += 1
        return ("Halt",)

    def item_emit(self) -> Tree:
        self.i += 1
        return ("Emit", self.name())

    def item_sustain(self) -> Tree:
        self.i += 1
        return ("Sustain", self.name())

    def item_exit(self) -> Tree:
        self.i += 1
        return ("Exit", self.name())

    def item_group(self) -> Tree:
        self.enter()
        p = self.stmt()
        self.take("]")
        self.leave()
        return ("Group", p)

    def item_await(self) -> Tree:
        self.enter()
        if self.at("case"):
            cases = self.cases()
            self.take("end")
            self.optional("await")
            self.leave()
            return ("AwaitCase", cases)
        d = self.delay()
        q = None
        if self.at("do"):
            self.i += 1
            q = self.stmt()
            self.take("end")
            self.optional("await")
        self.leave()
        return ("Await", d, q)

    def item_present(self) -> Tree:
        self.enter()
        if self.at("case"):
            cases = self.cases()
            other = None
            if self.at("else"):
                self.i += 1
                other = self.stmt()
            self.take("end")
            self.optional("present")
            self.leave()
            return ("PresentCase", cases, other)
        e = self.expr()
        p = q = None
        if self.at("then"):
            self.i += 1
            p = self.stmt()
        if self.at("else"):
            self.i += 1
            q = self.stmt()
        self.take("end")
        self.optional("present")
        self.leave()
        return ("Present", e, p, q)

    def item_loop(self) -> Tree:
        self.enter()
        p = self.stmt()
        if self.at("each"):
            self.i += 1
            d = self.count()
            self.leave()
            return ("LoopEach", p, d)
        self.take("end")
        self.optional("loop")
        self.leave()
        return ("Loop", p)

    def item_every(self) -> Tree:
        self.enter()
        d = self.delay()
        self.take("do")
        p = self.stmt()
        self.take("end")
        self.optional("every")
        self.leave()
        return ("Every", d, p)

    def item_positive(self) -> Tree:
        self.room()  # a `repeat` must follow, and it counts
        self.i += 1
        if not self.at("repeat"):
            self.fail()
        return self.item_repeat()

    def item_repeat(self) -> Tree:
        self.enter()
        t = self.take("NUMBER")
        self.take("times")
        p = self.stmt()
        self.take("end")
        self.optional("repeat")
        self.leave()
        return ("Repeat", t[1], (t[2], t[3]), p)

    def item_abort(self) -> Tree:
        self.enter()
        p = self.stmt()
        self.take("when")
        if self.at("case"):
            cases = self.cases()
            self.take("end")
            self.optional("abort")
            self.leave()
            return ("AbortCase", p, cases)
        d = self.delay()
        q = None
        if self.at("do"):
            self.i += 1
            q = self.stmt()
            self.take("end")
            self.optional("abort")
        self.leave()
        return ("Abort", p, d, q)

    def item_weak(self) -> Tree:
        self.room()  # an `abort` must follow, and it counts
        self.i += 1
        if not self.at("abort"):
            self.fail()
        self.enter()
        p = self.stmt()
        self.take("when")
        d = self.delay()
        self.leave()
        return ("WeakAbort", p, d)

    def item_suspend(self) -> Tree:
        self.enter()
        p = self.stmt()
        self.take("when")
        if self.at("immediate"):
            self.i += 1
            d = ("Immediate", self.event())
        else:
            d = ("Plain", self.event())
        self.leave()
        return ("Suspend", p, d)

    def item_trap(self) -> Tree:
        self.enter()
        name = self.name()
        self.take("in")
        p = self.stmt()
        handle = None
        if self.at("handle"):
            self.i += 1
            h = self.name()
            self.take("do")
            handle = (h, self.stmt())
        self.take("end")
        self.optional("trap")
        self.leave()
        return ("Trap", name, p, handle)

    def item_signal(self) -> Tree:
        self.enter()
        names = [self.name()]
        while self.at(","):
            self.i += 1
            names.append(self.name())
        self.take("in")
        p = self.stmt()
        self.take("end")
        self.optional("signal")
        self.leave()
        return ("Signal", names, p)

    def item_run(self) -> Tree:
        self.i += 1
        name = self.name()
        rens = []
        if self.at("["):
            self.i += 1
            self.take("signal")
            rens.append(self.ren())
            while self.at(","):
                self.i += 1
                rens.append(self.ren())
            self.take("]")
        return ("Run", name, rens)

    def ren(self) -> tuple[Tree, Tree]:
        actual = self.name()
        self.take("/")
        return (actual, self.name())

    # -- cases, delays, tests
    def cases(self) -> list[Any]:
        out: list[Any] = []
        while self.at("case"):
            self.i += 1
            e = self.expr()
            p = None
            if self.at("do"):
                self.i += 1
                p = self.stmt()
            out.append((e, p))
        return out

    def delay(self) -> Tree:
        if self.at("immediate"):
            self.i += 1
            return ("Immediate", self.event())
        return self.count()

    def count(self) -> Tree:
        if self.at("NUMBER"):
            t = self.take("NUMBER")
            return ("Count", t[1], (t[2], t[3]), self.event())
        return ("Plain", self.event())

    def event(self) -> Tree:
        if self.at("NAME"):
            return ("Sig", self.name())
        if self.at("tick"):
            t = self.take("tick")
            return ("Tick", (t[2], t[3]))
        if self.at("["):
            self.enter()
            e = self.expr()
            self.take("]")
            self.leave()
            return ("Square", e)
        self.fail()

    def expr(self) -> Tree:
        parts = [self.conj()]
        while self.at("or"):
            self.i += 1
            parts.append(self.conj())
        return parts[0] if len(parts) == 1 else ("Or", parts)

    def conj(self) -> Tree:
        parts = [self.neg()]
        while self.at("and"):
            self.i += 1
            parts.append(self.neg())
        return parts[0] if len(parts) == 1 else ("And", parts)

    def neg(self) -> Tree:
        if self.at("not"):
            self.enter()
            e = self.neg()
            self.leave()
            return ("Not", e)
        if self.at("("):
            self.enter()
            e = self.expr()
            self.take(")")
            self.leave()
            return ("Round", e)
        return self.event()


def parse(tokens: list[Any], bound: int = MAX_NESTING) -> list[Any]:
    """The modules of a program; raises a static fault, Syntax, or the limit Nesting, with the number of the token."""
    return Parser(tokens, bound).program()
