"""The one spelling of a source tree as a list of tokens.

Stands for `Spelling` and `Grammar` (crates/est_ast/specs/) and for the printer of crates/est_parse/.
"""

from __future__ import annotations

from typing import Any, Optional, TYPE_CHECKING

from rules.lexer import WORDS

if TYPE_CHECKING:
    from rules.kernel import Tree


def kinds(tokens: Any) -> Any:
    """The kind and the value of each token."""
    return [(t[0], t[1]) for t in tokens]


def tokens_of(program: list[Any]) -> list[Any]:
    """The one spelling of a tree, as a list of kinds."""
    out: list[Any] = []

    def w(*words: str) -> None:
        for x in words:
            out.append(("word" if x in WORDS else "mark", x))

    def nm(name: Tree) -> None:
        out.append(("ident", name[0]))

    def num(n: int) -> None:
        out.append(("num", n))

    def names(list_: list[Any], sep: str) -> None:
        for k, x in enumerate(list_):
            if k:
                w(sep)
            nm(x)

    def expr(e: Tree) -> None:
        f = e[0]
        if f == "Tick":
            w("tick")
        elif f == "Sig":
            nm(e[1])
        elif f == "Not":
            w("not")
            expr(e[1])
        elif f in ("And", "Or"):
            for k, x in enumerate(e[1]):
                if k:
                    w(f.lower())
                expr(x)
        elif f == "Round":
            w("(")
            expr(e[1])
            w(")")
        else:
            w("[")
            expr(e[1])
            w("]")

    def delay(d: Tree) -> None:
        if d[0] == "Immediate":
            w("immediate")
        elif d[0] == "Count":
            num(d[1])
        expr(d[-1])

    def cases(list_: list[Any]) -> None:
        for e, p in list_:
            w("case")
            expr(e)
            if p is not None:
                w("do")
                stmt(p)

    def do_part(q: Optional[Tree]) -> None:
        if q is not None:
            w("do")
            stmt(q)
            w("end")

    def stmt(s: Tree) -> None:
        f = s[0]
        if f in ("Nothing", "Pause", "Halt"):
            w(f.lower())
        elif f in ("Emit", "Sustain", "Exit"):
            w(f.lower())
            nm(s[2])
        elif f == "Group":
            w("[")
            stmt(s[2])
            w("]")
        elif f == "Await":
            w("await")
            delay(s[2])
            do_part(s[3])
        elif f == "AwaitCase":
            w("await")
            cases(s[2])
            w("end")
        elif f == "Present":
            w("present")
            expr(s[2])
            if s[3] is not None:
                w("then")
                stmt(s[3])
            if s[4] is not None:
                w("else")
                stmt(s[4])
            w("end")
        elif f == "PresentCase":
            w("present")
            cases(s[2])
            if s[3] is not None:
                w("else")
                stmt(s[3])
            w("end")
        elif f == "Loop":
            w("loop")
            stmt(s[2])
            w("end")
        elif f == "LoopEach":
            w("loop")
            stmt(s[2])
            w("each")
            delay(s[3])
        elif f == "Every":
            w("every")
            delay(s[2])
            w("do")
            stmt(s[3])
            w("end")
        elif f == "Repeat":
            w("repeat")
            num(s[2])
            w("times")
            stmt(s[4])
            w("end")
        elif f == "Abort":
            w("abort")
            stmt(s[2])
            w("when")
            delay(s[3])
            do_part(s[4])
        elif f == "AbortCase":
            w("abort")
            stmt(s[2])
            w("when")
            cases(s[3])
            w("end")
        elif f == "WeakAbort":
            w("weak", "abort")
            stmt(s[2])
            w("when")
            delay(s[3])
        elif f == "Suspend":
            w("suspend")
            stmt(s[2])
            w("when")
            delay(s[3])
        elif f == "Trap":
            w("trap")
            nm(s[2])
            w("in")
            stmt(s[3])
            if s[4] is not None:
                w("handle")
                nm(s[4][0])
                w("do")
                stmt(s[4][1])
            w("end")
        elif f == "Signal":
            w("signal")
            names(s[2], ",")
            w("in")
            stmt(s[3])
            w("end")
        elif f == "Run":
            w("run")
            nm(s[2])
            if s[3]:
                w("[", "signal")
                for k, (a, b) in enumerate(s[3]):
                    if k:
                        w(",")
                    nm(a)
                    w("/")
                    nm(b)
                w("]")
        elif f in ("Seq", "Par"):
            for k, x in enumerate(s[2]):
                if k:
                    w(";" if f == "Seq" else "||")
                stmt(x)
        else:
            raise AssertionError(f)

    for _, name, decls, body in program:
        w("module")
        nm(name)
        w(":")
        for d in decls:
            if d[0] == "Relation":
                w("relation")
                for k, r in enumerate(d[1]):
                    if k:
                        w(",")
                    if r[0] == "Implies":
                        nm(r[1])
                        w("=>")
                        nm(r[2])
                    else:
                        names(r[1], "#")
                w(";")
            else:
                w({"Input": "input", "Output": "output", "InputOutput": "inputoutput"}[d[0]])
                names(d[1], ",")
                w(";")
        stmt(body)
        w("end", "module")
    return out


def text_of_kinds(list_: list[Any]) -> bytes:
    """A text with these tokens, one space between two."""
    return " ".join(str(v) for (_, v) in list_).encode()
