"""Random sources, traces and changes of texts."""

from __future__ import annotations

import random
from typing import Sequence, Any, Optional

from rules.traces import first_broken


SPACES = [" ", " ", " ", " ", " ", "\n", "  ", "\t", " % c\n", " %{ x }% ", "\r\n", "\x0c"]


class Maker:
    """`wrong` is the chance, per name or number, of a static fault."""

    def __init__(self, rng: random.Random, wrong: float, kernel_only: bool = False) -> None:
        self.rng = rng
        self.wrong = wrong
        self.kernel = kernel_only
        self.modules: list[Any] = []  # (name, inputs, both, outputs) of the modules that may be run
        self.fresh = 0
        self.read: list[str] = []
        self.emitted: list[str] = []
        self.traps: list[str] = []

    def bad(self) -> bool:
        return self.rng.random() < self.wrong

    # ---- a body: self.read, self.emitted and self.traps are the visible names
    def sig(self) -> str:
        if self.bad() or not self.read:
            return self.rng.choice(["ZZ", "A", "O", "S"]) if self.bad() or not self.read else "ZZ"
        return self.rng.choice(self.read)

    def expr(self, depth: int = 0) -> str:
        r = self.rng.random()
        if r < 0.5 or depth > 3:
            return self.sig() if self.read else "tick"
        if r < 0.55:
            return "tick"
        if r < 0.7:
            return "not " + self.neg(depth + 1)
        if r < 0.9:
            word = self.rng.choice([" and ", " or "])
            parts = [self.neg(depth + 1) for _ in range(self.rng.choice([2, 2, 3]))]
            return word.join(parts)
        return self.neg(depth + 1) + " and " + self.neg(depth + 1) + " or " + self.neg(depth + 1)

    def neg(self, depth: int) -> str:
        r = self.rng.random()
        if r < 0.6 or depth > 3:
            return self.sig() if self.read else "tick"
        if r < 0.75:
            return "not " + self.neg(depth + 1)
        return ("(%s)" if r < 0.9 else "[%s]") % self.expr(depth + 1)

    def event(self) -> str:
        r = self.rng.random()
        if r < 0.75 and self.read:
            return self.sig()
        return "tick" if r < 0.8 else "[" + self.expr() + "]"

    def number(self, small: int = 4) -> str:
        if self.bad():
            return self.rng.choice(
                ["0", "256", "00", "340282366920938463463374607431768211455", "340282366920938463463374607431768211456"]
            )
        return str(self.rng.choice([1, 2, 2, 3, small]))

    def delay(self, immediate: bool = True, count: bool = True) -> str:
        r = self.rng.random()
        if r < 0.15 and immediate:
            return "immediate " + self.event()
        if r < 0.35 and count:
            return self.number() + " " + self.event()
        return self.event()

    def cases(self, budget: int, depth: int = 1) -> str:
        parts = []
        for _ in range(self.rng.choice([1, 2, 2, 3])):
            part = "case " + self.expr()
            if self.rng.random() < 0.7:
                part += " do " + self.stmt(budget // 3)
            parts.append(part)
        return " ".join(parts)

    def end(self, word: str) -> str:
        return "end " + word if self.rng.random() < 0.3 else "end"

    def stmt(self, budget: int) -> str:
        r = self.rng.random()
        if budget <= 1:
            return self.leaf()
        if r < 0.3:
            n = self.rng.choice([2, 2, 3])
            text = "; ".join(self.item(budget // n) for _ in range(n))
            return text + (";" if self.rng.random() < 0.1 else "")
        if r < 0.45:
            n = self.rng.choice([2, 2, 2, 3])
            return " || ".join(self.item(budget // n) for _ in range(n))
        return self.item(budget)

    def leaf(self) -> str:
        r = self.rng.random()
        if r < 0.35:
            return "pause"
        if r < 0.7 and self.emitted or self.bad():
            return "emit " + (self.sig() if self.bad() else self.rng.choice(self.emitted) if self.emitted else "ZZ")
        if r < 0.8 and self.traps or self.bad():
            return "exit " + ("TT" if self.bad() or not self.traps else self.rng.choice(self.traps))
        if r < 0.85:
            return "nothing"
        if self.kernel:
            return "pause"
        if r < 0.88:
            return "halt"
        if r < 0.92 and self.emitted:
            return "sustain " + self.rng.choice(self.emitted)
        return "await " + self.delay()

    def loop_body(self, budget: int) -> str:
        body = self.item(budget - 1)
        if self.rng.random() < 0.9:
            return self.rng.choice(["pause; %s", "%s; pause", "%s; pause"]) % ("[" + body + "]")
        return body

    def item(self, budget: int) -> str:
        if budget <= 1:
            return self.leaf()
        b = budget - 1
        rng = self.rng
        kind = rng.choice(KERNEL if self.kernel else ALL)
        if kind == "group":
            return "[" + self.stmt(b) + "]"
        if kind == "present":
            text = "present " + self.expr()
            if rng.random() < 0.75:
                text += " then " + self.stmt(b // 2)
            if rng.random() < 0.6:
                text += " else " + self.stmt(b // 2)
            return text + " " + self.end("present")
        if kind == "loop":
            return "loop " + self.loop_body(b) + " " + self.end("loop")
        if kind == "suspend":
            immediate = "immediate " if not self.kernel and rng.random() < 0.3 else ""
            return "suspend " + self.stmt(b) + " when " + immediate + self.event()
        if kind == "trap":
            self.fresh += 1
            name = rng.choice(["T", "U", "T%d" % self.fresh])
            self.traps.append(name)
            text = "trap " + name + " in " + self.stmt(b)
            self.traps.pop()
            if not self.kernel and rng.random() < 0.3:
                text += " handle " + ("TT" if self.bad() else name) + " do " + self.stmt(b // 3)
            return text + " " + self.end("trap")
        if kind == "signal":
            self.fresh += 1
            names = [rng.choice(["S", "X", "S%d" % self.fresh])]
            if rng.random() < 0.3:
                names.append(names[0] if self.bad() else "Y%d" % self.fresh)
            old = self.read[:], self.emitted[:]
            # a local is worth more than one of many outputs
            self.read += names * 2
            self.emitted = [n for n in self.emitted] + names * 2
            text = "signal " + ", ".join(names) + " in " + self.stmt(b) + " " + self.end("signal")
            self.read, self.emitted = old
            return text
        if kind == "await":
            return "await " + self.delay() + " do " + self.stmt(b) + " " + self.end("await")
        if kind == "awaitcase":
            return "await " + self.cases(b) + " " + self.end("await")
        if kind == "presentcase":
            text = "present " + self.cases(b)
            if rng.random() < 0.5:
                text += " else " + self.stmt(b // 3)
            return text + " " + self.end("present")
        if kind == "each":
            return "loop " + self.stmt(b) + " each " + self.delay(immediate=False)
        if kind == "every":
            return "every " + self.delay() + " do " + self.stmt(b) + " " + self.end("every")
        if kind == "repeat":
            return (
                rng.choice(["", "positive "])
                + "repeat "
                + self.number(3)
                + " times "
                + self.stmt(b // 2)
                + " "
                + self.end("repeat")
            )
        if kind == "abort":
            text = "abort " + self.stmt(b) + " when " + self.delay()
            if rng.random() < 0.4:
                text += " do " + self.stmt(b // 3) + " " + self.end("abort")
            return text
        if kind == "abortcase":
            return "abort " + self.stmt(b) + " when " + self.cases(b) + " " + self.end("abort")
        if kind == "weak":
            return "weak abort " + self.stmt(b) + " when " + self.delay()
        if kind == "run" and self.modules:
            name, inputs, both, outputs = rng.choice(self.modules)
            renames = []
            for formal in inputs + both + outputs:
                pool = self.read if formal in inputs else self.emitted
                known = formal in pool
                if pool and (not known or rng.random() < 0.4) and not self.bad():
                    renames.append("%s/%s" % (rng.choice(pool), formal))
            if self.bad():
                renames.append("A/QQ")
            if self.bad():
                renames.append("QQ/" + (inputs + both + outputs + ["A"])[0])
            text = "run " + ("NN" if self.bad() else name)
            if renames:
                text += " [signal " + ", ".join(renames) + "]"
            return text
        return self.stmt(b)

    def module(self, name: str, budget: int, small: bool = False) -> str:
        rng = self.rng
        inputs = ["A", "B", "C", "D"][: rng.choice([0, 1, 2, 2, 3, 4])]
        outputs = ["O", "P", "Q", "R"][: rng.choice([0, 1, 2, 2, 3, 4])]
        both = ["V", "W"][: rng.choice([0, 0, 1, 2])]
        decls = []
        if inputs:
            decls.append("input " + ", ".join(inputs + (["A"] if self.bad() else [])) + ";")
        if outputs:
            decls.append("output " + ", ".join(outputs + (["A"] if self.bad() else [])) + ";")
        if both:
            decls.append("inputoutput " + ", ".join(both) + ";")
        if self.bad():
            decls.append(rng.choice(["input A;", "output O;", "inputoutput V;", "input EE;"]))
        given = inputs + both
        if len(given) >= 2 and rng.random() < 0.5:
            relations = []
            for _ in range(rng.choice([1, 1, 2])):
                pool = given + (["O"] if self.bad() else [])
                if rng.random() < 0.5:
                    relations.append("%s => %s" % (rng.choice(pool), rng.choice(pool)))
                else:
                    relations.append(" # ".join(rng.sample(pool, rng.randrange(2, len(pool) + 1))))
            decls.append("relation " + ", ".join(relations) + ";")
        if rng.random() < 0.2:
            rng.shuffle(decls)
        self.read = given + outputs
        self.emitted = both + outputs
        self.traps = []
        body = self.stmt(budget)
        self.shown = (name, inputs, both, outputs)
        end = "." if rng.random() < 0.1 else "end module"
        return "module %s: %s %s %s" % (name, " ".join(decls), body, end)

    def program(self, budget: int) -> str:
        texts = []
        count = self.rng.choice([1, 1, 1, 2, 3])
        for k in range(count - 1):
            name = "N%d" % (k if not self.bad() else 0)
            texts.append(self.module(name, max(1, budget // 3)))
            self.modules.append(self.shown)
        if self.bad() and count > 1:
            self.modules.append(("M", [], [], []))
        main = self.module("M", budget)
        texts.insert(0, main)
        return " ".join(texts)


KERNEL = [
    "group",
    "present",
    "present",
    "present",
    "loop",
    "loop",
    "suspend",
    "trap",
    "trap",
    "signal",
    "signal",
    "par",
]


ALL = KERNEL + [
    "await",
    "awaitcase",
    "presentcase",
    "each",
    "every",
    "repeat",
    "abort",
    "abort",
    "abortcase",
    "weak",
    "run",
    "run",
]


def spaced(text: str, rng: random.Random) -> str:
    """The same tokens with other spaces and comments between them."""
    return "".join(rng.choice(SPACES) if ch == " " else ch for ch in text)


def source(rng: random.Random, budget: Optional[int] = None, wrong: Optional[float] = None) -> bytes:
    """A source with about `budget` statements; `wrong` is the chance of a static fault, per name or number."""
    if budget is None:
        budget = rng.choice([2, 4, 6, 10, 15, 25, 40])
    if wrong is None:
        wrong = rng.choice([0, 0, 0, 0.01, 0.05])
    text = Maker(rng, wrong, rng.random() < 0.3).program(budget)
    if rng.random() < 0.2:
        text = spaced(text, rng)
    if rng.random() < 0.3:
        text += "\n"
    return text.encode()


WORDS = (
    "abort and await case do each else emit end every exit halt handle immediate in input "
    "inputoutput loop module not nothing or output pause positive present relation repeat run "
    "signal suspend sustain then tick times trap weak when ; || [ ] ( ) , / : # => . A O S 2 300 M "
    "| %{ }% ! $ \x01 340282366920938463463374607431768211456"
).split(" ")


def mutate_tokens(text: bytes, rng: random.Random) -> bytes:
    words = text.split(b" ")
    for _ in range(rng.choice([1, 1, 1, 2, 3])):
        at = rng.randrange(len(words) + 1)
        kind = rng.randrange(4)
        if kind == 0 and at < len(words):
            del words[at]
        elif kind == 1:
            words.insert(at, rng.choice(WORDS).encode())
        elif kind == 2 and at < len(words):
            words[at] = rng.choice(WORDS).encode()
        elif at < len(words):
            words.insert(at, words[rng.randrange(len(words))])
    return b" ".join(words)


def mutate_bytes(
    data: bytes, rng: random.Random, spare: bytes = b"\n\r\\#.01-_ \t;{}()&|!~=<@/*%\x00\xff[]:,AOSM"
) -> bytes:
    data = bytearray(data)
    for _ in range(rng.choice((1, 1, 1, 2, 3, 8))):
        kind = rng.randrange(6)
        at = rng.randrange(len(data) + 1)
        if kind == 0 and at < len(data):
            del data[at]
        elif kind == 1:
            data.insert(at, rng.choice(spare))
        elif kind == 2 and at < len(data):
            data[at] = rng.choice(spare) if rng.random() < 0.7 else rng.randrange(256)
        elif kind == 3:
            to = min(len(data), at + rng.randrange(12))
            piece = data[at:to]
            where = rng.randrange(len(data) + 1)
            data[where:where] = piece
        elif kind == 4:
            to = min(len(data), at + rng.randrange(12))
            del data[at:to]
        elif rng.random() < 0.3:
            del data[at:]
    return bytes(data)


def event_items(
    rng: random.Random, count: int, relations: Sequence[Any], n: int, chance: Optional[float] = None
) -> list[Any]:
    """Events as lists of truth values that meet the relations; some 'reset's."""
    items: list[Any] = []
    for _ in range(count):
        if rng.random() < 0.05:
            items.append("reset")
            continue
        p = chance if chance is not None else rng.choice([0.1, 0.3, 0.5, 0.8])
        for _ in range(60):
            event = [rng.random() < p for _ in range(n)]
            if first_broken(relations, event) is None:
                break
            p *= 0.9
        else:
            event = [False] * n
        items.append(event)
    return items


def trace_text(items: list[list[Any] | str], names: list[bytes], rng: random.Random) -> bytes:
    parts = []
    for item in items:
        if item == "reset":
            parts.append(b"!reset;")
        else:
            present = [name for name, bit in zip(names, item) if bit]
            rng.shuffle(present)
            parts.append(b" ".join(present) + rng.choice([b";", b";", b" ;"]))
        parts.append(rng.choice([b"", b" ", b" ", b"\n", b" % c\n"]))
    return b"".join(parts)
