"""Random small programs whose dependencies have a cycle."""

from __future__ import annotations

import random

from rules.compiling import compile_source
from rules.outcomes import Outcome

TRIES = 40
FORMS = ["emit", "emit", "present", "present", "present", "pause", "par", "par", "seq", "seq", "loop", "abort", "suspend", "trap", "local"]


class Kernel:
    """Statements over a few signals, which are tested and emitted everywhere."""

    def __init__(self, rng: random.Random) -> None:
        self.rng = rng
        self.given = ["A", "B", "C"][: rng.choice([0, 1, 1, 2, 2, 3])]
        self.emitted = ["O", "P", "Q"][: rng.choice([1, 2, 2, 3])]
        self.names = self.given + self.emitted
        self.locals = 0

    def test(self, budget: int) -> str:
        rng = self.rng
        if budget <= 1 or rng.random() < 0.5:
            name = rng.choice(self.names)
            return name if rng.random() < 0.6 else "not %s" % name
        word = rng.choice(["and", "or"])
        return "[%s %s %s]" % (self.test(budget // 2), word, self.test(budget // 2))

    def statement(self, budget: int) -> str:
        rng = self.rng
        form = rng.choice(FORMS if budget > 1 else ["emit", "emit", "pause", "nothing"])
        half = max(budget // 2, 1)
        if form == "emit":
            return "emit %s" % rng.choice(self.emitted)
        if form == "present":
            parts = "present %s then %s" % (self.test(3), self.statement(half))
            return parts + (" else %s end" % self.statement(half) if rng.random() < 0.5 else " end")
        if form == "par":
            return "[ %s || %s ]" % (self.statement(half), self.statement(half))
        if form == "seq":
            return "%s; %s" % (self.bracketed(half), self.bracketed(half))
        if form == "loop":
            return "loop %s; pause end" % self.bracketed(budget - 1)
        if form == "abort":
            kind = rng.choice(["abort", "weak abort"])
            return "%s %s when %s%s" % (kind, self.statement(budget - 1), rng.choice(["", "immediate "]), self.test(2))
        if form == "suspend":
            return "suspend %s when %s%s" % (self.statement(budget - 1), rng.choice(["", "immediate "]), self.test(2))
        if form == "trap":
            return "trap T in [ %s || %s; exit T ] end" % (self.statement(half), self.bracketed(half))
        if form == "local":
            return self.local(budget)
        return form

    def bracketed(self, budget: int) -> str:
        return "[ %s ]" % self.statement(budget)

    def local(self, budget: int) -> str:
        """A local signal, in whose scope it is tested and emitted like the others."""
        self.locals += 1
        name = "S%d" % self.locals
        self.names.append(name)
        self.emitted.append(name)
        body = self.statement(budget - 1)
        self.names.remove(name)
        self.emitted.remove(name)
        return "signal %s in %s end" % (name, body)

    def text(self, budget: int) -> bytes:
        outputs = list(self.emitted)
        body = self.statement(budget)
        words = ["module M:"]
        if self.given:
            words.append("input %s;" % ", ".join(self.given))
        if len(self.given) > 1 and self.rng.random() < 0.5:
            mark = self.rng.choice([" # ", " => "])
            words.append("relation %s;" % mark.join(self.given[:2]))
        words += ["output %s;" % ", ".join(outputs), body, "end module"]
        return "\n".join(words).encode() + b"\n"


def has_cycle(text: bytes) -> bool:
    try:
        compile_source(text, None)
    except Outcome as outcome:
        return outcome.kind == "Cyclic"
    return False


def cyclic_source(rng: random.Random) -> bytes:
    """A random source with a cycle; after many tries the last one, whatever it is."""
    text = b""
    for _ in range(TRIES):
        text = Kernel(rng).text(rng.choice([6, 10, 16, 24, 32]))
        if has_cycle(text):
            break
    return text
