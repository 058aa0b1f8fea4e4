"""The tree of a source, by the grammar of docs/language.md: statements with their places, tests, and interfaces.

It is the tools' own reading, for places and names alone. What a source means is the program's matter; the tools compare
this reading with the program's listing where they use it (places.py).
"""
from typing import NamedTuple

from tokens import Unread, tokens_of


class Word(NamedTuple):
    """A name with its place."""

    name: str
    start: int
    end: int


class Delay(NamedTuple):
    """What is waited for: `immediate`, a count where there is one, the names in the test, and its place."""

    immediate: bool
    count: int
    names: tuple
    start: int
    end: int


class Statement(NamedTuple):
    """A statement: its form, its place, its parts by their names, and the place at which it is one of a sequence."""

    form: str
    start: int
    end: int
    parts: dict


class Module(NamedTuple):
    """A module: its name, its signals by kind, its relations as pairs of a kind and names, its body."""

    name: Word
    signals: dict
    relations: list
    body: Statement


class Reader:
    """Reads tokens from the left; each method takes one part of the grammar."""

    def __init__(self, text):
        self.tokens = tokens_of(text)
        self.at = 0

    def sees(self, *kinds):
        return self.tokens[self.at].kind in kinds

    def take(self, kind):
        token = self.tokens[self.at]
        if token.kind != kind:
            raise Unread("%s wanted at byte %d" % (kind, token.start))
        self.at += 1
        return token

    def takes(self, *kinds):
        """Takes the next token if it is of one of these kinds."""
        if self.sees(*kinds):
            self.at += 1
            return True
        return False

    def word(self):
        token = self.take("name")
        return Word(token.text, token.start, token.end)

    def words(self, mark=","):
        found = [self.word()]
        while self.takes(mark):
            found.append(self.word())
        return found

    def here(self):
        return self.tokens[self.at].start

    def done(self):
        return self.tokens[self.at - 1].end

    # Programs.

    def program(self):
        found = []
        while not self.sees(""):
            found.append(self.module())
        return found

    def module(self):
        self.take("module")
        name = self.word()
        self.take(":")
        signals, relations = {"input": [], "inputoutput": [], "output": []}, []
        while self.sees("input", "output", "inputoutput", "relation"):
            kind = self.tokens[self.at].kind
            self.at += 1
            if kind == "relation":
                relations.append(self.relation())
                while self.takes(","):
                    relations.append(self.relation())
            else:
                signals[kind] += self.words()
            self.take(";")
        body = self.statement()
        if not self.takes("."):
            self.take("end")
            self.take("module")
        return Module(name, signals, relations, body)

    def relation(self):
        first = self.word()
        if self.takes("=>"):
            return "=>", [first, self.word()]
        self.take("#")
        return "#", [first, *self.words("#")]

    # Statements.

    def statement(self):
        return self.listed("||", self.sequence, "parallel")

    def listed(self, mark, part, form):
        start, parts = self.here(), [part()]
        while self.takes(mark):
            if form == "sequence" and self.sees("||", "]", "end", "each", "when", "else", "case", "handle", ".", ""):
                break
            parts.append(part())
        return parts[0] if len(parts) == 1 else Statement(form, start, self.done(), {"parts": parts})

    def sequence(self):
        return self.listed(";", self.item, "sequence")

    def item(self):
        start, token = self.here(), self.tokens[self.at]
        method = getattr(self, "item_" + {"[": "group"}.get(token.kind, token.kind), None)
        if method is None or token.kind in ("name", "number", ""):
            raise Unread("no statement at byte %d" % start)
        self.at += 1
        form, parts = method()
        return Statement(form, start, self.done(), parts)

    def ends(self, word):
        self.take("end")
        self.takes(word)

    def item_nothing(self):
        return "nothing", {}

    def item_pause(self):
        return "pause", {}

    def item_halt(self):
        return "halt", {}

    def item_emit(self):
        return "emit", {"signal": self.word()}

    def item_sustain(self):
        return "sustain", {"signal": self.word()}

    def item_exit(self):
        return "exit", {"trap": self.word()}

    def item_group(self):
        body = self.statement()
        self.take("]")
        return "group", {"body": body}

    def item_await(self):
        if self.sees("case"):
            cases = self.cases()
            self.ends("await")
            return "await cases", {"cases": cases}
        parts = {"delay": self.delay(), "do": None}
        if self.takes("do"):
            parts["do"] = self.statement()
            self.ends("await")
        return "await", parts

    def cases(self):
        found = []
        while self.takes("case"):
            start = self.here()
            names = tuple(self.test())
            test = Delay(False, 0, names, start, self.done())
            found.append((test, self.statement() if self.takes("do") else None))
        return found

    def item_present(self):
        if self.sees("case"):
            cases = self.cases()
            other = self.statement() if self.takes("else") else None
            self.ends("present")
            return "present cases", {"cases": cases, "else": other}
        start = self.here()
        names = tuple(self.test())
        parts = {"delay": Delay(False, 0, names, start, self.done())}
        parts["then"] = self.statement() if self.takes("then") else None
        parts["else"] = self.statement() if self.takes("else") else None
        self.ends("present")
        return "present", parts

    def item_loop(self):
        body = self.statement()
        if self.takes("each"):
            return "loop each", {"body": body, "delay": self.delay()}
        self.ends("loop")
        return "loop", {"body": body}

    def item_every(self):
        parts = {"delay": self.delay()}
        self.take("do")
        parts["body"] = self.statement()
        self.ends("every")
        return "every", parts

    def item_positive(self):
        self.take("repeat")
        return self.item_repeat()

    def item_repeat(self):
        count = int(self.take("number").text)
        self.take("times")
        body = self.statement()
        self.ends("repeat")
        return "repeat", {"count": count, "body": body}

    def item_abort(self):
        body = self.statement()
        self.take("when")
        if self.sees("case"):
            cases = self.cases()
            self.ends("abort")
            return "abort cases", {"body": body, "cases": cases}
        parts = {"body": body, "delay": self.delay(), "do": None}
        if self.takes("do"):
            parts["do"] = self.statement()
            self.ends("abort")
        return "abort", parts

    def item_weak(self):
        self.take("abort")
        body = self.statement()
        self.take("when")
        return "weak abort", {"body": body, "delay": self.delay()}

    def item_suspend(self):
        body = self.statement()
        self.take("when")
        return "suspend", {"body": body, "delay": self.delay()}

    def item_trap(self):
        parts = {"trap": self.word(), "handler": None, "handled": None}
        self.take("in")
        parts["body"] = self.statement()
        if self.takes("handle"):
            parts["handled"] = self.word()
            self.take("do")
            parts["handler"] = self.statement()
        self.ends("trap")
        return "trap", parts

    def item_signal(self):
        names = self.words()
        self.take("in")
        body = self.statement()
        self.ends("signal")
        return "signal", {"signals": names, "body": body}

    def item_run(self):
        parts = {"module": self.word(), "renamings": []}
        if self.takes("["):
            self.take("signal")
            while True:
                actual = self.word()
                self.take("/")
                parts["renamings"].append((actual, self.word()))
                if not self.takes(","):
                    break
            self.take("]")
        return "run", parts

    # Tests.

    def delay(self):
        start = self.here()
        immediate = self.takes("immediate")
        count = int(self.take("number").text) if self.sees("number") else 0
        names = tuple(self.event())
        return Delay(immediate, count, names, start, self.done())

    def event(self):
        """The names in an event."""
        if self.takes("tick"):
            return []
        if self.takes("["):
            names = self.test()
            self.take("]")
            return names
        return [self.word()]

    def test(self):
        """The names in a test, from the left."""
        names = self.factor()
        while self.takes("and", "or"):
            names += self.factor()
        return names

    def factor(self):
        while self.takes("not"):
            pass
        for opening, closing in (("(", ")"), ("[", "]")):
            if self.takes(opening):
                names = self.test()
                self.take(closing)
                return names
        return [] if self.takes("tick") else [self.word()]


def modules_of(text):
    """The modules of a source."""
    return Reader(text).program()


def parts_of(statement):
    """The statements that are direct parts of a statement, in the order of the text."""
    parts = statement.parts
    found = list(parts.get("parts", ()))
    found += [parts[name] for name in ("body", "then", "else", "do", "handler") if parts.get(name)]
    found += [body for _, body in parts.get("cases", ()) if body]
    return sorted(found, key=lambda part: part.start)


def all_statements(statement):
    """A statement and all statements in it, from the left."""
    waiting = [statement]
    while waiting:
        now = waiting.pop()
        yield now
        waiting += reversed(parts_of(now))
