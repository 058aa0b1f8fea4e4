"""The names of a source: where each signal, module and trap is declared, and all places that mean it, by docs/language.md."""
import re
from typing import NamedTuple

from lint import delays_of
from source import Word, modules_of, parts_of
from tokens import WORDS, Unread, tokens_of


class Symbol(NamedTuple):
    """A thing with a name: `module`, `trap`, or a signal's kind; its module, and the place of its declaration."""

    kind: str
    name: str
    module: str
    start: int
    end: int


class Use(NamedTuple):
    """A place that means a symbol, and what it does there: declare, emit, test, relate, rename, run, exit or handle."""

    symbol: Symbol
    start: int
    end: int
    role: str


class Capture(NamedTuple):
    """A signal that a `run` takes over by its name alone: the run, the module's signal, and the caller's."""

    run: object
    formal: Symbol
    actual: Symbol


class Names:
    """All uses of names in a source, and what its runs take over by name."""

    def __init__(self, text):
        self.modules = modules_of(text)
        self.uses, self.captures = [], []
        self.named = {it.name.name: self.declared("module", it.name, it.name.name) for it in reversed(self.modules)}
        self.interfaces = {}
        for module in self.modules:
            own = self.interfaces.setdefault(module.name.name, {})
            for kind, names in module.signals.items():
                for it in names:
                    own.setdefault(it.name, self.declared(kind, it, module.name.name))
        for module in self.modules:
            self.module(module)

    def declared(self, kind, word, module):
        """A new symbol, with its declaration as its first use."""
        symbol = Symbol(kind, word.name, module, word.start, word.end)
        self.uses.append(Use(symbol, word.start, word.end, "declare"))
        return symbol

    def use(self, symbol, word, role):
        if symbol:
            self.uses.append(Use(symbol, word.start, word.end, role))

    def module(self, module):
        scope = self.interfaces[module.name.name]
        for _, names in module.relations:
            for it in names:
                self.use(scope.get(it.name), it, "relate")
        self.walk(module.name.name, module.body, scope, {})

    def walk(self, module, statement, scope, traps):
        """Takes up the names in a statement, in which signals and traps mean these symbols."""
        parts = statement.parts
        for delay in delays_of(statement):
            for it in delay.names:
                self.use(scope.get(it.name), it, "test")
        if statement.form in ("emit", "sustain"):
            self.use(scope.get(parts["signal"].name), parts["signal"], "emit")
        elif statement.form == "exit":
            self.use(traps.get(parts["trap"].name), parts["trap"], "exit")
        elif statement.form == "run":
            self.run(statement, scope)
        elif statement.form == "signal":
            scope = {**scope, **{it.name: self.declared("signal", it, module) for it in parts["signals"]}}
        outer = traps
        if statement.form == "trap":
            symbol = self.declared("trap", parts["trap"], module)
            if parts["handled"] and parts["handled"].name == symbol.name:
                self.use(symbol, parts["handled"], "handle")
            traps = {**traps, symbol.name: symbol}
        for part in parts_of(statement):
            self.walk(module, part, scope, outer if part is parts.get("handler") else traps)

    def run(self, statement, scope):
        """Takes up the names of a run, those that it renames and those that it takes over."""
        module = statement.parts["module"]
        self.use(self.named.get(module.name), module, "run")
        interface = self.interfaces.get(module.name, {})
        renamed = set()
        for actual, formal in statement.parts["renamings"]:
            self.use(scope.get(actual.name), actual, "rename")
            self.use(interface.get(formal.name), formal, "rename")
            renamed.add(formal.name)
        for name, formal in interface.items():
            if name not in renamed and name in scope:
                self.captures.append(Capture(statement, formal, scope[name]))

    def at(self, place):
        """The use at a place; none where no name with a meaning is there."""
        return next((it for it in self.uses if it.start <= place <= it.end), None)

    def of(self, symbol):
        """All uses of a symbol, in the order of the text."""
        return sorted((it for it in self.uses if it.symbol == symbol), key=lambda it: it.start)

    def names_in(self, module):
        """The names of all signals and traps of a module."""
        return {it.symbol.name for it in self.uses if it.role == "declare" and it.symbol.module == module and it.symbol.kind != "module"}


def names_of(text):
    """The names of a source; none where it is not read."""
    try:
        return Names(text)
    except (Unread, RecursionError):
        return None


class Outlined(NamedTuple):
    """A module of an outline: its name, its signals by kind, its place and the place after it."""

    name: Word
    signals: dict
    start: int
    end: int


def outline_of(text):
    """The modules of a source with their interfaces, by its words `module`, `input`, `inputoutput` and `output` alone: so it is there
    while a `;` is missing, and in any text with a fault."""
    found, tokens, kind = [], tokens_of(text, skips=True), None
    for token, after in zip(tokens, tokens[1:]):
        if token.kind == "module" and after.kind == "name":
            name = Word(after.text, after.start, after.end)
            found.append(Outlined(name, {"input": [], "inputoutput": [], "output": []}, token.start, after.end))
            kind = None
        elif found:
            # The name after `module` begins no list of names.
            is_listed = token.kind in ("name", ",")
            kind = token.kind if token.kind in found[-1].signals else kind if is_listed else None
            if kind and token.kind == "name":
                found[-1].signals[kind].append(Word(token.text, token.start, token.end))
            found[-1] = found[-1]._replace(end=token.end)
    return found


class Refused(Exception):
    """A renaming that would change what the source means, or is none."""


def renamed(names, symbol, new):
    """The edits that rename a symbol: places and new texts. A run that takes a signal over by name gets a renaming."""
    if not re.fullmatch(r"[A-Za-z][A-Za-z0-9_]*", new) or new in WORDS:
        raise Refused("%s is no name" % new)
    taken = set(names.named) if symbol.kind == "module" else names.names_in(symbol.module)
    if new in taken and new != symbol.name:
        raise Refused("%s is declared before%s" % (new, "" if symbol.kind == "module" else " in module %s" % symbol.module))
    edits = [(it.start, it.end, new) for it in names.of(symbol)]
    added = {}
    for run, formal, actual in names.captures:
        if symbol in (formal, actual):
            pair = "%s/%s" % (new if actual == symbol else actual.name, new if formal == symbol else formal.name)
            added.setdefault(run.start, (run, []))[1].append(pair)
    for run, pairs in added.values():
        renamings = run.parts["renamings"]
        if renamings:
            last = renamings[-1][1].end
            edits.append((last, last, "".join(", " + pair for pair in pairs)))
        else:
            end = run.parts["module"].end
            edits.append((end, end, " [signal %s]" % ", ".join(pairs)))
    return sorted(edits)


def edited(text, edits):
    """A text with these edits."""
    for start, end, new in reversed(edits):
        text = text[:start] + new + text[end:]
    return text
