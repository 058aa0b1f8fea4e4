"""Embedded C: the texts of a netlist, the reader of such texts, the rules on names, and calls on instances.

Stands for `Tokens`, `Grammar`, `Names`, `Machine`, `Written` and `Faults` (crates/csub_embed/specs/).
"""

from __future__ import annotations

import re
from dataclasses import dataclass
from typing import Any, Optional, Sequence

from rules.netlist import Net

TOKEN = re.compile(rb"[ \t\n\f\r]+|/\*.*?\*/|([A-Za-z0-9_]+|->|[(){};:=*,!&|])", re.DOTALL)

RESERVED = set(
    b"""alignas alignof and and_eq asm auto bitand bitor bool break case catch char char16_t char32_t char8_t class co_await
co_return co_yield compl concept const const_cast consteval constexpr constinit continue decltype default delete do double
dynamic_cast else enum explicit export extern false float for friend goto if inline int linux long mutable namespace new
noexcept not not_eq nullptr operator or or_eq private protected public register reinterpret_cast requires restrict return
short signed sizeof static static_assert static_cast struct switch template this thread_local throw true try typedef typeid
typename typeof typeof_unqual union unix unsigned using virtual void volatile wchar_t while xor xor_eq""".split()
)

TYPES = set(
    b"""blkcnt blksize char16 char32 char8 clock clockid cnd dev div double fenv fexcept float fpos gid id imaxdiv ino int16 int32
int64 int8 int_fast16 int_fast32 int_fast64 int_fast8 int_least16 int_least32 int_least64 int_least8 intmax intptr key ldiv
lldiv locale max_align mbstate mode mtx nlink nullptr off pid pthread ptrdiff regex regmatch regoff rsize sig_atomic sigset
size socklen ssize suseconds thrd time timer tss uid uint16 uint32 uint64 uint8 uint_fast16 uint_fast32 uint_fast64
uint_fast8 uint_least16 uint_least32 uint_least64 uint_least8 uintmax uintptr useconds wchar wctrans wctype wint""".split()
)


HEADER, DECLARATIONS, DEFINITIONS = "header", "declarations", "definitions"


class NotEmbedded(Exception):
    """The text is no embedded one."""


@dataclass(frozen=True)
class Layout:
    """How a text is laid out: whether each latch takes one bit of the state, and which file the text is."""

    packed: bool = False
    file: str = HEADER


def name_fault(name: bytes, signals: Sequence[bytes]) -> Optional[tuple[str, bytes]]:
    """Why a net with these signals, inputs before outputs, has no embedded text under a name."""
    if not re.fullmatch(rb"[A-Za-z][A-Za-z0-9_]*", name):
        return ("NoName", b"")
    if name in TYPES:
        return ("TypeTaken", b"")
    for signal in signals:
        if signal in RESERVED:
            return ("Reserved", signal)
    return None


# ---- the text


def place_text(net: Net, n: int) -> bytes:
    if n < len(net.inputs):
        return b"in->" + net.inputs[n]
    if n < net.first_gate():
        return b"self->state%d" % (n - len(net.inputs))
    return b"g%d" % (n - net.first_gate())


def value_text(net: Net, op: Any) -> bytes:
    if op[0] == "const":
        return b"true" if op[1] else b"false"
    if op[0] == "copy":
        return place_text(net, op[1])
    if op[0] == "not":
        return b"!" + place_text(net, op[1])
    return place_text(net, op[1]) + (b" & " if op[0] == "and" else b" | ") + place_text(net, op[2])


def lines_before(name: bytes, file: str) -> list[bytes]:
    """The lines for the preprocessor before the text."""
    if file == DEFINITIONS:
        return [b'#include "%s.h"' % name]
    lines = [b"#ifndef %s_H" % name, b"#define %s_H" % name, b"", b"#include <stdbool.h>", b"#include <stdint.h>"]
    return lines + [b"", b"#ifdef __cplusplus", b'extern "C" {', b"#endif"] * (file == DECLARATIONS)


# Those after it.
LINES_AFTER = {
    HEADER: [b"", b"#endif"],
    DECLARATIONS: [b"", b"#ifdef __cplusplus", b"}", b"#endif", b"", b"#endif"],
    DEFINITIONS: [],
}


def structure(kind: bytes, members: Sequence[bytes], packed: bool = False) -> list[bytes]:
    width = b" : 1" if packed else b""
    lines = [b"    bool %s%s;" % (member, width) for member in members] or [b"    uint8_t unused;"]
    return [b"", b"typedef struct {", *lines, b"} %s;" % kind]


def functions_of(net: Net, reset: bytes, react: bytes) -> list[bytes]:
    """The functions, which begin so."""
    read = [n for op, _ in net.gates if op[0] != "const" for n in op[1:]]
    read += [n for _, n in net.latches] + [n for _, n in net.outputs] + [net.paused]
    lines = [b"", reset, b"{"]
    lines += [b"    self->state%d = %s;" % (j, b"true" if init else b"false") for j, (init, _) in enumerate(net.latches)]
    if not net.latches:
        lines.append(b"    (void)self;")
    lines += [b"}", b"", react, b"{"]
    used = [(b"self", bool(net.latches)), (b"in", any(n < len(net.inputs) for n in read)), (b"out", bool(net.outputs))]
    lines += [b"    (void)%s;" % parameter for parameter, is_used in used if not is_used]
    lines += [b"    const bool g%d = %s;" % (k, value_text(net, op)) for k, (op, _) in enumerate(net.gates)]
    lines += [b"    const bool next%d = %s;" % (j, place_text(net, source)) for j, (_, source) in enumerate(net.latches)]
    lines.append(b"    const bool running = %s;" % place_text(net, net.paused))
    lines += [b"    out->%s = %s;" % (output, place_text(net, source)) for output, source in net.outputs]
    lines += [b"    self->state%d = next%d;" % (j, j) for j in range(len(net.latches))]
    return lines + [b"    return running;", b"}"]


def write_embedded(net: Net, name: bytes, layout: Layout = Layout()) -> bytes:
    """The text of a netlist under a name."""
    outputs = [output for output, _ in net.outputs]
    states = [b"state%d" % j for j in range(len(net.latches))]
    linkage = b"static inline " if layout.file == HEADER else b""
    reset = linkage + b"void %s_reset(%s_t *self)" % (name, name)
    react = linkage + b"bool %s_react(%s_t *self, const %s_inputs_t *in, %s_outputs_t *out)" % (name, name, name, name)
    lines = lines_before(name, layout.file) + [b""]
    lines.append(b"/* %s, by cec-opt 0.1.0: cec-opt c --embed. Any number of instances." % name)
    lines.append(b" * Reset an instance before its first call of react; react returns whether it is still running. */")
    if layout.file != DEFINITIONS:
        lines += structure(name + b"_t", states, layout.packed)
        lines += structure(name + b"_inputs_t", net.inputs) + structure(name + b"_outputs_t", outputs)
    if layout.file == DECLARATIONS:
        lines += [b"", reset + b";", react + b";"]
    else:
        lines += functions_of(net, reset, react)
    return b"".join(line + b"\n" for line in lines + LINES_AFTER[layout.file])


# ---- reading


class Component:
    """What files describe: a place is ('self' | 'in', NAME) or ('', LOCAL), a value a bit, a place, or an operator on places."""

    def __init__(self, name: bytes) -> None:
        self.name = name
        self.states: list[tuple[bytes, bool]] = []
        self.inputs: list[bytes] = []
        self.outputs: list[bytes] = []
        self.ignored: list[bytes] = []
        self.locals: list[tuple[bytes, Any]] = []
        self.shown: list[tuple[bytes, Any]] = []
        self.kept: list[tuple[bytes, Any]] = []
        self.answer: Any = None


def tokens_of(text: bytes) -> list[bytes]:
    found, at = [], 0
    while at < len(text):
        match = TOKEN.match(text, at)
        if match is None:
            raise NotEmbedded("no token at byte %d" % at)
        if match[1] is not None:
            found.append(match[1])
        at = match.end()
    return found


class Reader:
    def __init__(self, tokens: list[bytes]) -> None:
        self.tokens, self.at = tokens, 0

    def next(self) -> bytes:
        return self.tokens[self.at] if self.at < len(self.tokens) else b""

    def any(self) -> bytes:
        if not self.next():
            raise NotEmbedded("the end")
        self.at += 1
        return self.tokens[self.at - 1]

    def bit(self) -> bool:
        word = self.any()
        if word not in (b"true", b"false"):
            raise NotEmbedded("%r where a bit must be" % word)
        return word == b"true"

    def take(self, *tokens: bytes) -> None:
        for token in tokens:
            if self.next() != token:
                raise NotEmbedded("%r where %r must be" % (self.next(), token))
            self.at += 1

    def structure(self, kind: bytes, packed: bool = False) -> list[bytes]:
        members = []
        self.take(b"typedef", b"struct", b"{")
        if self.next() == b"uint8_t":
            self.take(b"uint8_t", b"unused", b";")
        else:
            while self.next() == b"bool":
                self.take(b"bool")
                members.append(self.any())
                if packed:
                    self.take(b":", b"1")
                self.take(b";")
        self.take(b"}", kind, b";")
        return members

    def place(self) -> tuple[bytes, bytes]:
        word = self.any()
        if word in (b"self", b"in"):
            self.take(b"->")
            return (word, self.any())
        return (b"", word)

    def value(self) -> Any:
        if self.next() in (b"true", b"false"):
            return self.bit()
        if self.next() == b"!":
            self.take(b"!")
            return ("!", self.place())
        first = self.place()
        if self.next() in (b"&", b"|"):
            return (self.any().decode(), first, self.place())
        return ("", first)

    def stores(self, structure: bytes) -> list[tuple[bytes, Any]]:
        found = []
        while self.next() == structure:
            self.take(structure, b"->")
            member = self.any()
            self.take(b"=")
            found.append((member, self.place()))
            self.take(b";")
        return found


    def heads(self, name: bytes, file: str) -> tuple[list[bytes], list[bytes]]:
        """The tokens with which the functions begin."""
        linkage = [b"static", b"inline"] if file == HEADER else []
        reset = [*linkage, b"void", name + b"_reset", b"(", name + b"_t", b"*", b"self", b")"]
        react = [*linkage, b"bool", name + b"_react", b"(", name + b"_t", b"*", b"self", b","]
        react += [b"const", name + b"_inputs_t", b"*", b"in", b",", name + b"_outputs_t", b"*", b"out", b")"]
        return reset, react

    def functions(self, c: Component, file: str) -> None:
        reset, react = self.heads(c.name, file)
        self.take(*reset, b"{")
        while self.next() == b"self":
            self.take(b"self", b"->")
            name = self.any()
            self.take(b"=")
            c.states.append((name, self.bit()))
            self.take(b";")
        if not c.states:
            self.take(b"(", b"void", b")", b"self", b";")
        self.take(b"}", *react, b"{")
        while self.next() == b"(":
            self.take(b"(", b"void", b")")
            c.ignored.append(self.any())
            self.take(b";")
        while self.next() == b"const":
            self.take(b"const", b"bool")
            name = self.any()
            self.take(b"=")
            c.locals.append((name, self.value()))
            self.take(b";")
        c.shown, c.kept = self.stores(b"out"), self.stores(b"self")
        self.take(b"return")
        c.answer = self.place()
        self.take(b";", b"}")


def read_embedded(text: bytes, name: bytes, layout: Layout = Layout()) -> Component:
    """The component with this name that a file describes. Declarations have no functions and no first values of states,
    and definitions have neither inputs nor outputs."""
    before = b"".join(line + b"\n" for line in lines_before(name, layout.file))
    after = b"".join(line + b"\n" for line in LINES_AFTER[layout.file])
    if len(text) < len(before) + len(after) or not text.startswith(before) or not text.endswith(after):
        raise NotEmbedded("the lines for the preprocessor")
    c, r = Component(name), Reader(tokens_of(text[len(before) : len(text) - len(after)]))
    states: list[bytes] = []
    if layout.file != DEFINITIONS:
        states = r.structure(name + b"_t", layout.packed)
        c.inputs, c.outputs = r.structure(name + b"_inputs_t"), r.structure(name + b"_outputs_t")
    if layout.file == DECLARATIONS:
        for head in r.heads(name, layout.file):
            r.take(*head, b";")
        c.states = [(state, False) for state in states]
    else:
        r.functions(c, layout.file)
        if layout.file == HEADER and [state for state, _ in c.states] != states:
            raise NotEmbedded("the states are not those of the structure")
    if r.next():
        raise NotEmbedded("more tokens")
    return c


def is_sound(c: Component) -> bool:
    """Whether the component keeps the rules on names."""
    states = [name for name, _ in c.states]
    names = [name for name, _ in c.locals]
    lists = [states, c.inputs, c.outputs, [b"self", b"in", b"out", *names]]
    if any(len(set(each)) < len(each) for each in lists) or any(name in RESERVED for each in lists for name in each):
        return False
    before: set[bytes] = set()

    def known(place: tuple[bytes, bytes]) -> bool:
        return place[1] in {b"self": states, b"in": c.inputs, b"": before}[place[0]]

    for name, value in c.locals:
        if not isinstance(value, bool) and not all(known(place) for place in value[1:]):
            return False
        before.add(name)
    if not all(known(place) for _, place in c.shown + c.kept) or not known(c.answer):
        return False
    return [name for name, _ in c.shown] == c.outputs and [name for name, _ in c.kept] == states and c.name not in TYPES


# ---- calls


def react(c: Component, state: dict[bytes, bool], inputs: Sequence[bool]) -> tuple[list[bool], bool]:
    """One call on an instance, whose state it changes: the outputs and the answer."""
    given, local = dict(zip(c.inputs, inputs)), dict[bytes, bool]()

    def at(place: tuple[bytes, bytes]) -> bool:
        return {b"self": state, b"in": given, b"": local}[place[0]][place[1]]

    for name, value in c.locals:
        if isinstance(value, bool):
            local[name] = value
        elif value[0] == "!":
            local[name] = not at(value[1])
        elif value[0] == "&":
            local[name] = at(value[1]) and at(value[2])
        elif value[0] == "|":
            local[name] = at(value[1]) or at(value[2])
        else:
            local[name] = at(value[1])
    shown = {}
    for member, place in c.shown:
        shown[member] = at(place)
    for member, place in c.kept:
        state[member] = at(place)
    return [shown[output] for output in c.outputs], at(c.answer)


def run_calls(c: Component, calls: Sequence[tuple[int, Optional[Sequence[bool]]]]) -> list[tuple[int, list[bool], bool]]:
    """What calls on instances show: an instance and its inputs, or None for a reset."""
    instances: dict[int, dict[bytes, bool]] = {}
    found = []
    for instance, inputs in calls:
        if inputs is None:
            instances[instance] = dict(c.states)
        else:
            found.append((instance, *react(c, instances[instance], inputs)))
    return found
