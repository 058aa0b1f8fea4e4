"""The grammars of sources and texts as docs/ has them, and Earley's method: the first token with which no text goes
on.
"""

from __future__ import annotations

import re

SOURCE = """
program = module { module }
module = "module" NAME ":" { decl } stmt ( "end" "module" | "." )
decl = ( "input" | "output" | "inputoutput" ) NAME { "," NAME } ";" | "relation" rel { "," rel } ";"
rel = NAME "=>" NAME | NAME "#" NAME { "#" NAME }
stmt = seq { "||" seq }
seq = item { ";" item } [ ";" ]
item = "nothing" | "pause" | "halt" | "emit" NAME | "sustain" NAME | "exit" NAME | "[" stmt "]"
 | "await" delay [ "do" stmt "end" [ "await" ] ] | "await" case { case } "end" [ "await" ]
 | "present" expr [ "then" stmt ] [ "else" stmt ] "end" [ "present" ]
 | "present" case { case } [ "else" stmt ] "end" [ "present" ]
 | "loop" stmt "end" [ "loop" ] | "loop" stmt "each" count | "every" delay "do" stmt "end" [ "every" ]
 | [ "positive" ] "repeat" NUMBER "times" stmt "end" [ "repeat" ]
 | "abort" stmt "when" delay [ "do" stmt "end" [ "abort" ] ] | "abort" stmt "when" case { case } "end" [ "abort" ]
 | "weak" "abort" stmt "when" delay | "suspend" stmt "when" [ "immediate" ] event
 | "trap" NAME "in" stmt [ "handle" NAME "do" stmt ] "end" [ "trap" ]
 | "signal" NAME { "," NAME } "in" stmt "end" [ "signal" ]
 | "run" NAME [ "[" "signal" ren { "," ren } "]" ]
ren = NAME "/" NAME
case = "case" expr [ "do" stmt ]
delay = [ "immediate" | NUMBER ] event
count = [ NUMBER ] event
event = NAME | "tick" | "[" expr "]"
expr = conj { "or" conj }
conj = neg { "and" neg }
neg = "not" neg | NAME | "tick" | "(" expr ")" | "[" expr "]"
"""

# LNAME: a name that begins with neither I_ nor O_; GNAME: one that does and is longer; SNAME: one that does and is not
C = """
text = { state } { global } "int" "react" "(" "void" ")" "{" { local } { assign } "return" expr ";" "}"
state = "static" "int" LNAME "=" ( "0" | "1" ) ";"
global = "int" GNAME ";"
local = "int" LNAME ";"
assign = name "=" expr ";"
expr = conj { "|" conj }
conj = neg { "&" neg }
neg = "!" neg | name | "0" | "1" | "(" expr ")"
name = LNAME | GNAME | SNAME
"""
GUARD = (
    C.replace('{ assign } "return"', '{ item } "return"')
    + """item = assign | block
block = "if" "(" name ")" "{" { assign } "}" [ "else" "{" { assign } "}" ]
"""
)
VERILOG = """
text = "module" NAME "(" NAME { "," NAME } ")" ";" { decl } { init } { assign }
 "always" "@" "(" "posedge" NAME ")" "begin" { NAME "<=" NAME ";" } "end" "endmodule"
decl = ( "input" | "output" | "wire" | "reg" ) NAME ";"
init = "initial" NAME "=" bit ";"
assign = "assign" NAME "=" expr ";"
expr = conj { "|" conj }
conj = neg { "&" neg }
neg = "~" neg | NAME | bit | "(" expr ")"
bit = "1'b0" | "1'b1"
"""

Symbol = tuple[str, str]
Item = tuple[str, int, int, int]


class Grammar:
    """Productions; a terminal is ("t", text), a nonterminal ("n", name)."""

    def __init__(self, text: str) -> None:
        lines = [line for line in text.replace("\n |", " |").replace('\n "', ' "').split("\n") if line]
        self.rules: dict[str, list[list[Symbol]]] = {}
        self.names = {line.split(" = ", 1)[0] for line in lines}
        self.start = lines[0].split(" = ", 1)[0]
        self.tokens: list[str] = []
        self.at = 0
        for line in lines:
            name, body = line.split(" = ", 1)
            self.tokens = re.findall(r'"[^"]*"|\w+|[\[\]{}()|]', body)
            self.at = 0
            self.rules[name] = self.choice()
            assert self.at == len(self.tokens), line
        self.nullable: set[str] = set()
        while True:
            more = {name for name, ways in self.rules.items() if any(self.may_be_empty(way) for way in ways)}
            if more == self.nullable:
                break
            self.nullable = more

    def may_be_empty(self, way: list[Symbol]) -> bool:
        return all(kind == "n" and symbol in self.nullable for kind, symbol in way)

    def choice(self) -> list[list[Symbol]]:
        ways = [self.sequence()]
        while self.at < len(self.tokens) and self.tokens[self.at] == "|":
            self.at += 1
            ways.append(self.sequence())
        return ways

    def new(self, ways: list[list[Symbol]]) -> Symbol:
        name = "_%d" % len(self.rules)
        self.rules[name] = ways
        return ("n", name)

    def sequence(self) -> list[Symbol]:
        out: list[Symbol] = []
        while self.at < len(self.tokens) and self.tokens[self.at] not in ("|", "]", "}", ")"):
            token = self.tokens[self.at]
            self.at += 1
            if token in ("[", "{", "("):
                ways = self.choice()
                self.at += 1
                if token == "(":
                    out.append(self.new(ways))
                elif token == "[":
                    empty: list[Symbol] = []
                    out.append(self.new([empty] + ways))
                else:
                    one = self.new(ways)
                    many = self.new([[]])
                    self.rules[many[1]].append([one, many])
                    out.append(many)
            elif token[0] == '"':
                out.append(("t", token[1:-1]))
            else:
                out.append(("n" if token in self.names else "t", token))
        return out

    def first_fault(self, kinds: list[str]) -> int | None:
        """The place of the first token that no text passes, the length where the list is too short, or None."""
        chart: dict[Item, None] = {(self.start, way, 0, 0): None for way in range(len(self.rules[self.start]))}
        charts = [chart]
        for place in range(len(kinds) + 1):
            self.close(charts, place)
            if place == len(kinds):
                break
            after: dict[Item, None] = {}
            for name, way, dot, origin in charts[place]:
                body = self.rules[name][way]
                if dot < len(body) and body[dot] == ("t", kinds[place]):
                    after[name, way, dot + 1, origin] = None
            if not after:
                return place
            charts.append(after)
        for name, way, dot, origin in charts[-1]:
            if name == self.start and origin == 0 and dot == len(self.rules[name][way]):
                return None
        return len(kinds)

    def close(self, charts: list[dict[Item, None]], place: int) -> None:
        """Adds what follows from the items of a place."""
        chart = charts[place]
        todo = list(chart)

        def add(item: Item) -> None:
            if item not in chart:
                chart[item] = None
                todo.append(item)

        while todo:
            name, way, dot, origin = todo.pop()
            body = self.rules[name][way]
            if dot == len(body):
                for name2, way2, dot2, origin2 in list(charts[origin]):
                    body2 = self.rules[name2][way2]
                    if dot2 < len(body2) and body2[dot2] == ("n", name):
                        add((name2, way2, dot2 + 1, origin2))
                continue
            kind, symbol = body[dot]
            if kind == "n":
                for way2 in range(len(self.rules[symbol])):
                    add((symbol, way2, 0, place))
                if symbol in self.nullable:
                    add((name, way, dot + 1, origin))
