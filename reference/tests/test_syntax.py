"""The places of syntax faults are those that the grammars give, by Earley's method."""

from __future__ import annotations

import random
import unittest

from fuzzing.drawn_texts import MAKERS
from fuzzing.sources import mutate_bytes, mutate_tokens, source
from rules.c_subset import C_TOKEN, C_WORDS, parse_c
from rules.expressions import cut
from rules.lexer import lex
from rules.parser import parse
from rules.refusals import Refusal
from rules.text_faults import TextFault
from rules.verilog import cut_verilog, parse_verilog
from tests.grammars import GUARD, SOURCE, VERILOG, C, Grammar

ROUNDS = 25


def c_kinds(text: bytes, guarded: bool) -> tuple[list[str], list[int]]:
    words = C_WORDS | {b"if", b"else"} if guarded else C_WORDS
    kinds, places = [], []
    for kind, word, at in cut(text, C_TOKEN, words, True):
        if kind == "name":
            kind = "LNAME"
            if word[:2] in (b"I_", b"O_"):
                kind = "GNAME" if len(word) > 2 else "SNAME"
        if kind != "end":
            kinds.append(kind)
        places.append(at)
    return kinds, places + [len(text)]


def verilog_kinds(text: bytes) -> tuple[list[str], list[int]]:
    tokens = cut_verilog(text)
    kinds = ["NAME" if kind == "name" else kind for kind, _, _ in tokens if kind != "end_mark"]
    return kinds, [at for _, _, at in tokens] + [len(text)]


def mutated(text: bytes, rng: random.Random) -> bytes:
    return mutate_tokens(text, rng) if rng.random() < 0.5 else mutate_bytes(text, rng)


class Syntax(unittest.TestCase):
    def test_sources(self) -> None:
        grammar = Grammar(SOURCE)
        for k in range(ROUNDS):
            rng = random.Random("syntax/%d" % k)
            text = mutated(source(rng, rng.choice([2, 4, 6]), 0), rng)
            try:
                tokens = lex(text)
            except Refusal:
                continue
            kinds = [
                "NAME" if kind == "ident" else "NUMBER" if kind == "num" else value for kind, value, _, _ in tokens
            ]
            try:
                parse(tokens)
                got = None
            except Refusal as refusal:
                got = refusal.data
            self.assertEqual(got, grammar.first_fault(kinds), text)

    def check_text(self, name: str, grammar: Grammar, k: int) -> None:
        rng = random.Random("syntax/%s/%d" % (name, k))
        text = mutated(MAKERS[name](rng), rng)
        kinds, places = verilog_kinds(text) if name == "verilog" else c_kinds(text, name == "guard")
        got = None
        try:
            if name == "verilog":
                parse_verilog(text)
            else:
                parse_c(text, name == "guard")
        except TextFault as fault:
            got = fault.data
        want = grammar.first_fault(kinds)
        self.assertEqual(got, None if want is None else places[want], text)

    def test_texts(self) -> None:
        for name, text in (("c", C), ("guard", GUARD), ("verilog", VERILOG)):
            grammar = Grammar(text)
            for k in range(ROUNDS):
                self.check_text(name, grammar, k)
