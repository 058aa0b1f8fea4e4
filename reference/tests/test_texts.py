"""The texts that the reference writes keep what it asks of the program's, and changed texts are refused by a fault
alone.
"""

from __future__ import annotations

import random
import unittest

from fuzzing.drawn_texts import MAKERS, circuit_text
from fuzzing.optimized import check_embedded
from fuzzing.optimized import check_text as check_optimized
from fuzzing.sources import mutate_bytes, source
from fuzzing.written import Difference, check_text
from rules.blif import write_blif
from rules.compiling import compile_source, text_of
from rules.embedded_c import DECLARATIONS, DEFINITIONS, HEADER, Layout, name_fault, write_embedded
from rules.netlist import worked_net
from rules.optimizer import Refused, asked_of, circuit_of
from rules.outcomes import Outcome
from rules.text_faults import TextFault
from rules.texts import open_text

ROUNDS = 20


class Texts(unittest.TestCase):
    def test_own_texts(self) -> None:
        for number in range(ROUNDS):
            rng = random.Random("texts/%d" % number)
            text = source(rng, rng.choice([2, 6, 10]), 0)
            try:
                done = compile_source(text)
            except Outcome:
                continue
            for kind, encoded in (("blif", False), ("blif", True), ("c", False), ("guard", False), ("verilog", False)):
                check_text(kind, text, text_of(done, kind, encoded), None, encoded, 20)

    def test_a_changed_value_is_seen(self) -> None:
        text = b"module M: input A; output O; loop present A then emit O end; pause end end module"
        written = text_of(compile_source(text), "c")
        with self.assertRaises(Difference):
            check_text("c", text, written.replace(b"O_O = ", b"O_O = !", 1))
        with self.assertRaises(Difference):
            check_text("c", text, written.replace(b"static int s0 = 1", b"static int s0 = 0", 1))

    def test_changed_texts(self) -> None:
        for number in range(ROUNDS):
            rng = random.Random("changed/%d" % number)
            for kind, make in MAKERS.items():
                try:
                    runner = open_text(kind, mutate_bytes(make(rng), rng))
                    runner.react([False] * len(runner.in_names))
                except TextFault as fault:
                    self.assertTrue(fault.kind)

    def test_optimizer_takes_itself(self) -> None:
        written = write_blif(worked_net())
        check_optimized("blif", written, written)
        for number in range(ROUNDS):
            try:
                circuit_of(circuit_text(random.Random(number)))
            except Refused as refused:
                self.assertEqual(refused.status, 7)

    def test_embedded_texts(self) -> None:
        net = worked_net()
        text, written = write_blif(net), write_embedded(net, b"lift")
        check_embedded(text, b"lift", written)
        for old, new in ((b"self->state0 = ", b"self->state0 = !"), (b" & ", b" | "), (b"lift_H", b"left_H")):
            with self.assertRaises(Difference):
                check_embedded(text, b"lift", written.replace(old, new, 1))

    def test_layouts(self) -> None:
        net = worked_net()
        text = write_blif(net)
        wrong = {
            HEADER: [(b" : 1;", b" : 2;"), (b" : 1;", b";"), (b"static inline ", b"")],
            DECLARATIONS: [(b" : 1;", b" : 2;"), (b"lift_react", b"lift_step"), (b'extern "C"', b"extern")],
            DEFINITIONS: [(b'"lift.h"', b'"left.h"'), (b"void ", b"static void "), (b" & ", b" | ")],
        }
        for file, changes in wrong.items():
            written = write_embedded(net, b"lift", Layout(True, file))
            check_embedded(text, b"lift", written, layout=Layout(True, file))
            for old, new in changes:
                self.assertIn(old, written)
                with self.assertRaises(Difference):
                    check_embedded(text, b"lift", written.replace(old, new, 1), layout=Layout(True, file))
        definitions = [write_embedded(net, b"lift", Layout(packed, DEFINITIONS)) for packed in (False, True)]
        self.assertEqual(*definitions)

    def test_words_for_resets(self) -> None:
        asked = asked_of(b"verilog --reset rst --async f --module M --prefix".split())
        self.assertEqual((asked.file, asked.reset, asked.module), (b"f", b"rst", b"M"))
        self.assertEqual(asked.flags, (b"--async", b"--prefix"))
        for words, line in (
            ("", b"no value after --reset"),
            ("-r f", b"bad option: --reset"),
            ("rst --main M", b"no file after verilog"),
            ("rst --async f --async", b"bad option: --async"),
            ("rst f --source g", b"bad option: --source"),
            ("rst --source f g", b"one word too many: g"),
            ("rst f --module", b"no value after --module"),
        ):
            with self.assertRaises(Refused) as refused:
                asked_of([b"verilog", b"--reset", *words.encode().split()])
            self.assertEqual(refused.exception.line, line + b", see cec-opt --help")

    def test_words_for_layouts(self) -> None:
        for words, layout in (
            ("--packed", Layout(True)),
            ("--definitions --packed", Layout(True, DEFINITIONS)),
            ("--packed --declarations", Layout(True, DECLARATIONS)),
            ("--header", Layout()),
        ):
            self.assertEqual(asked_of([b"c", b"--embed", b"lift", *words.encode().split(), b"f"]).layout, layout)
        for words, line in (
            ("--packed --packed f", b"bad option: --packed"),
            ("--header --definitions f", b"bad option: --definitions"),
            ("--packed --header --packed f", b"bad option: --packed"),
            ("--packed --header --packed", b"not a file: --packed"),
            ("--packed", b"no file after c"),
        ):
            with self.assertRaises(Refused) as refused:
                asked_of([b"c", b"--embed", b"lift", *words.encode().split()])
            self.assertEqual(refused.exception.line, line + b", see cec-opt --help")

    def test_names_of_components(self) -> None:
        self.assertIsNone(name_fault(b"lift", [b"A", b"interval"]))
        self.assertEqual(name_fault(b"9lift", [b"int"]), ("NoName", b""))
        self.assertEqual(name_fault(b"timer", [b"int"]), ("TypeTaken", b""))
        self.assertEqual(name_fault(b"lift", [b"A", b"xor", b"int"]), ("Reserved", b"xor"))
