"""A difference is found and made small."""

from __future__ import annotations

import unittest
from typing import Sequence

from fuzzing.cases import Case, Files
from fuzzing.judging import judge
from fuzzing.programs import Answer, Programs
from fuzzing.shrinking import shrunk
from rules.command import call


class Wrong(Programs):
    """The reference as a program that says the wrong word of an instant in which P is emitted."""

    def answer(self, program: str, words: Sequence[bytes], files: Files) -> Answer:
        got = call(words, files)
        return got.out.replace(b"P | paused", b"P | ended"), got.err, got.status


SOURCE = b"""module M: input A, B; output O, P;
loop
  present A then emit O; emit P else pause end;
  [pause || await B]; emit P
end || every A do emit O end
end module
"""


class Shrinking(unittest.TestCase):
    def test_a_wrong_line(self) -> None:
        programs = Wrong({}, 60)
        words = [b"run", b"--via", b"c", b"--pick", b"last", b"f", b"t"]
        case = Case("source", "cec", words, {b"f": SOURCE, b"t": b"A;\nB;\n; A B;\n"})
        self.assertEqual(judge(case, programs).note, "stdout")
        small = shrunk(case, programs, 30)
        self.assertEqual(judge(small, programs).note, "stdout")
        self.assertLess(sum(len(data.splitlines()) for data in small.files.values()), 10)
        self.assertLess(len(small.files[b"f"]), 80)
        self.assertNotIn(b"--pick", small.words)
        programs.close()
