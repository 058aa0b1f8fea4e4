"""How worked equations are printed, and how their questions are read."""

from __future__ import annotations

import unittest

from equations.antt import codes, inner, listed, pruned, read_term, term, wrapped
from equations.kernels import kernel_of, shown
from equations.sheets import Block, escaped, unescaped


class Printing(unittest.TestCase):
    def test_terms(self) -> None:
        text = "Loop (place 3) (Seq (Emit 2) Pause)"
        self.assertEqual(term(read_term(text)), text)
        self.assertEqual(kernel_of(read_term(text)), ("Loop", (3, 4), ("Seq", ("Emit", 2), ("Pause",))))
        self.assertEqual(shown(kernel_of(read_term(text))), text)
        self.assertEqual(read_term("1 ∷ 2 ∷ []"), [1, 2])

    def test_texts(self) -> None:
        self.assertEqual(codes(b"a\n\\"), 'codes "a\\n\\\\"')
        self.assertEqual(codes(b""), "[]")
        self.assertEqual(codes(b"a\x01"), 'codes "a" ++ (1 ∷ [])')
        self.assertEqual(unescaped(escaped(b"a\n\x01\\ b")), b"a\n\x01\\ b")

    def test_lists(self) -> None:
        self.assertEqual(inner("f x"), "(f x)")
        self.assertEqual(inner("(f x)"), "(f x)")
        self.assertEqual(inner("(f) (x)"), "((f) (x))")
        self.assertEqual(listed(["1", "f x", "2 ∷ []"]), "1 ∷ f x ∷ (2 ∷ []) ∷ []")

    def test_lines(self) -> None:
        text = wrapped("x " * 200)
        self.assertTrue(all(len(line) <= 158 for line in text.split("\n")))
        self.assertEqual(text.replace("\n   ", ""), ("x " * 200).strip())

    def test_imports(self) -> None:
        text = "use A.{f, ◌∷◌, gone}\nuse B as b\nuse C as c\n\nx : f 1 ∷ b.g\nx = refl\n"
        self.assertEqual(pruned(text), "use A.{f, ◌∷◌}\nuse B as b\n\nx : f 1 ∷ b.g\nx = refl\n")

    def test_blocks(self) -> None:
        block = Block(["-- why", "name: k", "text: a: b", "step: 1", "step: 2"])
        self.assertEqual((block.comments, block.one("text"), block.all("step")), (["-- why"], "a: b", ["1", "2"]))
