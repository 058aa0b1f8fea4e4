"""The worked cases: what the reference answers to each is what is due."""

from __future__ import annotations

import unittest

from fuzzing.campaign import SMALL_ROW
from fuzzing.fixed import ROWS, Row
from rules.command import call


def is_rotation(err: bytes, names: list[str]) -> bool:
    shown = err.decode().split(": ", 2)[-1].rstrip("\n").split(" -> ")
    return any(shown == names[k:] + names[:k] for k in range(len(names)))


class WorkedCases(unittest.TestCase):
    def check(self, row: Row) -> None:
        got = call(row.words, row.files)
        if row.status is not None:
            self.assertEqual(got.status, row.status, row.label)
        if row.out is not None:
            self.assertEqual(got.out, row.out, row.label)
        if row.err is not None:
            self.assertEqual(got.err, row.err, row.label)
        if row.cycle is not None:
            self.assertTrue(is_rotation(got.err, row.cycle), (row.label, got.err))

    def test_small_cases(self) -> None:
        for row in ROWS:
            if sum(map(len, row.files.values())) <= SMALL_ROW:
                self.check(row)
