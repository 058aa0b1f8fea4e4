"""What the reference says of answers of `cec-prove`, right ones and wrong ones, about sources and texts of a few lines."""

import unittest

from fuzzing.cases import Case
from fuzzing.claims import judge

ABRO = b"module ABRO: input A, B, R; output O; loop [ await A || await B ]; emit O each R end module"
BY_HAND = (
    b"module ABRO: input A, B, R; output O; loop await [A or B]; present [A and B] else"
    b" present A then await B else await A end end; emit O each R end module"
)
AT_ONCE = ABRO.replace(b"await A", b"await immediate A")
BELL = b"""module BELL: input BUTTON, QUIET; output RING, SHORT;
every BUTTON do abort
present QUIET then emit SHORT else emit RING end; halt
when immediate QUIET end every end module
"""
# O is true from the second instant in which A is true on; P is never true, and A is an output too.
LATE = b""".model LATE
.inputs A
.outputs O P A.out _paused
.latch next seen 0
.names A seen next
1- 1
-1 1
.names A seen O
11 1
.names P
.names A A.out
1 1
.names _paused
1
.end
"""
SOON = LATE.replace(b"11 1", b"1- 1")
FILES = {b"b": BELL, b"f": ABRO, b"g": BY_HAND, b"h": AT_ONCE, b"o": ABRO.replace(b"O", b"P"), b"x": b"module M"}
# A circle that is constructive by a relation, one that is not constructive, and none.
CIRCLE = (
    b"module M: input A, B; relation A # B; output X, Y; loop present [A and not Y] then emit X end; pause end"
    b" || loop present [B and not X] then emit Y end; pause end end module"
)
STUCK = b"module E: output X; present X then emit X end end module"
FILES.update({b"c": CIRCLE, b"e": STUCK, b"n": b"module E: output X; nothing end module"})
FILES.update({b"l": LATE, b"s": SOON, b"q": LATE.replace(b"A seen O", b"A none O"), b"t": LATE.replace(b" P", b" Q")})
PROVED, REFUTED = b"cec-prove: proved\n", b"cec-prove: refuted\n"
ALL = b"cec-prove: all signals are decided\n"
SOME = b"cec-prove: some signals are undecided\n"
POINTS, SOME_POINTS = b"cec-prove: all points are decided\n", b"cec-prove: some points are undecided\n"
LINES = b"O sometimes\nO present: A ; A ;\nO absent: ;\nP never\nA sometimes\nA present: A ;\nA absent: ;\n"
AWAITS = b"1:46: await reached: ;\n1:57: await reached: ;\n"
RUNG = b"3:36: else reached: ; BUTTON ;\n3:36: emit reached: ; BUTTON ;\n3:51: halt reached: ; BUTTON ;\n"
SEE = b", see cec-prove --help\n"
STOP = b"instant 1: not constructive: out X, end . s . 0, go .0 s ., end .0 s . 0, go .1 s ., end .1 s . 0\n"
HEAD = b"cec-prove: "
# The words, standard output, standard error and the status of an answer that is right.
RIGHT = [
    (b"never O f", b";\nA B ;\n", REFUTED, 20),
    (b"never O f", b";\nA ;\nB ;\n", REFUTED, 20),
    (b"never O f", b"", b"cec-prove: undecided, instants searched: 1\n", 21),
    (b"never P f", b"", b"cec-prove: no outgoing signal P\n", 22),
    (b"always O f --assume Q", b"", b"cec-prove: no outgoing signal Q\n", 22),
    (b"all f", b"O sometimes\nO present: ; A B ;\nO absent: ;\n", ALL, 0),
    (b"all f", b"O undecided\nO absent: ;\n", SOME, 21),
    (b"cover f", AWAITS + b"1:68: emit reached: ; A B ;\n", POINTS, 0),
    (b"cover f", AWAITS + b"1:68: emit undecided\n", SOME_POINTS, 21),
    (b"cover b", b"3:20: then never\n3:20: emit never\n" + RUNG, POINTS, 0),
    (b"cover b --assume NONE", b"", b"cec-prove: no outgoing signal NONE\n", 22),
    (b"cover", b"", b"cec-prove: no file after cover" + SEE, 2),
    (b"same f g", b"", PROVED, 0),
    (b"same f g --effort 3", b"", b"cec-prove: undecided, instants searched: 9\n", 21),
    (b"same f h", b"A ;\nB ;\n", REFUTED, 20),
    (b"same f o", b"", b"cec-prove: the outgoing signals differ\n", 23),
    (b"same f x", b"", b"cec: 1:9: syntax\n", 4),
    (b"same f nofile", b"", b"cec-prove: cannot read nofile\n", 3),
    (b"", b"", b"cec-prove: no command" + SEE, 2),
    (b"never", b"", b"cec-prove: no signal after never" + SEE, 2),
    (b"never O", b"", b"cec-prove: no file after O" + SEE, 2),
    (b"same f", b"", b"cec-prove: no file after f" + SEE, 2),
    (b"all -f", b"", b"cec-prove: not a file: -f" + SEE, 2),
    (b"same f g --assume O", b"", b"cec-prove: bad option: --assume" + SEE, 2),
    (b"all f --effort 0", b"", b"cec-prove: bad option: --effort" + SEE, 2),
    (b"all f --main", b"", b"cec-prove: no value after --main" + SEE, 2),
    (b"never P l --text", b"", PROVED, 0),
    (b"never O l --text", b"A ;\nA ;\n", REFUTED, 20),
    (b"never O l --text --assume P", b"", PROVED, 0),
    (b"always O l --effort 3 --text --assume A", b"A ;\n", REFUTED, 20),
    (b"never O l --text", b"", b"cec-prove: undecided, instants searched: 1\n", 21),
    (b"all l --text", LINES, ALL, 0),
    (b"never _paused l --text", b"", b"cec-prove: no outgoing signal _paused\n", 22),
    (b"never A.out l --text", b"", b"cec-prove: no outgoing signal A.out\n", 22),
    (b"same l l --text", b"", PROVED, 0),
    (b"same l s --text", b"A ;\n", REFUTED, 20),
    (b"same l t --text", b"", b"cec-prove: the outgoing signals differ\n", 23),
    (b"never O q --text", b"", b"cec-prove: no driver: none\n", 7),
    (b"same q l --text", b"", b"cec-prove: no driver: none\n", 7),
    (b"same l q --text", b"", b"cec-prove: q: no driver: none\n", 7),
    (b"all f --text", b"", b"cec-prove: line 1: not in the profile\n", 7),
    (b"all nofile --text", b"", b"cec-prove: cannot read nofile\n", 3),
    (b"cover l --text", b"", b"cec-prove: bad option: --text" + SEE, 2),
    (b"all l --text --text", b"", b"cec-prove: bad option: --text" + SEE, 2),
    (b"all l --text --main M", b"", b"cec-prove: bad option: --main" + SEE, 2),
    (b"all l --main M --text", b"", b"cec-prove: bad option: --text" + SEE, 2),
    (b"all l --effort --text", b"", b"cec-prove: bad option: --effort" + SEE, 2),
    (b"same l l --text --assume P", b"", b"cec-prove: bad option: --assume" + SEE, 2),
    (b"never X c", b"A ;\n", REFUTED, 20),
    (b"never X c --assume Y", b"", PROVED, 0),
    (b"all c", b"X sometimes\nX present: A ;\nX absent: ;\nY undecided\n", SOME, 21),
    (b"same c c", b"", PROVED, 0),
    (b"never X c --effort 1", b"", b"cec-prove: undecided: go .0 s . -> go .0 s .\n", 21),
    (b"never X e", b";\n", HEAD + STOP, 12),
    (b"cover e", b";\n", HEAD + STOP, 12),
    (b"same n e", b";\n", HEAD + b"e: " + STOP, 12),
    (b"same e n", b";\n", HEAD + STOP, 12),
    (b"all f f", b"", b"cec-prove: one word too many: f" + SEE, 2),
    (b"all f --main=M", b"", b"cec-prove: bad option: --main=M" + SEE, 2),
    (b"--help f", b"", b"cec-prove: one word too many: f" + SEE, 2),
    (b"prove O f", b"", b"cec-prove: unknown word: prove" + SEE, 2),
]
# The same of answers that are wrong, each with a part of what is amiss.
WRONG = [
    (b"never O f", b"", PROVED, 0, "2 instants break the claim"),
    (b"never O f", b";\nA ;\n", REFUTED, 20, "does not break the claim"),
    (b"never O f", b";\nA B ;\nA ;\n", REFUTED, 20, "before the last instant"),
    (b"never O f", b"; A B ;\n", REFUTED, 20, "another spelling"),
    (b"never O f", b"", REFUTED, 20, "no instant"),
    (b"never O f", b"", b"cec-prove: undecided, instants searched: 2\n", 21, "2 instants searched"),
    (b"always O f", b"", PROVED, 0, "1 instants break the claim"),
    (b"never P f", b"", PROVED, 0, "status"),
    (b"all f", b"", ALL, 0, "no line of O"),
    (b"all f", b"O never\n", ALL, 0, "never of O"),
    (b"all f", b"O sometimes\n", ALL, 0, "the lines of O"),
    (b"all f", b"O sometimes\nO present: ; A ;\nO absent: ;\n", ALL, 0, "does not break the claim"),
    (b"all f", b"O undecided\nO absent: ;\n", ALL, 0, "stderr or status"),
    (b"all f", b"O sometimes\nO present: ; A B ;\nO absent: ;\nP never\n", ALL, 0, "stdout"),
    (b"cover f", AWAITS + b"1:68: emit never\n", POINTS, 0, "2 instants reach it"),
    (b"cover f", AWAITS + b"1:68: emit reached: ; A ;\n", POINTS, 0, "does not break"),
    (b"cover f", AWAITS + b"1:69: emit reached: ; A B ;\n", POINTS, 0, "the line of 1:68: emit"),
    (b"cover f", AWAITS + b"1:68: emit undecided\n", POINTS, 0, "stderr or status"),
    (b"cover f", AWAITS, POINTS, 0, "2 lines of 3 points"),
    (b"cover b", b"3:20: then reached: ; BUTTON QUIET ;\n3:20: emit never\n" + RUNG, POINTS, 0, "no state does"),
    (b"same f h", b"", PROVED, 0, "2 instants break the claim"),
    (b"same f h", b"A ;\n;\n", REFUTED, 20, "its last reactions are the same"),
    (b"same f g", b"A ;\nB ;\n", REFUTED, 20, "no state breaks the claim"),
    (b"same f o", b"", b"cec-prove: the given signals differ\n", 23, "the interfaces differ"),
    (b"same f x", b"", PROVED, 0, "status"),
    (b"never O l --text", b"", PROVED, 0, "2 instants break the claim"),
    (b"never O l --text", b"A ;\n;\n", REFUTED, 20, "does not break the claim"),
    (b"never P l --text", b";\n", REFUTED, 20, "no state breaks the claim"),
    (b"never O l --text --assume A", b"A ;\n;\n", REFUTED, 20, "what is assumed is absent in instant 2"),
    (b"all l --text", LINES + b"_paused always\n", ALL, 0, "stdout"),
    (b"all l --text", LINES.replace(b"P never\n", b""), ALL, 0, "no line of P"),
    (b"same l s --text", b"", PROVED, 0, "1 instants break the claim"),
    (b"same l q --text", b"", b"cec-prove: no driver: none\n", 7, "stderr"),
    (b"same q l --text", b"", b"cec-prove: l: no driver: none\n", 7, "stderr"),
    (b"never O q --text", b"", b"cec-prove: no driver: none\n", 4, "status"),
    (b"cover l --text", b"", POINTS, 0, "status"),
    (b"never X c", b"", PROVED, 0, "1 instants break the claim"),
    (b"never X c", b"A ;\n", HEAD + STOP, 12, "each instant of the trace is constructive"),
    (b"never X c", b"A B ;\n", REFUTED, 20, "trace"),
    (b"never X e", b"", PROVED, 0, "not constructive"),
    (b"never X e", b";\n;\n", HEAD + STOP, 12, "instant 1 of 2"),
    (b"never X e", b";\n", HEAD + STOP, 20, "not constructive"),
    (b"never X e", b";\n", HEAD + b"e: " + STOP, 12, "stderr"),
    (b"same n e", b"", PROVED, 0, "not constructive"),
    (b"same n e", b";\n", HEAD + STOP, 12, "not constructive"),
    (b"same f", b"", b"cec-prove: no file after same" + SEE, 2, "stderr"),
]


def note_of(words: bytes, out: bytes, err: bytes, status: int) -> str:
    """What is amiss with an answer, in words."""
    return judge(Case("prove", "cec-prove", words.split(), FILES), (out, err, status))[1] or ""


class TestClaims(unittest.TestCase):
    def test_right_answers(self) -> None:
        for words, out, err, status in RIGHT:
            with self.subTest(words=words, out=out):
                self.assertEqual(note_of(words, out, err, status), "")

    def test_wrong_answers(self) -> None:
        for words, out, err, status, part in WRONG:
            with self.subTest(words=words, out=out, err=err):
                self.assertIn(part, note_of(words, out, err, status))


if __name__ == "__main__":
    unittest.main()
