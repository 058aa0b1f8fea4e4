"""Worked cases: command lines with their files and with the answers that are due, up to the limits."""

from __future__ import annotations

from typing import Any, Optional

from rules.blif import write_blif
from rules.c_subset import write_c
from rules.generator import generate_source
from rules.netlist import worked_net
from rules.verilog import write_verilog


class Row:
    """A command line with its files, and what it must answer; None is not fixed. `cycle` is one up to rotation."""

    def __init__(
        self,
        label: str,
        words: list[bytes],
        files: dict[bytes, bytes],
        status: Optional[int],
        out: Optional[bytes],
        err: Optional[bytes],
        cycle: Optional[list[str]],
    ) -> None:
        self.label = label
        self.words = words
        self.files = files
        self.status = status
        self.out = out
        self.err = err
        self.cycle = cycle


ROWS: list[Row] = []


def add(
    label: str,
    words: str,
    files: dict[str, Any],
    status: Optional[int] = 0,
    out: bytes | str | None = None,
    err: Any = None,
) -> None:
    texts = {k.encode(): v if isinstance(v, bytes) else v.encode() for k, v in files.items()}
    cycle = err if isinstance(err, list) else None
    answer = out.encode() if isinstance(out, str) else out
    line = b"cec: " + err.encode() + b"\n" if isinstance(err, str) else None if cycle else err
    split = [w.encode() for w in words.split(" ")] if words else []
    ROWS.append(Row(label, split, texts, status, answer, line, cycle))


def lines(text: str) -> str:
    """'a / b' as two lines; '' as none."""
    return "".join(part.strip() + "\n" for part in text.split("/")) if text else ""


def run(label: str, source: str, trace: str, want: str, status: int = 0, err: Optional[str] = None) -> None:
    """A run in each way, and each text of the source."""
    files = {"f": source, "t": trace}
    line = err if status else b""
    for via in ("blif", "c", "verilog", "tri"):
        add("%s, %s" % (label, via), "run --via %s f t" % via, files, status, lines(want), line)
    add(label + ", guard", "run --via guard f t", files, status, None, line)
    add(label + ", encode", "run --via blif --encode f t", files, status, lines(want), line)
    for command in ("blif", "check", "c", "grc", "c --guard", "verilog", "blif --encode"):
        add("%s, text of %s" % (label, command), command + " f", files)


def fault(label: str, source: str, err: str, status: int = 4, words: str = "blif f") -> None:
    files = {"f": source, "t": ";"}
    add(label, words, files, status, b"", err)
    add(label + ", check", words.replace("blif", "check"), files, status, b"", err)
    add(label + ", tri", words.replace("blif", "run --via tri") + " t", files, status, b"", err)


def cyclic(label: str, source: str, names: list[str]) -> None:
    add(label, "blif f", {"f": source}, 5, b"", names)
    add(label + ", check", "check f", {"f": source}, 5, b"", names)
    add(label + ", run", "run --via blif f t", {"f": source, "t": ";"}, 5, b"", names)


def text_row(label: str, via: str, text: str, trace: str, status: int, out: bytes | str, err: Any) -> None:
    add(label, "exec --via %s f t" % via, {"f": text, "t": trace}, status, out, err)


def t(text: str) -> str:
    return "".join(part + "\n" for part in text.split(" / "))


ABRO = "% Berry's ABRO\nmodule ABRO: input A, B, R; output O; loop [await A || await B]; emit O each R end module"


NOTHING = "module M: nothing end module"


EMIT_TWICE = "module M: output O; emit O; pause; emit O end module"


REINCARNATION = "module M: output O; loop signal S in present S then emit O end; pause; emit S end end " "end module"


CYCLE = "module M: signal S in present S then emit S end end end module"


CYCLE_OF_TWO = (
    "module M: input A; signal S1, S2 in present A then present S1 then emit S2 end else present S2 "
    "then emit S1 end end end end module"
)


WEAK_ABORT = "module M: input A; output O; weak abort loop emit O; pause end when A end module"


GIVEN_CYCLE = "module M: inputoutput X; present X else emit X end end module"


def build() -> None:
    run(
        "abro",
        ABRO,
        "; A; B; A B; R; A; A B R;",
        "- | paused/- | paused/O | paused/- | paused/- | paused/- | paused/- | paused",
    )
    for pick in ("last", "12345"):
        add(
            "order " + pick,
            "run --via blif --pick %s f t" % pick,
            {"f": ABRO, "t": "; A; B; A B; R; A; A B R;"},
            0,
            lines("- | paused/- | paused/O | paused/- | paused/- | paused/- | paused/- | paused"),
            b"",
        )
    add("no trace", "run --via blif f t", {"f": ABRO}, 3, b"", "cannot read t")
    add("no source", "blif f", {}, 3, b"", "cannot read f")
    run("nothing", NOTHING, "; ;", "- | ended/- | ended")
    run("nothing, no items", NOTHING, "", "")
    run("emit and pause", EMIT_TWICE, "; ; ;", "O | paused/O | ended/- | ended")
    run("reincarnation", REINCARNATION, "; ; ;", "- | paused/- | paused/- | paused")
    run(
        "trap in a loop",
        "module M: output A, B; loop trap T in [pause; emit A; exit T] || [loop pause; emit B end] end "
        "end end module",
        "; ; ;",
        "- | paused/A B | paused/A B | paused",
    )
    cyclic("cycle by presence", CYCLE, ["st . s . S", "go .0.0 s ."])
    cyclic(
        "cycle by absence",
        "module M: signal S in present S else emit S end end end module",
        ["st . s . S", "go .0.1 s ."],
    )
    cyclic("cycle of two", CYCLE_OF_TWO, ["st . s . S1", "go .0.0.0.0 s .", "st .0 s . S2", "go .0.0.1.0 s ."])
    fault("instantaneous loop", "module M: output O; loop emit O end end module", "1:21: instantaneous loop")
    run(
        "outer trap",
        "module M: output A, B; trap T in trap U in [exit T || exit U] end; emit A end; emit B end " "module",
        ";",
        "B | ended",
    )
    run(
        "suspend",
        "module M: input S; output O; suspend [emit O; pause; emit O] when S end module",
        "S; S; ;",
        "O | paused/- | paused/O | ended",
    )
    run("weak abort", WEAK_ABORT, "; A;", "O | paused/O | ended")
    run("abort", WEAK_ABORT.replace("weak ", ""), "; A;", "O | paused/- | ended")
    run(
        "renaming",
        "module MAIN: output X, Z; run M [signal X/S] end module module M: output S, Z; signal X in "
        "emit S; present X then emit Z end end end module",
        ";",
        "X | ended",
    )
    run(
        "exclusion",
        "module M: input A, B; relation A # B; output O; loop present A then emit O end; pause end " "end module",
        "A; A B;",
        "O | paused",
        6,
        "instant 2: breaks relation 1",
    )
    run(
        "implication",
        "module M: input A, B; relation A => B; output O; loop present A then emit O end; " "pause end end module",
        "B; A;",
        "- | paused",
        6,
        "instant 2: breaks relation 1",
    )
    fault("open source", "module M: output O; emit", "1:25: syntax")
    run("open trace", "module M: input A, B; loop pause end end module", "A; B", "- | paused", 6, "instant 2: open")
    for n in ("0", "256"):
        fault("count " + n, "module M: repeat %s times pause end end module" % n, "1:18: bad count")
    run("count 255", "module M: repeat 255 times pause end end module", ";", "- | paused")
    fault(
        "large counts",
        "module M: repeat 255 times repeat 255 times pause; pause end end end module",
        "limit: kernel",
        8,
    )
    add("gen, many branches", "gen --start 7 --branches 400 --run 200", {}, 0, None, b"")
    run("await immediate", "module M: input A; output O; await immediate A; emit O end module", "A;", "O | ended")
    run(
        "every immediate",
        "module M: input A; output O; every immediate A do emit O end end module",
        "A; ; A;",
        "O | paused/- | paused/O | paused",
    )
    add("counts", "check f", {"f": EMIT_TWICE}, 0, "M: 5 nodes, 1 pauses, 8 instances, 17 wires\n", b"")
    add(
        "listing",
        "grc f",
        {"f": EMIT_TWICE},
        0,
        "\n".join(
            [
                "grc 1",
                "excl .",
                "excl .1",
                "leaf .1.0",
                "w0 out O",
                "w1 go . r",
                "w2 end . r 0",
                "w3 go . s .",
                "w4 end . s . 1",
                "w5 go .0 s .",
                "w6 end .0 s . 0",
                "w7 go .1 r",
                "w8 end .1 r 0",
                "w9 go .1 s .",
                "w10 end .1 s . 1",
                "w11 go .1.0 r",
                "w12 end .1.0 r 0",
                "w13 go .1.0 s .",
                "w14 end .1.0 s . 1",
                "w15 go .1.1 s .1.1",
                "w16 end .1.1 s .1.1 0",
            ]
        )
        + "\n",
        b"",
    )
    add(
        "counts of reincarnation",
        "check f",
        {"f": REINCARNATION},
        0,
        "M: 10 nodes, 1 pauses, 21 instances, 46 wires\n",
        b"",
    )
    add(
        "gen",
        "gen --start 0 --branches 1",
        {},
        0,
        t(
            "module GEN: / input I0, I1, I2, I3, I4, I5, I6, I7; / output O0, O1, O2, O3, O4, O5, O6, O7; / "
            "signal S0 in / [ / every I4 do emit S0; emit O4 end every / ] / end signal / end module"
        ),
        b"",
    )
    add("gen, run", "gen --start 0 --branches 1 --run 1", {}, 0, "instants 1\nemitted 0\npaused 1\n", b"")
    small_rows()
    static_rows()
    derived_rows()
    text_rows()
    limit_rows()
    word_rows()
    add("trace, repeated", "run --via blif f t", {"f": WEAK_ABORT, "t": "A;;A A;"}, 6, None, "instant 3: repeated A")
    add("trace, unknown", "run --via blif f t", {"f": WEAK_ABORT, "t": "A, B;"}, 6, b"", "instant 1: unknown input A,")
    add("trace, bad byte", "run --via blif f t", {"f": WEAK_ABORT, "t": b"\x01"}, 6, b"", "byte 0: bad byte")
    run("trace, comment", WEAK_ABORT, "% all % of it", "")
    big = generate_source(7, 400)[0]
    for via in ("blif", "c", "guard", "verilog", "tri"):
        add(
            "many branches, " + via,
            "run --via %s f t" % via,
            {"f": big, "t": ";"},
            0,
            "- | paused\n" if via != "guard" else None,
            b"",
        )
    late_rows()


def static_rows() -> None:
    for label, source, err in (
        ("UnknownSignal", "module M: output O; emit P end module", "1:26: unknown signal"),
        ("EmitInput", "module M: input A; emit A end module", "1:25: input emitted"),
        ("UnknownTrap", "module M: exit T end module", "1:16: unknown trap"),
        ("UnknownModule", "module M: run N end module", "1:15: unknown module"),
        ("Recursive", "module M: run M end module", "1:15: recursive run M M"),
        ("DuplicateSignal", "module M: input A, A; nothing end module", "1:20: signal declared twice"),
        ("RelationName", "module M: input A; output O; relation A # O; nothing end module", "1:43: not an input"),
        ("DuplicateModule", "module M: nothing end module module M: nothing end module", "1:37: module declared twice"),
        (
            "BadRename",
            "module M: input A; run N [signal A/Z] end module module N: nothing end module",
            "1:36: bad renaming",
        ),
        ("Unbound", "module M: run N end module module N: input S; nothing end module", "1:15: unbound S"),
    ):
        fault("static, " + label, source, err)
    fault("static, BadByte", "module M: nothing ! end module", "1:19: bad byte")
    fault("static, OpenComment", "module M: nothing %{ x", "1:19: open comment")
    add("static, NoMain", "blif --main Q f", {"f": NOTHING}, 4, b"", "no module Q")


def derived_rows() -> None:
    head = "module M: input A, B, S; output A1, B1, C1, O, P, Q; %s end module"
    for k, (body, trace, want) in enumerate(
        (
            ("abort sustain O when 2 A", "; A; A; ;", "O | paused/O | paused/- | ended/- | ended"),
            ("suspend emit O when immediate S", "S; ;", "- | paused/O | ended"),
            ("trap T in emit A1; exit T; emit B1 handle T do emit C1 end", ";", "A1 C1 | ended"),
            ("abort halt when A do emit O end; emit P", "; A;", "- | paused/O P | ended"),
            ("abort pause when A do emit O end; emit P", "; ;", "- | paused/P | ended"),
            ("await case A do emit P case B do emit Q end", "; A B;", "- | paused/P | ended"),
            ("emit O; present O then emit P end", ";", "O P | ended"),
        )
    ):
        run("derived %d" % k, head % body, trace, want)


def text_rows() -> None:
    for label, text, err in (
        ("blif, loop", ".model L / .inputs A / .outputs x / .names A y x / 11 1 / .names x y / 1 1 / .end", ["x", "y"]),
        (
            "blif, two drivers",
            ".model D / .inputs A / .outputs x / .names A x / 1 1 / .names x / 1 / .end",
            "two drivers: x",
        ),
        ("blif, width", ".model W / .inputs A / .outputs x / .names A x / 11 1 / .end", "line 5: not in the profile"),
        ("blif, no end", ".model E / .inputs A / .outputs A", "line 4: not in the profile"),
        ("blif, no driver", ".model N / .outputs x / .end", "no driver: x"),
    ):
        text_row(label, "blif", t(text), "A;", 7, b"", err)
    net = worked_net()
    blif, c, v = (w(net).decode() for w in (write_blif, write_c, write_verilog))
    want = "- | ended\nO | paused\n- | ended\n"
    text_row("worked net, blif", "blif", blif, "A; A; A;", 0, want, b"")
    text_row("worked net, c", "c", c, "A; A; A;", 0, want, b"")
    text_row("worked net, unset", "c", c.replace("t0 = g1;\n", ""), "A;", 7, b"", "unset: t0")
    text_row("worked net, twice", "c", c.replace("int g0;\n", "int g0;\nint g0;\n"), "A;", 7, b"", "declared twice: g0")
    text_row("worked net, undeclared", "c", c.replace("int g1;\n", ""), "A;", 7, b"", "undeclared: g1")
    for k in range(0, blif.index(".end") + 1):
        text_row("prefix of blif %d" % k, "blif", blif[:k], "A;", 7, b"", None)
    for k in range(0, c.rindex("}") + 1):
        text_row("prefix of c %d" % k, "c", c[:k], "A;", 7, b"", None)
    deep = "int O_X; int react(void) { O_X = %s0; return 0; }"
    text_row("expression, nesting 200", "c", deep % ("!" * 200), ";", 0, "- | ended\n", b"")
    text_row("expression, nesting 201", "c", deep % ("!" * 201), ";", 7, b"", "byte 233: syntax")
    text_row(
        "input called !reset",
        "blif",
        t(".model R / .inputs !reset / .outputs x / .names !reset x / 1 1 / .end"),
        "!reset;",
        0,
        "x\n",
        b"",
    )
    guard = (
        "int I_A; int O_O; int react(void) { int i0; int g0; int g1; i0 = I_A; if (i0) { g0 = 1; "
        "g1 = g0; } else { g1 = 0; } O_O = g1; return 0; }"
    )
    text_row("guarded", "guard", guard, "A; ;", 0, "O | ended\n- | ended\nassignments 7\n", b"")
    text_row("guarded, unset", "guard", guard.replace("O_O = g1;", "O_O = g0;"), "A;", 7, b"", "unset: g0")
    text_row(
        "guarded, again", "guard", guard.replace("O_O = g1;", "g1 = 0; O_O = g1;"), "A;", 7, b"", "assigned twice: g1"
    )
    text_row("verilog", "verilog", v, "A; A; A;", 0, want, b"")
    text_row(
        "verilog, loop", "verilog", v.replace("assign g0 = i_A & s0;", "assign g0 = g1;"), "A;", 7, b"", ["g0", "g1"]
    )
    text_row("verilog, undeclared", "verilog", v.replace("wire g1;\n", ""), "A;", 7, b"", "undeclared: g1")
    for k in range(0, len(v) - 1):
        text_row("prefix of verilog %d" % k, "verilog", v[:k], "A;", 7, b"", None)


def limit_rows() -> None:
    for n, status, err in ((1024, 0, b""), (1025, 8, "limit: height")):
        add(
            "height %d" % n,
            "check f",
            {"f": "module M: %s end module" % "; ".join(["pause"] * n)},
            status,
            None if not status else b"",
            err,
        )
    for n, status, err in ((200, 0, b""), (201, 8, "limit: nesting")):
        add(
            "nesting %d" % n,
            "check f",
            {"f": "module M: %snothing%s end module" % ("[" * n, "]" * n)},
            status,
            None if not status else b"",
            err,
        )
    add("long source", "blif f", {"f": b" " * 1048577}, 8, b"", "limit: source")
    add("long trace", "run --via blif f t", {"f": NOTHING, "t": b" " * 16777217}, 8, b"", "limit: trace")
    add("longest trace", "run --via blif f t", {"f": NOTHING, "t": b" " * 16777216}, 0, b"", b"")
    prefix = ABRO.rstrip()
    for k in range(len(prefix)):
        add("prefix of source %d" % k, "check f", {"f": prefix[:k]}, 4, b"", None)
    wires = "module M: input A; repeat %d times present A then pause end end end module"
    for n, status, err in (
        (217, 0, b""),
        (218, 8, "limit: wires"),
        (255, 8, "limit: wires"),
        (256, 4, "1:27: bad count"),
    ):
        add("wires %d" % n, "check f", {"f": wires % n}, status, None if not status else b"", err)
    add(
        "many instances",
        "check f",
        {
            "f": "module M: input A; [repeat 255 times present A then pause end "
            "end]; present A then pause end end module"
        },
        8,
        b"",
        "limit: instances",
    )
    for n, status in ((60, 0), (61, 8)):
        add(
            "traps %d" % n,
            "check f",
            {"f": "module M: %snothing%s end module" % ("trap T in " * n, " end" * n)},
            status,
            None if not status else b"",
            "limit: traps" if status else b"",
        )
    add(
        "repeats in repeats",
        "check f",
        {"f": "module M: %spause%s end module" % ("repeat 255 times " * 100, " end" * 100)},
        8,
        b"",
        "limit: kernel",
    )
    run(
        "traps of modules",
        "module M: output O; signal X in run N [signal X/S]; present X then emit O end end end module "
        "module N: output S; trap T in emit S; exit T end end module",
        ";",
        "O | ended",
    )
    for n, status, err in ((4096, 0, b""), (4097, 8, "limit: signals")):
        add(
            "signals %d" % n,
            "check f",
            {"f": "module M: output %s; nothing end module" % ", ".join("O%d" % k for k in range(n))},
            status,
            None if not status else b"",
            err,
        )
    for n, err in ((256, "limit: statements"), (254, "limit: kernel")):
        add(
            "runs %d" % n,
            "check f",
            {
                "f": "module M: %s end module module A: %s end module"
                % ("; ".join(["run A"] * n), "; ".join(["nothing"] * 256))
            },
            8,
            b"",
            err,
        )
    add(
        "runs in loops",
        "check f",
        {
            "f": " ".join(
                "module M%d: %s%s%s end module"
                % (k, "loop " * 30, "run M%d" % (k + 1) if k < 99 else "pause", " end" * 30)
                for k in range(100)
            )
        },
        8,
        b"",
        "limit: height",
    )


def small_rows() -> None:
    add("small text 1", "blif f", {"f": EMIT_TWICE}, 0, None, b"")
    add("small text 2", "blif f", {"f": NOTHING}, 0, None, b"")
    add(
        "small text 3",
        "blif f",
        {"f": "module M: input A; output O; present A then emit O end; pause end module"},
        0,
        None,
        b"",
    )
    add("no words", "", {}, 2, b"", "usage, see cec --help")
    add("one loop", "blif f", {"f": "module M: loop pause end end module"}, None)
    add("one pause", "check f", {"f": EMIT_TWICE}, 0, "M: 5 nodes, 1 pauses, 8 instances, 17 wires\n", b"")
    for n in (125, 126):
        add("pauses %d" % n, "blif f", {"f": "module M: %s end module" % "; ".join(["pause"] * n)}, None)
    for n in (250, 251):
        add(
            "inputs %d" % n,
            "blif f",
            {"f": "module M: input %s; nothing end module" % ", ".join("A%d" % k for k in range(n))},
            None,
        )
    for k, body in enumerate(
        (
            "emit O; nothing || pause",
            "present O end",
            "present A and A end",
            "emit A",
            "emit ZZ",
            "run M",
            "halt",
            "trap T in exit T end",
            "exit T",
            "signal S, S in pause end",
            "suspend pause when immediate A",
            "suspend pause when ZZ",
            "[pause]",
            "pause % x",
            "trap T in pause handle T do pause end",
            "trap T in pause handle U do pause end",
            "loop pause each A",
            "repeat 0 times pause end",
            "await ZZ",
        )
    ):
        add("one form %d" % k, "blif f", {"f": "module M: input A; output O; %s\n end module" % body}, None)
    add("two modules", "blif f", {"f": "module M: nothing end module module N: nothing end module"}, None)
    add("one relation", "blif f", {"f": "module M: input A, B; relation A => B; nothing end module"}, None)
    add("one input twice", "blif f", {"f": "module M: input A, B, A; nothing end module"}, None)


def word_rows() -> None:
    for k, words in enumerate(
        (
            "blif",
            "blif a b",
            "blif -x f",
            "blif --main A --main B f",
            "blif --main= f",
            "run f t",
            "run --via d f t",
            "gen --start 1 --branches 401",
            "blif -- f",
            "",
        )
    ):
        add("words %d" % k, words, {"f": NOTHING, "t": ";"}, 2, b"", "usage, see cec --help")
    add("words, via", "run --via=c f t", {"f": NOTHING, "t": ";"}, 0, "- | ended\n", b"")
    add("words, pick", "blif f --pick 007", {"f": EMIT_TWICE}, 0, None, b"")
    add("words, help", "--help", {}, 0, None, b"")


def late_rows() -> None:
    run(
        "shared tests",
        "module M: input A; present A then pause end; present A then pause end; present A then pause " "end end module",
        "A; A;",
        "- | paused/- | paused",
    )
    run(
        "shared statuses",
        "module M: output O; signal S, T in [present S else pause end; emit T; emit O] || [emit S; "
        "pause; present T then emit S end] end end module",
        "; ;",
        "O | paused/- | ended",
    )
    run(
        "shared loop",
        "module M: input A; loop present A then pause end; present A then pause end; pause end end " "module",
        ";",
        "- | paused",
    )
    run(
        "inputoutput",
        "module M: input A; inputoutput X; output O; [loop present X then emit O end; pause end] || "
        "[loop present A then emit X end; pause end] end module",
        "X; A; ;",
        "X O | paused/X O | paused/- | paused",
    )
    add("inputoutput, text", "check f", {"f": "module M: inputoutput X; nothing end module"}, None, None, None)
    cyclic("inputoutput, cycle", GIVEN_CYCLE, ["out X", "go .1 s ."])
    run("inputoutput, given", "module M: inputoutput X; nothing end module", "X; ;", "X | ended/- | ended")
    run("reset", EMIT_TWICE, "; !reset; ; ;", "O | paused/O | paused/O | ended")
    run("reset, bad", WEAK_ABORT, "; !reset A;", "O | paused", 6, "instant 2: bad reset")
    run("resets alone", NOTHING, "!reset; !reset;", "")
    run(
        "encoded sequence",
        "module M: output O; repeat 200 times pause end; emit O end module",
        "; " * 201,
        "/".join(["- | paused"] * 200 + ["O | ended"]),
    )
    run("encoded branches", "module M: [pause || pause] end module", "; ;", "- | paused/- | ended")
    add("encode without blif", "c --encode f", {"f": NOTHING}, 2, b"", "usage, see cec --help")
    add("constructive cycle", "run --via tri f t", {"f": CYCLE_OF_TWO, "t": "A; ;"}, 0, "- | ended\n- | ended\n", b"")
    add(
        "not constructive",
        "run --via tri f t",
        {"f": CYCLE, "t": ";"},
        12,
        b"",
        "instant 1: not constructive: st . s . S, end . s . 0, end .0 s . 0, go .0.0 s ., end .0.0 s . 0, "
        "go .0.1 s ., end .0.1 s . 0",
    )
    add("cycle that is given", "run --via tri f t", {"f": GIVEN_CYCLE, "t": "X;"}, 0, "X | ended\n", b"")
    add("cycle that is not given", "run --via tri f t", {"f": GIVEN_CYCLE, "t": ";"}, 12, b"", None)


build()
