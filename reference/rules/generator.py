"""Draws from a start number, and generated sources.

Stands for `Draws` (crates/base_types/specs/) and for the sources of crates/est_gen/specs/.
"""

from __future__ import annotations


class Draw:
    def __init__(self, start: int) -> None:
        self.state = start % (1 << 31)

    def next(self, below: int) -> int:
        self.state = (self.state * 1103515245 + 12345) % (1 << 31)
        return (self.state // 65536) % below


def generate_source(start: int, branches: int) -> tuple[bytes, Draw]:
    """The source, and the random numbers that follow."""
    assert 1 <= branches <= 400
    draw = Draw(start)
    lines = [
        "module GEN:",
        "input " + ", ".join("I%d" % j for j in range(8)) + ";",
        "output " + ", ".join("O%d" % j for j in range(8)) + ";",
        "signal " + ", ".join("S%d" % i for i in range(branches)) + " in",
        "[",
    ]
    for i in range(branches):
        k = draw.next(4)
        a = draw.next(8)
        c = draw.next(8)
        A, O, S = "I%d" % a, "O%d" % c, "S%d" % i
        Q = "S%d" % (i - 1) if i else "I%d" % c
        if i:
            lines.append("||")
        lines.append(
            [
                "every {A} do emit {S}; emit {O} end every",
                "loop await {Q}; emit {S}; present {A} then emit {O} end present end loop",
                "suspend loop present {Q} then emit {S} end present; pause; emit {O}; pause end loop when {A}",
                "loop abort sustain {S} when {A}; await 2 {Q}; emit {O} end loop",
            ][k].format(A=A, O=O, S=S, Q=Q)
        )
    lines += ["]", "end signal", "end module"]
    return "".join(line + "\n" for line in lines).encode(), draw


def next_event(draw: Draw) -> list[bool]:
    return [draw.next(4) == 0 for _ in range(8)]
