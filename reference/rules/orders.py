"""Which of the ready wires comes next in an order of the dependency relation: `--pick`.

Stands for `Draws` (crates/base_types/specs/) and for crates/grc_order/specs/. The order of the ready wires is free.
"""

from __future__ import annotations

from typing import Any


class First:
    def __call__(self, ready: Any) -> Any:
        return 0


class Last:
    def __call__(self, ready: Any) -> Any:
        return len(ready) - 1


class Drawn:
    """Draws from a start number, below the number of ready wires."""

    def __init__(self, n: int) -> None:
        self.x = n % (1 << 31)

    def below(self, m: int) -> int:
        self.x = (self.x * 1103515245 + 12345) % (1 << 31)
        return (self.x // 65536) % m

    def __call__(self, ready: list[int]) -> int:
        return self.below(len(ready))
