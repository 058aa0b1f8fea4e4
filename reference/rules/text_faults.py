"""Why a text is refused, and cycles of its definitions.

Stands for `Faults` of the readers: crates/blif_read/specs/, crates/csub_read/specs/, crates/csub_guard_read/specs/,
crates/vlog_read/specs/, and for combinational cycles (crates/run_steps/specs/).
"""

from __future__ import annotations

from typing import Any, TYPE_CHECKING

if TYPE_CHECKING:
    from rules.kernel import Tree


TEXT_LIMIT = 256 * 1024 * 1024


class TextFault(Exception):
    """A fault of a text: TooLong Line TwoDrivers NoDriver Loop Syntax Twice Undeclared Unset Again Port.

    `data` is a number, a name, or for Loop a list of names.
    """

    def __init__(self, kind: str, data: Any = None) -> None:
        Exception.__init__(self, kind, data)
        self.kind = kind
        self.data = data

    def key(self) -> Tree:
        return (self.kind, self.data)


def find_cycle(uses: dict[Any, Any]) -> tuple[Any, ...]:
    """uses: dict name -> list of names it reads (only names that are keys count).

    Returns (order, None) with every read name before its reader, or (None, cycle) where each next
    name is read by the one before and the first is read by the last."""
    colour = {}
    order = []
    for start in uses:
        if start in colour:
            continue
        colour[start] = 1
        path = [start]
        stack = [iter(uses[start])]
        while stack:
            for name in stack[-1]:
                if name not in uses:
                    continue
                seen = colour.get(name)
                if seen is None:
                    colour[name] = 1
                    path.append(name)
                    stack.append(iter(uses[name]))
                    break
                if seen == 1:
                    return None, path[path.index(name) :]
            else:
                stack.pop()
                name = path.pop()
                colour[name] = 2
                order.append(name)
    return order, None


def is_loop(uses: Any, names: Any) -> Any:
    """Whether names is a loop of the relation: each next one is read by the one before."""
    if not names:
        return False
    for k, name in enumerate(names):
        if name not in uses or names[(k + 1) % len(names)] not in uses[name]:
            return False
    return True
