"""The limits of the compiler, each with the pass that keeps it.

Stands for `bounds.rt` (crates/base_types/src/) and the tables of limits in docs/formats.md.
"""

from __future__ import annotations

MAX_SOURCE = 1 << 20  # bytes of a source
MAX_NESTING = 200  # nodes of a source tree in one another
MAX_STATEMENTS = 65536  # statements that the expansion of `run` meets
MAX_DEPTH = 2048  # statements in one another, where modules stand for their runs
MAX_SIGNALS = 4096  # signals of the expanded program
MAX_KERNEL = 65536  # nodes of the kernel term
MAX_HEIGHT = 1024  # nodes on a way down the kernel term
MAX_TRAPS = 60  # traps on a way down the kernel term
MAX_INSTANCES = 131072  # live instances
MAX_WIRES = 262144  # wires and test nodes of live instances
MAX_TRACE = 16 << 20  # bytes of a trace
MAX_TEXT = 256 << 20  # bytes of a text for `exec`
