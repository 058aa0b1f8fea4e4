"""Which module writes the worked equations of which crate."""

from __future__ import annotations

from typing import Callable

from equations import circuits, expansions, fixpoints, graphs, kernels, languages, nets, programs
from equations.antt import pruned
from equations.sheets import names_of


def blif_text(name: str) -> str:
    return nets.file_text("blif_text", name) if name == "TextEquations" else circuits.file_text(name)


WRITERS: dict[str, Callable[[str], str]] = {
    "blif_text": blif_text,
    "csub_guard": lambda name: languages.file_text("csub_guard", name),
    "csub_text": lambda name: languages.file_text("csub_text", name),
    "est_dismantle": expansions.file_text,
    "est_expand": lambda name: programs.file_text("est_expand", name),
    "est_kernel": kernels.file_text,
    "est_names": lambda name: programs.file_text("est_names", name),
    "est_ternary": lambda name: fixpoints.file_text("est_ternary", name),
    "grc_graph": graphs.file_text,
    "grc_share": lambda name: fixpoints.file_text("grc_share", name),
    "grc_ternary": lambda name: fixpoints.file_text("grc_ternary", name),
    "net_ir": lambda name: nets.file_text("net_ir", name),
    "net_state_enc": lambda name: fixpoints.file_text("net_state_enc", name),
    "vlog_text": lambda name: languages.file_text("vlog_text", name),
}


def files(crate: str) -> list[str]:
    """The generated files of a crate, without their ends."""
    return names_of(crate)


def text(crate: str, name: str) -> str:
    return pruned(WRITERS[crate](name))
