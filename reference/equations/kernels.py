"""Worked equations of the crate est_kernel: the tables of kernel terms, their potentials, steps, reactions and runs.

A block asks about one term: `environment` (a status for each signal: `+`, `-` or `?`), `step` (an environment that
knows all signals), `event` (a bit for each input) and `run` (items with spaces between them; `!` resets).
"""

from __future__ import annotations

from typing import Any, Optional

from equations.antt import apply, bits, codes, definition, equation, listed, read_term, rows, term
from equations.sheets import Block, Sheet
from rules.codes import static_codes
from rules.dismantling import KernelProgram
from rules.kernel import Tree, height, parts, size
from rules.potentials import can, must
from rules.reactions import react, run, step

STATUS = {"+": True, "-": False, "?": None}


def kernel_of(value: Any) -> Tree:
    """A kernel term from its antt form, in which `place n` is the span of a loop."""
    head = value[0]
    if head == "Loop":
        return ("Loop", (value[1][1], value[1][1] + 1), kernel_of(value[2]))
    return (head,) + tuple(kernel_of(part) if isinstance(part, tuple) else part for part in value[1:])


def antt_of(t: Tree) -> Any:
    if t[0] == "Loop":
        return ("Loop", ("place", t[1][0]), antt_of(t[2]))
    return (t[0],) + tuple(antt_of(part) if isinstance(part, tuple) else part for part in t[1:])


def shown(t: Tree) -> str:
    return term(antt_of(t))


def preorder(t: Tree) -> list[Tree]:
    out = [t]
    for part in parts(t):
        out += preorder(part)
    return out


def trap_depth(t: Tree) -> int:
    return (t[0] == "Trap") + max([trap_depth(part) for part in parts(t)] or [0])


def digits(numbers: Any) -> str:
    return "".join(str(n) for n in sorted(numbers))


def environment(text: str) -> dict[int, Optional[bool]]:
    return {signal: STATUS[char] for signal, char in enumerate(text)}


def potential(pair: Any) -> str:
    return "%s/%s" % (digits(pair[0]), digits(pair[1]))


def static(name: str, t: Tree) -> list[str]:
    order = preorder(t)
    started, resumed, loops = static_codes(t)
    sizes = "%d %d %d %d" % (size(t), height(t), len(order), trap_depth(t))
    places = listed(
        "place %d" % order[n][1][0] for n in range(len(order)) if order[n][0] == "Loop" and 0 in started[n + 1]
    )
    assert places.count("place") == len(loops)
    texts = [codes(",".join(digits(x) for x in sets)) for sets in (started, resumed)]
    return [
        equation(name + "_static", "static " + name, apply("is %s" % sizes, *texts, places)),
        equation(name + "_preorder", "preorder " + name, listed(shown(part) for part in order)),
    ]


def stepped(t: Tree, text: str) -> str:
    answer = step(t, environment(text))
    if answer is None:
        return "None"
    return apply("Some", apply("after", codes("%s/%d" % (digits(answer[0]), answer[1])), shown(answer[2])))


def program(t: Tree) -> KernelProgram:
    return KernelProgram("", [], 1, 1, 2, [], t)


def event_of(text: str) -> list[bool]:
    return [char == "1" for char in text]


def reacted(t: Tree, text: str) -> str:
    answer = react(program(t), t, event_of(text))
    if answer is None:
        return "None"
    return apply("Some", apply("after", codes("%s/%d" % (bits(answer[0]), answer[1])), shown(answer[2])))


def ran(t: Tree, text: str) -> str:
    items = ["reset" if word == "!" else event_of(word) for word in text.split(" ")]
    answers = run(program(t), items)
    if answers and answers[-1] is None:
        return "None"
    return apply("Some", codes(",".join("%s/%d" % (bits(outputs), code) for outputs, code in answers)))


def block_text(block: Block) -> list[str]:
    name, text = block.one("name"), block.one("term")
    t = kernel_of(read_term(text))
    out = [definition(name, "Term", shown(t))]
    if block.has("static"):
        out += static(name, t)
    given = block.all("environment")
    if given:
        answers = []
        for e in given:
            env = environment(e)
            three = (must(t, env), can(True, t, env), can(False, t, env))
            answers.append(codes(" ".join(potential(pair) for pair in three)))
        out.append(rows(name + "_potentials", "potentials " + name, [codes(e) for e in given], answers))
    for key, function, answer in (("step", "steps", stepped), ("event", "reactions", reacted), ("run", "runs", ran)):
        given = block.all(key)
        if given:
            asked = [codes(g) for g in given]
            out.append(rows("%s_%s" % (name, function), function + " " + name, asked, [answer(t, g) for g in given]))
    return out


def file_text(name: str) -> str:
    sheet = Sheet("est_kernel", name)
    return sheet.head + "\n".join(text for block in sheet.blocks for text in block_text(block))
