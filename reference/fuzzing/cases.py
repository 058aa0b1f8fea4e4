"""Random cases: the words and the files of one call of `cec`, `cec-opt` or `cec-prove`, of each kind."""

from __future__ import annotations

import random
import re
from typing import Callable, Optional

from fuzzing.cyclic import cyclic_source
from fuzzing.drawn_texts import MAKERS, circuit_text
from fuzzing.sources import Maker, event_items, mutate_bytes, mutate_tokens, source, trace_text
from rules.compiling import compile_source, text_of
from rules.outcomes import Outcome
from rules.text_faults import TextFault
from rules.texts import open_text
from rules.words import COMMANDS, EXEC_VIAS, RUN_VIAS, read_words

Files = dict[bytes, bytes]
Drawn = tuple[list[bytes], Files]


class Case:
    """One call: which program, its words, and its files, which lie in the folder that it is run in."""

    def __init__(self, kind: str, program: str, words: list[bytes], files: Files) -> None:
        self.kind = kind
        self.program = program
        self.words = words
        self.files = files


def pick_words(rng: random.Random, via: Optional[str] = None) -> list[bytes]:
    if via == "tri" or rng.random() < 0.6:
        return []
    return [b"--pick", rng.choice([b"first", b"last", b"0", b"7", b"12345", b"18446744073709551615"])]


def main_words(rng: random.Random) -> list[bytes]:
    return [] if rng.random() < 0.75 else [b"--main", rng.choice([b"M", b"N0", b"M", b"ZZ", b"N1"])]


def source_words(rng: random.Random, command: str) -> list[bytes]:
    main = main_words(rng)
    if command == "run":
        via = rng.choice(RUN_VIAS)
        words = [b"run", b"--via", via.encode()] + main + pick_words(rng, via)
        if via == "blif" and rng.random() < 0.3:
            words.append(b"--encode")
        return words + [b"f", b"t"]
    words = [command.encode()] + main
    if command in ("blif", "c", "verilog"):
        words += pick_words(rng)
    if command == "blif" and rng.random() < 0.3:
        words.append(b"--encode")
    if command == "c" and rng.random() < 0.4:
        words.append(b"--guard")
    return words + [b"f"]


SOURCE_COMMANDS = [command for command in COMMANDS if command not in ("exec", "gen")] + ["run", "run"]


def trace_for(rng: random.Random, text: bytes, words: list[bytes]) -> bytes:
    """A trace that mostly meets the relations of the source."""
    asked = read_words(words)
    main = asked.main if asked else None
    try:
        done = compile_source(text, main, True)
    except Outcome:
        return rng.choice([b"", b";", b"A; B;", b"; ; A B;"])
    items = event_items(rng, rng.choice([0, 1, 3, 6, 12, 25]), done.relations, len(done.in_names))
    return trace_text(items, done.in_names, rng)


def source_case(rng: random.Random) -> Drawn:
    command = rng.choice(SOURCE_COMMANDS)
    words = source_words(rng, command)
    text = source(rng)
    files = {b"f": text}
    if command == "run":
        files[b"t"] = trace_for(rng, text, words)
        if rng.random() < 0.1:
            files[b"t"] = mutate_bytes(files[b"t"], rng)
    return words, files


def mutated_case(rng: random.Random) -> Drawn:
    words, files = source_case(rng)
    if rng.random() < 0.6:
        files[b"f"] = mutate_tokens(files[b"f"], rng)
    else:
        files[b"f"] = mutate_bytes(files[b"f"], rng)
    return words, files


PIECES = [b" A", b" A A", b";", b"!reset", b"!reset;", b" !reset ", b"%", b"\x01", b"\x7f", b" ZZ ", b"B", b"\n"]
PIECES += [b"%{", b"\x0b", b"\xc3\xa9", b" V "]


def trace_case(rng: random.Random) -> Drawn:
    text = source(rng, rng.choice([2, 6]), 0)
    words = source_words(rng, "run")
    trace = trace_for(rng, text, words)
    for _ in range(rng.choice([1, 1, 2])):
        at = rng.randrange(len(trace) + 1)
        trace = trace[:at] + rng.choice(PIECES) + trace[at:]
    return words, {b"f": text, b"t": trace}


def written_text(rng: random.Random, via: str, budget: int) -> Optional[bytes]:
    """The text of a random source, or None where that is refused."""
    try:
        return text_of(compile_source(source(rng, budget, 0)), via)
    except Outcome:
        return None


def exec_case(rng: random.Random) -> Drawn:
    via = rng.choice(EXEC_VIAS)
    text = MAKERS[via](rng)
    if rng.random() < 0.1:
        text = written_text(rng, via, rng.choice([2, 6, 12])) or text
    if rng.random() < 0.5:
        text = mutate_bytes(text, rng)
    trace = b";"
    try:
        runner = open_text(via, text)
    except TextFault:
        pass
    else:
        items = event_items(rng, rng.choice([0, 1, 2, 5, 9]), (), len(runner.in_names))
        trace = trace_text(items, runner.in_names, rng)
    if rng.random() < 0.15:
        trace = mutate_bytes(trace, rng)
    return [b"exec", b"--via", via.encode(), b"f", b"t"], {b"f": text, b"t": trace}


LIST = (
    "blif c grc check run exec gen verilog --help --main --main=M --main=M --main M --pick --pick first "
    "--pick=last --pick 7 --pick=007 --via --via=c --via=blif --via blif --via guard --via=verilog "
    "--via=tri --encode --guard --encode=1 --start --start=1 --start 2 --branches 3 --branches=0 "
    "--branches=400 --branches 401 --run 2 --run=100001 --run - -- -x --x f f t t f nofile = --= --via= "
    "18446744073709551615 18446744073709551616 --pick=18446744073709551616 --pick=x"
).split(" ") + [""]

PATTERNS = [
    "blif f",
    "c f",
    "verilog f",
    "grc f",
    "check f",
    "run --via blif f t",
    "run --via c f t",
    "run --via guard f t",
    "run --via tri f t",
    "exec --via blif f t",
    "exec --via c f t",
    "gen --start 1 --branches 2",
    "gen --start 3 --branches 2 --run 2",
    "--help",
    "blif --encode f",
    "c --guard f",
    "run --via verilog f t",
    "run --via blif --encode f t",
]
OPTION_NAMES = ["--main", "--pick", "--via", "--start", "--branches", "--run", "--encode", "--guard"]
OPTION_VALUES = [
    "-x",
    "-",
    "",
    "--main",
    "M",
    "7",
    "0x1",
    "+1",
    "-1",
    "first",
    "last",
    "c",
    "blif",
    "007",
    "400",
    "401",
]
OPTION_VALUES += ["100000", "100001", "1 ", "\u0661", "FIRST", "18446744073709551615", "18446744073709551616"]


def mixed_words(rng: random.Random, patterns: list[str], pool: list[str]) -> list[str]:
    """A command line with a few changes, or words at random."""
    if rng.random() >= 0.8:
        return [rng.choice(pool) for _ in range(rng.randrange(6))]
    words = rng.choice(patterns).split(" ")
    for _ in range(rng.choice([0, 1, 1, 1, 2, 3])):
        at = rng.randrange(len(words) + 1)
        kind = rng.randrange(8)
        if kind >= 5:
            option, value = rng.choice(OPTION_NAMES), rng.choice(OPTION_VALUES)
            words[at:at] = [option + "=" + value] if rng.random() < 0.4 else [option, value]
        elif kind == 0 and at < len(words):
            del words[at]
        elif kind == 1 and at < len(words):
            words[at] = rng.choice(pool)
        elif kind == 2 and len(words) > 1:
            a, b = rng.randrange(len(words)), rng.randrange(len(words))
            words[a], words[b] = words[b], words[a]
        elif kind == 3 and at + 1 < len(words):
            words[at : at + 2] = [words[at] + "=" + words[at + 1]]
        else:
            words.insert(at, rng.choice(pool))
    return words


SMALL_SOURCES = [
    b"module M: input A; output O; emit O; pause; emit O end module",
    b"module M: output O; emit O; pause; emit O end module\n",
]


def words_case(rng: random.Random) -> Drawn:
    words = [word.encode() for word in mixed_words(rng, PATTERNS, LIST)]
    asked = read_words(words)
    if asked is not None and asked.command == "exec":
        return words, {b"f": MAKERS[asked.via](rng), b"t": b";"}
    return words, {b"f": rng.choice(SMALL_SOURCES), b"t": rng.choice([b";;", b"; ;"])}


def gen_case(rng: random.Random) -> Drawn:
    start = rng.choice([0, 7, rng.randrange(1 << 31), rng.randrange(1 << 64)])
    words = [b"gen", b"--start", b"%d" % start, b"--branches", b"%d" % rng.choice([1, 2, 3, 5, 10, 20])]
    if rng.random() < 0.6:
        words += [b"--run", b"%d" % rng.choice([0, 1, 2, 10, 50])]
    elif rng.random() < 0.5:
        words[4] = b"%d" % rng.randrange(1, 401)
    return words, {}


OPT_LIST = "blif c verilog check --help -x f f f nofile - -- --via blif= check f t --source --main M".split(" ")
OPT_LIST += ["", "--embed", "lift"]
SOURCE_LIST = "--source --main f f M N0 nofile -".split(" ")
OPT_PATTERNS = ["blif f", "c f", "verilog f", "check f", "--help"]
OWN_PATTERNS = ["c --embed", "c --embed lift", "c --embed -x f", "c --embed lift -x", "c --embed lift f f"]
OWN_PATTERNS += ["c --embed lift --source", "c --embed lift --embed lift f", "c --source f --embed lift"]
OWN_PATTERNS += ["blif --embed lift f", "c --packed f", "c --embed lift --packed", "c --embed --packed f"]
OWN_PATTERNS += ["c --embed lift --packed --packed f", "c --embed lift --header --definitions f"]
OWN_PATTERNS += ["c --embed lift --packed --header --declarations f", "c --embed lift --header"]
OWN_PATTERNS += ["c --embed lift f --packed", "c --embed lift --packed f f"]
OWN_PATTERNS += ["c --never f", "c --never A f", "c --never A,,B f", "c --implies A,B,C f", "c --never A,B", "c f --never A,B"]
OWN_PATTERNS += ["c --embed lift --never A,B f", "c --implies A,B --source f", "check --never A,B --implies", "blif --never"]
# Words about Verilog with a reset that have no meaning.
RESET_PATTERNS = ["", "-x f", "rst", "rst --async f --async", "rst --low f", "rst f f", "rst --module"]
RESET_PATTERNS += ["rst --source f f", "rst f --source f", "rst --main M", "rst --module -x f", "rst --module M --module M f"]
OWN_PATTERNS += ["verilog --reset %s" % it for it in RESET_PATTERNS] + ["verilog f --reset rst", "blif --reset rst f"]
LAYOUTS = ["", "", "--packed", "--header", "--declarations", "--definitions"]
LAYOUTS += ["--packed --declarations", "--definitions --packed"]
# Names of components; a component may have the first five of them.
COMPONENTS = [b"lift", b"M", b"self", b"state0", b"L_9", b"uint8", b"int32", b"9lift", b"li-ft", b"_lift"]


def opt_source_words(rng: random.Random) -> list[bytes]:
    """Words after a command that ask for a source, or nearly."""
    if rng.random() < 0.3:
        return [word.encode() for word in rng.choices(SOURCE_LIST, k=rng.randrange(2, 7))]
    words = [["--source", "f"]] + [["--main", rng.choice(["M", "N0", "ZZ"])]] * (rng.random() < 0.3)
    rng.shuffle(words)
    return [word.encode() for pair in words for word in pair]


def component_words(rng: random.Random) -> list[bytes]:
    """Words that ask for embedded C."""
    layout = [word.encode() for word in rng.choice(LAYOUTS).split()]
    return [b"c", b"--embed", rng.choice(COMPONENTS[:5] * 3 + COMPONENTS[5:]), *layout]


def with_reserved(rng: random.Random, text: bytes) -> bytes:
    """The text with a word of C in place of a name."""
    old = rng.choice([b"A", b"B", b"O", b"O0", b"a", b"b"])
    new = rng.choice([b"int", b"xor", b"unix", b"bool", b"Int", b"for_"])
    return re.sub(rb"(?<![\w.])%s(?![\w])" % old, new, text)


def opt_case(rng: random.Random) -> Drawn:
    """A circuit for the optimizer: in the profile, with a fault, or written from a source."""
    plain = [[b"blif"], [b"blif"], [b"c"], [b"verilog"], [b"check"]]
    command, *more = rng.choice([*plain, component_words(rng), component_words(rng)])
    kind = rng.random()
    if kind < 0.1:
        pattern = rng.choice([rng.choice(OPT_PATTERNS), rng.choice(OWN_PATTERNS)]).split(" ")
        words = [word.encode() for word in rng.choice([pattern, rng.choices(OPT_LIST, k=2)])]
        return words, {b"f": circuit_text(rng)}
    if kind < 0.25:
        text = source(rng, rng.choice([1, 2, 4, 6]), rng.choice([0, 0, 0, 0.05]))
        if more and rng.random() < 0.2:
            text = with_reserved(rng, text)
        return [command, *more, *opt_source_words(rng)], {b"f": text}
    text = circuit_text(rng) if kind < 0.6 else MAKERS["blif"](rng)
    if kind > 0.85:
        text = written_text(rng, "blif", rng.choice([2, 6, 12])) or text
    if rng.random() < 0.2:
        text = mutate_bytes(text, rng)
    if more and rng.random() < 0.2:
        text = with_reserved(rng, text)
    given = relation_words(rng, text) if rng.random() < 0.3 else []
    return [command, *given, *more, b"f"], {b"f": text}


def relation_words(rng: random.Random, text: bytes) -> list[bytes]:
    """Words that give relations of the inputs of a BLIF text, rarely of a name that is none."""
    inputs = re.findall(rb"^\.inputs (.*)$", text, re.M)
    names = inputs[0].split() if inputs else []
    words: list[bytes] = []
    while len(names) > 1 and rng.random() < 0.6:
        size = 2 if rng.random() < 0.7 else min(3, len(names))
        chosen = rng.sample([*names, b"none"] if rng.random() < 0.05 else names, size)
        words += [b"--implies" if size == 2 and rng.random() < 0.5 else b"--never", b",".join(chosen)]
    return words


def cycle_case(rng: random.Random) -> Drawn:
    """A source with a cycle for the optimizer, which is constructive or not."""
    words = rng.choice([[b"blif"], [b"c"], [b"verilog"], [b"check"], component_words(rng)])
    return [*words, b"--source", b"f"], {b"f": cyclic_source(rng)}


def cycle_run_case(rng: random.Random) -> Drawn:
    """A source with a cycle and a trace, for three-valued reactions."""
    words, text = [b"run", b"--via", b"tri", b"f", b"t"], cyclic_source(rng)
    return words, {b"f": text, b"t": trace_for(rng, text, words)}


OBSERVERS = (
    "every immediate [{one} and {other}] do emit WRONG end",
    "every immediate [{one} and not {other}] do emit WRONG end",
    "loop await {one}; abort await 2 tick; emit WRONG when immediate {other}; pause end",
    "abort every immediate {one} do emit WRONG end when immediate {other}",
    "await 3 {one}; await {other}; emit WRONG",
)


def observed(rng: random.Random, budget: int) -> tuple[bytes, list[str]]:
    """A source in which a module runs alongside an observer of two of its signals; and the outgoing signals."""
    maker = Maker(rng, 0)
    text = maker.program(budget)
    _, inputs, both, outputs = maker.shown
    relations = re.findall(r"relation [^;]*;", text[: text.find(" module ")] if " module " in text else text)
    words = ["module W:"] + relations[:1]
    for word, names in (("input", inputs), ("inputoutput", both), ("output", outputs + ["WRONG"])):
        words[1:1] = ["%s %s;" % (word, ", ".join(names))] if names else []
    names = (inputs + both + outputs) or ["WRONG"]
    observer = rng.choice(OBSERVERS).format(one=rng.choice(names), other=rng.choice(names))
    words += ["run M ||", observer, "end module", text]
    return " ".join(words).encode(), both + outputs + ["WRONG"] * 4


PROVE_LIST = (
    "never always all cover same --help --version -x O f f f nofile - --main --effort 3 0 --assume --text --text t"
).split(" ")
PROVE_LIST.append("")
SMALL_CHANGES = (("await ", "await immediate "), ("||", ";"), ("present ", "present not "), ("emit", "sustain"))


def changed(rng: random.Random, text: bytes) -> bytes:
    """A source that does the same, or nearly so: another spelling, or one small change."""
    if rng.random() < 0.4:
        return text.replace(b"pause", rng.choice([b"[pause]", b"await tick", b"await 1 tick"]))
    old, new = rng.choice(SMALL_CHANGES)
    places = [match.start() for match in re.finditer(re.escape(old.encode()), text)]
    if not places:
        return text
    at = rng.choice(places)
    return text[:at] + new.encode() + text[at + len(old) :]


def prove_cycle_case(rng: random.Random) -> Drawn:
    """The same of a source with a cycle, which is constructive or not, and of two sources one of which has a cycle at least."""
    text, kind = cyclic_source(rng), rng.random()
    outgoing = re.findall(r"\w+", re.findall(r"output ([^;]*);", text.decode())[0])
    files, words = {b"f": text}, [rng.choice(["all", "cover"]), "f"]
    if kind < 0.4:
        words = [rng.choice(["never", "never", "always"]), rng.choice(outgoing), "f"]
    elif kind > 0.7:
        files[b"g"] = rng.choice([changed(rng, text), text.replace(b"module M:", b"module N:")])
        words = ["same", *rng.choice(["fg", "fg", "gf"])]
    if words[0] != "same" and rng.random() < 0.2:
        words += ["--assume", rng.choice(outgoing)]
    words += ["--effort", rng.choice(["1", "2", "3", "4"])]
    return [word.encode() for word in words], files


def prove_case(rng: random.Random) -> Drawn:
    """A claim about a small source, a survey of one, or two sources that are compared."""
    kind = rng.random()
    if kind < 0.1:
        return [word.encode() for word in rng.choices(PROVE_LIST, k=rng.randrange(6))], {b"f": source(rng, 2, 0)}
    if rng.random() < 0.7:
        text, outgoing = observed(rng, rng.choice([1, 2, 4, 6, 9]))
    else:
        text = source(rng, rng.choice([1, 2, 4, 6]), rng.choice([0, 0, 0, 0.05]))
        outgoing = ["O", "P", "V", "A"]
    files = {b"f": text}
    words = (
        [rng.choice(["all", "cover"]), "f"]
        if kind < 0.4
        else [rng.choice(["never", "never", "always"]), rng.choice(outgoing), "f"]
    )
    if kind > 0.75:
        words, files[b"g"] = ["same", "f", rng.choice(["g"] * 9 + ["nofile"])], changed(rng, text)
    elif rng.random() < 0.2:
        words += ["--assume", rng.choice(outgoing)]
    words += ["--effort", rng.choice(["1", "2", "3"])]
    if rng.random() < 0.05:
        words += ["--main", rng.choice(["M", "N0", "ZZ"])]
    return [word.encode() for word in words], files


ROW_CHANGES = ((b"\n1 1\n", b"\n0 1\n"), (b"\n11 1\n", b"\n1- 1\n"), (b"\n0", b"\n1"))


def text_output_names(text: bytes) -> list[str]:
    """Names to ask about: those of the outputs, as far as they are words."""
    words = re.findall(rb"(?<!\S)[A-Za-z]\w*", b" ".join(re.findall(rb"^\.outputs(.*)$", text, re.MULTILINE)))
    return [word.decode() for word in words] or ["O"]


def claim_text_case(rng: random.Random) -> Drawn:
    """A claim about a small text, a survey of one, or two texts that are compared."""
    kind = rng.random()
    text = circuit_text(rng)
    if rng.random() < 0.3:
        text = written_text(rng, "blif", rng.choice([1, 2, 4, 6])) or text
    if rng.random() < 0.1:
        text = mutate_bytes(text, rng)
    names, files = text_output_names(text), {b"f": text}
    words = ["all", "f"] if kind < 0.3 else [rng.choice(["never", "never", "always"]), rng.choice(names), "f"]
    if kind > 0.7:
        old, new = rng.choice(ROW_CHANGES)
        words, files[b"g"] = ["same", "f", rng.choice(["g"] * 9 + ["nofile"])], text.replace(old, new, 1)
        if rng.random() < 0.2:
            files[b"g"] = mutate_bytes(text, rng)
    elif rng.random() < 0.2:
        words += ["--assume", rng.choice(names)]
    options = [["--text"], ["--effort", rng.choice(["1", "2", "3"])]]
    words += sum(options[:: rng.choice([1, -1])], [])
    if rng.random() < 0.03:
        words += rng.choice([["--text"], ["--main", "M"], ["--assume", "O0"]])
    return [word.encode() for word in words], files


KINDS: dict[str, Callable[[random.Random], Drawn]] = {
    "source": source_case,
    "mutated": mutated_case,
    "trace": trace_case,
    "exec": exec_case,
    "words": words_case,
    "gen": gen_case,
    "optimize": opt_case,
    "cycle": cycle_case,
    "cycle_run": cycle_run_case,
    "prove": prove_case,
    "prove_cycle": prove_cycle_case,
    "claim_text": claim_text_case,
}
# The program that a kind calls, where it is not `cec`.
PROGRAMS = {
    "optimize": "cec-opt",
    "cycle": "cec-opt",
    "prove": "cec-prove",
    "prove_cycle": "cec-prove",
    "claim_text": "cec-prove",
}
# A call of the optimizer or of `gen` takes far longer than one of the others, and so does the search that judges a
# claim.
WEIGHTS = {
    "source": 6,
    "mutated": 4,
    "trace": 2,
    "exec": 6,
    "words": 2,
    "gen": 0.2,
    "optimize": 0.2,
    "cycle": 0.4,
    "cycle_run": 0.4,
    "prove": 0.4,
    "prove_cycle": 0.3,
    "claim_text": 0.2,
}


def drawn_case(seed: int, number: int, kinds: list[str]) -> Case:
    """The case of a number, which is always the same."""
    rng = random.Random("%d/%d" % (seed, number))
    kind = rng.choices(kinds, [WEIGHTS[name] for name in kinds])[0]
    words, files = KINDS[kind](rng)
    return Case(kind, PROGRAMS.get(kind, "cec"), words, files)
