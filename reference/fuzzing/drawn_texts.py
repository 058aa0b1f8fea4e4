"""Random BLIF, C, guarded C and Verilog texts of the profiles, wider than the forms that the compiler writes."""

from __future__ import annotations

import random
from typing import Callable, Any


BLIF_NAMES = [b"a", b"b", b"x", b"y", b"z", b"_i0", b"_paused", b"x.out", b"[3]", b".names", b"1", b"w!"]


def blif_text(rng: random.Random) -> bytes:
    inputs = [n for n in rng.sample(BLIF_NAMES, rng.randrange(0, 4)) if n != b"_paused"]
    lines = []
    latches = []
    pool = [n for n in BLIF_NAMES + [b"n%d" % k for k in range(8)] if n not in inputs]
    rng.shuffle(pool)
    driven = list(inputs)
    for _ in range(rng.randrange(0, 3)):
        latches.append(pool.pop())
        driven.append(latches[-1])
    tables = []
    for _ in range(rng.randrange(0, 7)):
        output = pool.pop()
        count = rng.choice([0, 1, 1, 2, 2, 2, 3, 4, 8])
        source = driven if rng.random() < 0.93 else driven + [output] + pool[:1]
        ins = [rng.choice(source) for _ in range(count)] if source else []
        rows = []
        if not ins:
            rows = [b"1"] * rng.choice([0, 1, 1, 2])
        else:
            for _ in range(rng.randrange(0, 4)):
                rows.append(bytes(rng.choice(b"01-") for _ in ins) + b" 1")
        tables.append((ins, output, rows))
        driven.append(output)
    outputs = [rng.choice(driven) for _ in range(rng.randrange(0, 4))] if driven else []
    if rng.random() < 0.5 and b"_paused" in driven:
        outputs = [n for n in outputs if n != b"_paused"] + [b"_paused"]
    parts = []
    if inputs:
        cut = rng.randrange(len(inputs) + 1)
        parts.append([b" ".join([b".inputs"] + inputs[:cut])])
        parts.append([b" ".join([b".inputs"] + inputs[cut:])])
    parts.append([b" ".join([b".outputs"] + outputs)])
    for to in latches:
        parts.append([b".latch %s %s %d" % (rng.choice(driven), to, rng.randrange(2))])
    for ins, output, rows in tables:
        parts.append([b" ".join([b".names"] + ins + [output])] + rows)
    while rng.random() < 0.07 and driven:
        # a second driver, or a use without a driver
        name = rng.choice(driven + pool[:2])
        parts.append(
            rng.choice(
                [
                    [b".names " + name],
                    [b".inputs " + name],
                    [b".names " + name, b"1"],
                    [b".latch %s %s 1" % (rng.choice(driven), name)],
                    [b".outputs " + name],
                    [b".names %s z2" % name, b"1 1"],
                ]
            )
        )
    if rng.random() < 0.3:
        rest = parts[2:] if inputs else parts[1:]
        rng.shuffle(rest)
        parts = parts[: -len(rest)] + rest if rest else parts
    lines = [rng.choice([b".model", b".model m", b".model .end"])]
    for part in parts:
        lines += part
    lines.append(b".end")
    out = b""
    for line in lines:
        if rng.random() < 0.1:
            line = line.replace(b" ", rng.choice([b"  ", b"\t", b" \\\n", b"\\\n ", b"\\\r\n "]), 1)
        if rng.random() < 0.08:
            line += rng.choice([b" # c", b"#\x01\\", b" ", b"\t"])
        if rng.random() < 0.05:
            out += rng.choice([b"\n", b"# only\n", b" \r\n", b"\\\n\n"])
        out += line + rng.choice([b"\n"] * 9 + [b"\r\n"])
    if rng.random() < 0.1:
        out = out.rstrip(b"\r\n")
    return out


def expr(rng: random.Random, names: list[bytes], marks: tuple[Any, ...], depth: int = 0) -> bytes:
    """marks: (and, or, not, zero, one)"""
    r = rng.random()
    if r < 0.45 or depth > 4:
        if not names or rng.random() < 0.1:
            return rng.choice(marks[3:])
        return rng.choice(names)
    if r < 0.6:
        return marks[2] + rng.choice([b"", b" "]) + neg(rng, names, marks, depth + 1)
    sign = marks[0] if r < 0.8 else marks[1]
    parts = [neg(rng, names, marks, depth + 1) for _ in range(rng.choice([2, 2, 3]))]
    if r > 0.95:
        parts[0] = parts[0] + b" " + marks[0] + b" " + neg(rng, names, marks, depth + 1)
    return rng.choice([b" %s ", b"%s"]).replace(b"%s", sign).join(parts)


def neg(rng: random.Random, names: list[bytes], marks: tuple[Any, ...], depth: int) -> bytes:
    r = rng.random()
    if r < 0.6 or depth > 4:
        return rng.choice(names) if names and rng.random() < 0.9 else rng.choice(marks[3:])
    if r < 0.75:
        return marks[2] + neg(rng, names, marks, depth + 1)
    return b"(" + expr(rng, names, marks, depth + 1) + b")"


C_MARKS = (b"&", b"|", b"!", b"0", b"1")


V_MARKS = (b"&", b"|", b"~", b"1'b0", b"1'b1")


def space(rng: random.Random, comments: list[bytes]) -> bytes:
    return rng.choice([b" "] * 6 + [b"\n", b"\n", b"\t", b"\r\n"] + comments)


def join(rng: random.Random, words: list[bytes], comments: list[bytes]) -> bytes:
    out = b""
    for word in words:
        if out and (out[-1:].isalnum() or out[-1:] == b"_") and (word[:1].isalnum() or word[:1] == b"_"):
            out += space(rng, comments)
        elif rng.random() < 0.6:
            out += space(rng, comments)
        out += word
    return out + rng.choice([b"", b"\n", b" /* */" if comments and comments[0][:2] == b"/*" else b""])


def c_text(rng: random.Random, guarded: bool = False) -> bytes:
    wrong = 0.03 if rng.random() < 0.4 else 0
    states = [b"s%d" % k for k in range(rng.randrange(0, 3))]
    ins = [b"I_" + n for n in rng.sample([b"a", b"b", b"_", b"9", b"O_x"], rng.randrange(0, 3))]
    outs = [b"O_" + n for n in rng.sample([b"a", b"y", b"I_", b"int"], rng.randrange(0, 3))]
    lets = rng.sample(
        [b"x", b"y", b"z", b"staticx", b"_", b"I", b"O", b"p"] + ([] if guarded else [b"if"]),
        rng.randrange(0, 9 if guarded else 5),
    )
    words = []
    for s in states:
        words += [b"static", b"int", s, b"=", rng.choice([b"0", b"1"]), b";"]
    both = ins + outs
    if rng.random() < 0.3:
        rng.shuffle(both)
    if both and rng.random() < wrong:
        both.append(rng.choice(both))
    for n in both:
        words += [b"int", n, b";"]
    words += [b"int", b"react", b"(", b"void", b")", b"{"]
    for n in lets:
        words += [b"int", n, b";"]
        if rng.random() < wrong:
            words += [b"int", rng.choice(lets + states), b";"]
    ready = states + ins + outs
    pending = list(lets)
    closed: list[Any] = []
    halves: list[Any] = []  # (local, test, half) of the assignments in blocks

    def assign(to: bytes, names: list[bytes]) -> list[bytes]:
        pool = names + ([b"q", b"x"] if rng.random() < wrong * 3 else [])
        return [to, b"=", expr(rng, pool, C_MARKS), b";"]

    for _ in range(rng.randrange(0, 12 if guarded else 8)):
        r = rng.random()
        if guarded and r < 0.5 and closed:
            test = rng.choice(closed)
            half: dict[int, list[bytes]] = {0: [], 1: []}
            put = [pending.pop() for _ in range(min(len(pending), rng.randrange(0, 3)))]
            for n in put:
                where = rng.choice([(0,), (1,), (0, 1), (0, 1)])
                for h in where:
                    half[h].append(n)
            words += [b"if", b"(", test if rng.random() > wrong else b"x", b")", b"{"]
            for h in (0, 1):
                # what this kind of half may read, and sometimes what it may not
                inner = list(ready) + [n for n, t, k in halves if (t, k) == (test, h)]
                if rng.random() < 0.03:
                    inner += [n for n, _, _ in halves]
                if halves and rng.random() < 0.02:
                    words += assign(rng.choice(halves)[0], inner)
                for n in half[h]:
                    words += assign(n, inner)
                    inner.append(n)
                    halves.append((n, test, h))
                    if rng.random() < wrong:
                        words += assign(rng.choice(put + states + [b"x"]), inner)
                words += [b"}"]
                if h == 0:
                    if not half[1] and rng.random() < 0.5:
                        break
                    words += [b"else", b"{"]
            for n in put:
                if n in half[0] and n in half[1]:
                    ready.append(n)
        elif pending and r < 0.8:
            n = pending.pop()
            words += assign(n, ready)
            ready.append(n)
            closed.append(n)
            if rng.random() < (0.03 if guarded else 0.2):
                words += assign(n, ready)
        elif states + outs:
            words += assign(rng.choice(states + outs + (ins if rng.random() < wrong else [])), ready)
    words += [b"return", expr(rng, ready + (lets if rng.random() < wrong * 3 else []), C_MARKS), b";", b"}"]
    return join(rng, words, [b"/* x */", b"/**/", b"/* *\n/ */"])


def verilog_text(rng: random.Random) -> bytes:
    wrong = 0.1 if rng.random() < 0.4 else 0
    clock = rng.choice([b"clk", b"i_x", b"c"])
    ins = [b"i_" + n for n in rng.sample([b"a", b"b", b"_"], rng.randrange(0, 3))]
    outs = [b"o_" + n for n in rng.sample([b"a", b"y", b"paused"], rng.randrange(0, 3))]
    if rng.random() < 0.6:
        outs.append(b"paused")
    regs = [b"s%d" % k for k in range(rng.randrange(0, 3))]
    wires = rng.sample([b"x", b"y", b"_", b"w0", b"wire1"], rng.randrange(0, 4))
    ports = [clock] + ins + outs
    decls = [[b"input", n, b";"] for n in [clock] + ins]
    decls += [[b"output", n, b";"] for n in outs]
    if rng.random() < 0.2:
        a, b = decls[: 1 + len(ins)], decls[1 + len(ins) :]
        decls = b + a
    more = [[b"reg", n, b";"] for n in regs] + [[b"wire", n, b";"] for n in wires]
    if rng.random() < 0.3:
        rng.shuffle(more)
    decls = decls + more if rng.random() < 0.8 else more + decls
    if rng.random() < wrong * 2:
        decls.append(rng.choice(decls))
    if rng.random() < wrong * 2:
        decls.remove(rng.choice(decls))
    if rng.random() < wrong * 2:
        rng.shuffle(ports)
    words = [b"module", b"m", b"("]
    for k, n in enumerate(ports):
        words += ([b","] if k else []) + [n]
    words += [b")", b";"]
    for d in decls:
        words += d
    inits = list(regs) + ([rng.choice(regs + wires)] if regs + wires and rng.random() < wrong * 2 else [])
    if rng.random() < wrong * 2 and inits:
        inits.pop(rng.randrange(len(inits)))
    for n in inits:
        words += [b"initial", n, b"=", rng.choice(V_MARKS[3:]), b";"]
    names = ins + regs
    todo = wires + outs
    if rng.random() < 0.3:
        rng.shuffle(todo)
    placed = []
    for n in todo:
        pool = names + ([clock, b"q"] if rng.random() < wrong else []) + (todo if rng.random() < 0.04 else [])
        placed.append([b"assign", n, b"=", expr(rng, pool, V_MARKS), b";"])
        names.append(n)
        if rng.random() < wrong:
            placed.append([b"assign", rng.choice(todo + regs + ins + [clock]), b"=", b"1'b0", b";"])
    if rng.random() < 0.4:
        rng.shuffle(placed)
    if placed and rng.random() < wrong:
        placed.pop()
    for piece in placed:
        words += piece
    words += [b"always", b"@", b"(", b"posedge", clock if rng.random() > wrong else b"x", b")", b"begin"]
    nexts = list(regs)
    if rng.random() < wrong:
        nexts.append(rng.choice(regs + wires + [b"x"]))
    for n in nexts:
        words += [n, b"<=", rng.choice(names + ([clock] if rng.random() < wrong else [])) if names else n, b";"]
    words += [b"end", b"endmodule"]
    return join(rng, words, [b"// ; x\n", b"//\n"])


MAKERS: dict[str, Callable[[random.Random], bytes]] = {
    "blif": blif_text,
    "c": c_text,
    "guard": lambda rng: c_text(rng, True),
    "verilog": verilog_text,
}


def circuit_text(rng: random.Random) -> bytes:
    """A BLIF text with names of an interface, as the optimizer takes them; sometimes with one that it refuses."""
    inputs = ["I%d" % k for k in range(rng.randrange(5))]
    latches = ["s%d" % k for k in range(rng.randrange(7))]
    names = inputs + latches
    tables: list[Any] = []
    for k in range(rng.randrange(1, 16)):
        reads = rng.sample(names, min(len(names), rng.randrange(6)))
        rows = ["".join(rng.choice("0011-") for _ in reads) for _ in range(rng.choice([0, 1, 1, 1, 2, 2, 3]))]
        if tables and rng.random() < 0.15:
            reads, rows = tables[-1][0], tables[-1][2][::-1]
        tables.append((reads, "n%d" % k, rows))
        names.append("n%d" % k)
    if rng.random() < 0.05:
        tables[0][0].append(tables[-1][1])
        tables[0][2][:] = [row + "1" for row in tables[0][2]]
    steps = [rng.choice(names) for _ in latches]
    for k in range(1, len(latches)):
        if rng.random() < 0.2:
            steps[k] = steps[k - 1]
    shown = ["O%d" % k for k in range(rng.randrange(4))]
    shown += [name + ".out" for name in inputs if rng.random() < 0.2]
    wrong = rng.random()
    model = "drawn" if wrong > 0.03 else rng.choice(["", "1a", "a-b", "_"])
    if 0.03 < wrong < 0.06 and shown:
        shown[0] = rng.choice(["_x", "9", "Z.out", "a.b", "I0", shown[-1]])
    if not 0.06 < wrong < 0.08:
        shown.append("_paused")
    lines = [(".model " + model).rstrip(), " ".join([".inputs", *inputs]), " ".join([".outputs", *shown])]
    lines += [".latch %s %s %d" % (step, name, rng.randrange(2)) for step, name in zip(steps, latches)]
    copies = [([rng.choice(names)], name, [rng.choice("01")]) for name in dict.fromkeys(shown) if name not in inputs]
    for reads, name, rows in tables + copies:
        lines.append(" ".join([".names", *reads, name]))
        lines += [(row + " 1").strip() for row in rows]
    return "\n".join(lines + [".end", ""]).encode()
