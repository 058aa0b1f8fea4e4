"""The table of the SAT search: claims of cec-opt and random questions, side by side with minisat and cadical of Debian.

Every question is a text in DIMACS form, which test_dimacs, minisat and cadical read. test_dimacs checks each clause that it learns;
cadical is measured without and with a proof, which nothing checks. minisat is measured with and without its preprocessing."""
import itertools
import os
import random
import shlex
import shutil
import subprocess

from bench_claims import questions
from bench_tools import PROGRAM, TOP, table

SEARCH = os.environ.get("CEC_SEARCH") or TOP / "crates/test_dimacs/out/test_dimacs"


class Circuit:
    """Clauses of gates. A net is a literal: a variable from 1, negative where it is negated."""

    def __init__(self):
        self.count, self.clauses = 0, []
        self.true = self.net()
        self.clauses.append([self.true])

    def net(self):
        self.count += 1
        return self.count

    def nets(self, count):
        return [self.net() for _ in range(count)]

    def both(self, a, b):
        if -self.true in (a, b):
            return -self.true
        if self.true in (a, b):
            return b if a == self.true else a
        out = self.net()
        self.clauses += [[-out, a], [-out, b], [out, -a, -b]]
        return out

    def either(self, a, b):
        return -self.both(-a, -b)

    def differ(self, a, b):
        for one, other in ((a, b), (b, a)):
            if abs(one) == self.true:
                return -other if one == self.true else other
        out = self.net()
        self.clauses += [[-out, a, b], [-out, -a, -b], [out, -a, b], [out, a, -b]]
        return out

    def add_once(self, a, b, c):
        half = self.differ(a, b)
        return self.differ(half, c), self.either(self.both(a, b), self.both(half, c))

    def add_majority(self, a, b, c):
        pairs = [self.both(x, y) for x, y in ((a, b), (a, c), (b, c))]
        return self.differ(a, self.differ(b, c)), self.either(pairs[0], self.either(pairs[1], pairs[2]))

    def ripple(self, a, b, add, carry=None):
        carry, out = carry or -self.true, []
        for x, y in zip(a, b):
            total, carry = add(x, y, carry)
            out.append(total)
        return out + [carry]

    def prefix(self, a, b):
        """An adder whose carries are found by prefixes (Kogge and Stone)."""
        makes = [self.both(x, y) for x, y in zip(a, b)]
        halves = [self.differ(x, y) for x, y in zip(a, b)]
        passes, step = halves[:], 1
        while step < len(a):
            makes, passes = (
                [self.either(makes[k], self.both(passes[k], makes[k - step])) if k >= step else makes[k] for k in range(len(a))],
                [self.both(passes[k], passes[k - step]) if k >= step else passes[k] for k in range(len(a))],
            )
            step *= 2
        return halves[:1] + [self.differ(halves[k], makes[k - 1]) for k in range(1, len(a))] + makes[-1:]

    def select(self, a, b, block=4):
        """An adder that computes each block for both carries and chooses."""
        carry, out = -self.true, []
        for at in range(0, len(a), block):
            low, high = (self.ripple(a[at : at + block], b[at : at + block], self.add_once, c) for c in (-self.true, self.true))
            row = [self.either(self.both(carry, y), self.both(-carry, x)) for x, y in zip(low, high)]
            out, carry = out + row[:-1], row[-1]
        return out + [carry]

    def array(self, a, b, add):
        total = [-self.true] * (len(a) + len(b))
        for i, x in enumerate(b):
            carry = -self.true
            for j, y in enumerate(a):
                total[i + j], carry = add(total[i + j], self.both(x, y), carry)
            for j in range(i + len(a), len(total)):
                total[j], carry = add(total[j], carry, -self.true)
        return total

    def columns(self, a, b, add):
        columns = [[] for _ in range(len(a) + len(b) + 1)]
        for i, x in enumerate(b):
            for j, y in enumerate(a):
                columns[i + j].append(self.both(x, y))
        for place in range(len(a) + len(b)):
            while len(columns[place]) > 1:
                parts = (columns[place] + [-self.true])[:3]
                del columns[place][:3]
                total, carry = add(*parts)
                columns[place].append(total)
                columns[place + 1].append(carry)
        return [column[0] if column else -self.true for column in columns[:-1]]

    def drawn(self, inputs, seed, turned):
        """A drawn circuit of sums and pairs; turned, each operator is made of others."""
        draw, nets = random.Random(seed), list(inputs)
        for _ in range(12 * len(inputs)):
            a, b, c = (draw.choice(nets[-2 * len(inputs) :]) * draw.choice((1, -1)) for _ in range(3))
            kind = draw.randrange(3)
            if kind == 0:
                out = self.differ(self.differ(c, b), a) if turned else self.differ(self.differ(a, b), c)
            elif kind == 1:
                out = self.both(a, self.either(b, c)) if not turned else self.either(self.both(a, b), self.both(c, a))
            else:
                out = self.add_majority(a, b, c)[1] if turned else self.add_once(a, b, c)[1]
            nets.append(out)
        return nets[-len(inputs) :]


def equivalence(make):
    """The clauses that two circuits of the same inputs differ."""
    circuit = Circuit()
    left, right = make(circuit)
    circuit.clauses.append([circuit.differ(x, y) for x, y in zip(left, right)])
    return circuit.count, circuit.clauses


def adders(bits, other):
    def make(c):
        a, b = c.nets(bits), c.nets(bits)
        return c.ripple(a, b, c.add_majority), (c.prefix(b, a) if other == "prefix" else c.select(b, a))

    return equivalence(make)


def multipliers(bits, kinds):
    def make(c):
        a, b = c.nets(bits), c.nets(bits)
        forms = {"array": c.array, "columns": c.columns}
        return forms[kinds[0]](a, b, c.add_once), forms[kinds[1]](b, a, c.add_majority)

    return equivalence(make)


def drawn_pair(seed, inputs=14):
    def make(c):
        nets = c.nets(inputs)
        return c.drawn(nets, seed, False), c.drawn(nets, seed, True)

    return equivalence(make)


def threshold(variables, seed):
    draw = random.Random(1000 * variables + seed)
    clauses = []
    for _ in range(round(4.26 * variables)):
        clauses.append([it * draw.choice((1, -1)) for it in draw.sample(range(1, variables + 1), 3)])
    return variables, clauses


def pigeons(holes):
    at = lambda pigeon, hole: pigeon * holes + hole + 1
    clauses = [[at(p, h) for h in range(holes)] for p in range(holes + 1)]
    clauses += [[-at(p, h), -at(q, h)] for h in range(holes) for p, q in itertools.combinations(range(holes + 1), 2)]
    return (holes + 1) * holes, clauses


# Sources of checks/corpus/tune whose claims are asked, and examples.
CLAIMED = [TOP / "checks/corpus/tune" / f"{name}.strl" for name in ("coffee", "counters", "lift", "vending", "watchdogs")]
CLAIMED += [TOP / "examples" / f"{name}.strl" for name in ("bus", "elevator", "runner", "stopwatch", "traffic_light", "watch")]


def claims(*options):
    """The claims that cec-opt asks about the BLIF texts of some sources."""
    program = shlex.split(os.environ.get("CEC", "")) or [PROGRAM]
    for source in CLAIMED:
        text = subprocess.run([*program, "blif", *options, source], capture_output=True, text=True, check=True).stdout
        yield from questions(text, SEARCH)


FAMILIES = {
    "claims about 11 texts": claims,
    "claims about 11 encoded texts": lambda: claims("--encode"),
    "10 random, 150 variables": lambda: [threshold(150, k) for k in range(10)],
    "10 random, 200 variables": lambda: [threshold(200, k) for k in range(10)],
    "10 random, 225 variables": lambda: [threshold(225, k) for k in range(10)],
    "7 and 8 holes": lambda: [pigeons(7), pigeons(8)],
    "6 adders, 16 to 64 bits": lambda: [adders(bits, other) for bits in (16, 32, 64) for other in ("prefix", "select")],
    "8 multipliers, 4 to 6 bits": lambda: [multipliers(bits, ("array", "columns")) for bits in (4, 5, 6)]
    + [multipliers(bits, ("array", "array")) for bits in (4, 5, 6)]
    + [multipliers(bits, ("columns", "columns")) for bits in (5, 6)],
    "6 random pairs, 14 inputs": lambda: [drawn_pair(seed) for seed in range(6)],
}


def answered(tool, path, folder):
    """Whether a tool finds a text satisfiable, with its processor time and its peak memory."""
    words = {
        "minisat": ["minisat", "-verb=0", path],
        "minisat, plain": ["minisat", "-verb=0", "-no-pre", path],
        "cadical": ["cadical", "-q", "-n", path],
        "cadical, proof": ["cadical", "-q", "-n", path, folder / "proof"],
        "test_dimacs": [SEARCH],
    }[tool]
    with open(path, "rb") as source, open(folder / "answer", "wb") as sink:
        process = subprocess.Popen(words, cwd=folder, stdin=source, stdout=sink, stderr=subprocess.DEVNULL)
        _, status, usage = os.wait4(process.pid, 0)
    if tool == "test_dimacs":
        found = (folder / "answer").read_text().split("\n")[0]
    else:
        found = {10: "satisfiable", 20: "unsatisfiable"}.get(os.waitstatus_to_exitcode(status), "none")
    return found, usage.ru_utime + usage.ru_stime, usage.ru_maxrss * 1024 / 1e6


def search_table(folder):
    """One row for each family: the sums of processor time, the greatest memory, and whether all tools agree."""
    tools = [it for it in ("minisat", "minisat, plain", "cadical", "cadical, proof") if shutil.which(it.split(",")[0])] + ["test_dimacs"]
    rows = []
    for name, make in FAMILIES.items():
        times, memory, agree = dict.fromkeys(tools, 0.0), dict.fromkeys(tools, 0.0), True
        asked = 0
        for count, clauses in make():
            asked += 1
            path = folder / "question.cnf"
            path.write_text(f"p cnf {count} {len(clauses)}\n" + "".join(" ".join(map(str, it)) + " 0\n" for it in clauses))
            found = {tool: answered(tool, path, folder) for tool in tools}
            agree = agree and len({it[0] for it in found.values()}) == 1
            for tool, (_, time, most) in found.items():
                times[tool] += time
                memory[tool] = max(memory[tool], most)
        cells = [name, str(asked)] + ["%.2f" % times[it] for it in tools] + ["%.0f" % memory[it] for it in (tools[0], tools[-1])]
        rows.append(cells + ["yes" if agree else "NO"])
    table(["Questions", "asked"] + [f"{it}, s" for it in tools] + [f"{tools[0]}, MB", f"{tools[-1]}, MB", "agree"], rows)
