"""The claims of induction that `cec-opt` asks about BLIF texts, as clauses: questions for the table of the SAT search.

Random runs put the nets of a text into classes: those of one class had the same values, or opposite ones, in all instants. Two
questions ask whether this is so in each instant that is reached (van Eijk, 2000): whether a first instant breaks a class, and whether
one does that follows an instant in which all classes hold. The clauses are those of net_follow: what the gates compute, in one
instant or in two, the first values of the latches or their links, and the classes of the earlier instant. net_follow asks net by
net; here all nets of a round are one question, since the other tools start anew for each. A valuation splits the classes, and the
next round asks again, until no class is broken.
"""
import collections
import random
import subprocess
import sys

from bench_tools import TOP

sys.path.insert(0, str(TOP / "tools" / "parts"))
from blif import blif_of  # noqa: E402

# Random runs in groups of 32, each with its own density of every input, and the instants of each run.
GROUPS, RUNS, INSTANTS = 12, 32, 300
# The claims that are asked one by one at a time, the instants of a run from a counterexample, and the most rounds.
PART, LATER, ROUNDS = 200, 16, 100


class Nets:
    """The nets of a text by number: inputs, latches, and tables in the order in which they are computed."""

    def __init__(self, text):
        blif = blif_of(text)
        self.inputs, self.latches = len(blif.inputs), len(blif.latches)
        self.numbers = {name: k for k, name in enumerate(blif.inputs + [latch.name for latch in blif.latches])}
        self.starts = [latch.init == "1" for latch in blif.latches]
        self.tables = []
        for names, rows in self.ordered(blif.tables):
            self.numbers[names[-1]] = len(self.numbers)
            reads = [self.numbers[name] for name in names[:-1]]
            cells = [row.split()[0] if len(names) > 1 else "" for row in rows]
            self.tables.append([[(net, cell == "1") for net, cell in zip(reads, row) if cell != "-"] for row in cells])
        self.links = [self.numbers[latch.source] for latch in blif.latches]
        self.count = len(self.numbers)

    def ordered(self, tables):
        """The tables, each one after those that it reads."""
        known, left = set(self.numbers), collections.deque(tables)
        while left:
            names, rows = left.popleft()
            if known.issuperset(names[:-1]):
                known.add(names[-1])
                yield names, rows
            else:
                left.append((names, rows))

    def values(self, inputs, states, whole):
        """The values of all nets in some runs at once, a bit of a number for each run."""
        values = [*inputs, *states]
        for rows in self.tables:
            value = 0
            for row in rows:
                cube = whole
                for net, positive in row:
                    cube &= values[net] if positive else ~values[net]
                value |= cube
            values.append(value & whole)
        return values


class Classes:
    """Nets that may be equal or opposite, by what was seen of them. A constant is in the class of None."""

    def __init__(self, nets):
        self.nets, self.turned = nets, None
        self.seen, self.constant = [()] * nets.count, ()

    def note(self, values, whole):
        """Splits classes by the values of all nets in some instants."""
        if self.turned is None:
            self.turned = [bool(value & 1) for value in values]
        signed = [value ^ whole if turned else value for value, turned in zip(values, self.turned)]
        self.seen = [hash(pair) for pair in zip(self.seen, signed)]
        self.constant = hash((self.constant, 0))

    def claims(self):
        """The claims: a net, the first net of its class or None for false, and whether the two are opposite."""
        first = {self.constant: None}
        for net, seen in enumerate(self.seen):
            other = first.setdefault(seen, net)
            if other != net:
                yield net, other, self.turned[net] ^ (other is not None and self.turned[other])


def guessed(nets, draw):
    """The classes that random runs from the first instant leave."""
    classes, whole = Classes(nets), (1 << GROUPS * RUNS) - 1
    kinds = [[draw.randrange(4) for _ in range(GROUPS)] for _ in range(nets.inputs)]
    states = [whole if start else 0 for start in nets.starts]
    for _ in range(INSTANTS):
        values = nets.values([mixed(groups, draw) for groups in kinds], states, whole)
        classes.note(values, whole)
        states = [values[link] for link in nets.links]
    return classes


def mixed(groups, draw):
    """An input's values in some groups of runs: rarely, sometimes, often or mostly present."""
    value = 0
    for kind in groups:
        one, other, third = (draw.getrandbits(RUNS) for _ in range(3))
        value = value << RUNS | (one & other & third, one & other, one, one | other | third)[kind]
    return value


class Question:
    """Clauses over the nets of one instant or of two. The variable of a net is its number from 1."""

    def __init__(self, nets, claims, is_later):
        self.nets, self.clauses = nets, []
        self.count = nets.count * (2 if is_later else 1)
        self.instant(0)
        if is_later:
            self.instant(nets.count)
            for latch, link in enumerate(nets.links):
                self.same(nets.count + nets.inputs + latch + 1, link + 1)
            for net, other, turned in claims:
                self.claim(net + 1, other is not None and other + 1, turned)
        else:
            self.clauses += [[nets.inputs + k + 1 if start else -(nets.inputs + k + 1)] for k, start in enumerate(nets.starts)]
        self.late = nets.count if is_later else 0
        self.broken = [self.breaking(*claim) for claim in claims]

    def variable(self):
        self.count += 1
        return self.count

    def same(self, one, other):
        self.clauses += [[-one, other], [one, -other]]

    def claim(self, net, other, turned):
        """A net has the value of another, or of its negation, or a constant one."""
        if other:
            self.same(net, -other if turned else other)
        else:
            self.clauses.append([net if turned else -net])

    def instant(self, late):
        """What the tables compute in an instant."""
        for place, rows in enumerate(self.nets.tables, self.nets.inputs + self.nets.latches):
            net, cubes = late + place + 1, []
            for row in rows:
                literals = [late + read + 1 if positive else -(late + read + 1) for read, positive in row]
                cube = literals[0] if len(literals) == 1 else net if len(rows) == 1 else self.variable()
                if len(literals) != 1:
                    self.clauses += [[-cube, literal] for literal in literals] + [[cube, *(-literal for literal in literals)]]
                cubes.append(cube)
            if cubes != [net]:
                self.clauses += [[net, -cube] for cube in cubes] + [[-net, *cubes]]

    def breaking(self, net, other, turned):
        """A literal that is true only where a claim is false in the instant asked about."""
        net = self.late + net + 1
        if other is None:
            return -net if turned else net
        other, out = self.late + other + 1, self.variable()
        if turned:
            other = -other
        self.clauses += [[-out, net, other], [-out, -net, -other]]
        return out


def text_of(count, clauses):
    return f"p cnf {count} {len(clauses)}\n" + "".join(" ".join(map(str, clause)) + " 0\n" for clause in clauses)


def answers(search, question, lines):
    """The answers of test_dimacs to some lines after the clauses of a question."""
    asked = text_of(question.count, question.clauses) + "".join(lines)
    return subprocess.run([search], input=asked, capture_output=True, text=True, check=True).stdout.splitlines()


def valuations(search, question):
    """Valuations of the nets in the instant asked about that break claims, as test_dimacs answers some claim by claim."""
    any_one = " ".join(map(str, question.broken)) + " 0\n"
    if answers(search, question, [any_one])[0] == "unsatisfiable":
        return []
    for start in range(0, len(question.broken), PART):
        told = answers(search, question, [f"v {literal} 0\n" for literal in question.broken[start : start + PART]])
        found = [line.split()[1 + question.late : 1 + question.late + question.nets.count] for line in told if line[0] == "s"]
        if found:
            return ["".join("0" if word.startswith("-") else "1" for word in words) for words in found]
    raise SystemExit("test_dimacs answers a question in two ways")


def questions(text, search):
    """The questions about a text, round by round: the number of variables, and the clauses."""
    nets = Nets(text)
    draw = random.Random(nets.count)
    classes = guessed(nets, draw)
    for is_later in (False, True):
        for _ in range(ROUNDS):
            claims = list(classes.claims())
            if not claims:
                break
            question = Question(nets, claims, is_later)
            yield question.count, question.clauses + [question.broken]
            found = valuations(search, question)
            if not found:
                break
            again(nets, classes, [int("".join(column), 2) for column in zip(*found)], (1 << len(found)) - 1, draw)


def again(nets, classes, values, whole, draw):
    """Splits classes by instants that broke some, and by random runs from them."""
    for _ in range(LATER):
        classes.note(values, whole)
        inputs = [draw.getrandbits(whole.bit_length()) for _ in range(nets.inputs)]
        values = nets.values(inputs, [values[link] for link in nets.links], whole)
