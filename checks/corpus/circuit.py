"""A BLIF circuit that is built gate by gate, with the outputs that `cec-opt` and `cec-prove` expect of a text."""


class Circuit:
    """Gates of two inputs over named nets, with latches."""

    def __init__(self, name, inputs, outputs):
        self.lines, self.latches, self.count = [], [], 0
        self.head = [f".model {name}", " ".join([".inputs", *inputs]), " ".join([".outputs", *outputs, "_paused"])]

    def table(self, reads, rows, name=None):
        """A table of these rows, and the name of its net."""
        if name is None:
            name, self.count = f"n{self.count}", self.count + 1
        self.lines += [" ".join([".names", *reads, name]), *rows]
        return name

    def both(self, a, b):
        return self.table([a, b], ["11 1"])

    def either(self, a, b):
        return self.table([a, b], ["1- 1", "-1 1"])

    def negation(self, a):
        return self.table([a], ["0 1"])

    def differ(self, a, b):
        return self.either(self.both(a, self.negation(b)), self.both(self.negation(a), b))

    def choice(self, which, one, other):
        return self.either(self.both(which, one), self.both(self.negation(which), other))

    def latch(self, name, step, first):
        self.latches.append(f".latch {step} {name} {first}")

    def show(self, name, net):
        self.table([net], ["1 1"], name)

    def text(self):
        always = [".names _paused", "1"]
        return "\n".join([*self.head, *self.latches, *self.lines, *always, ".end", ""])
