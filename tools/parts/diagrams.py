"""Decision diagrams over numbered inputs: functions of events as nodes that are equal where the functions are (Bryant,
"Graph-Based Algorithms for Boolean Function Manipulation"), and short sums of products of them (Minato, "Fast Generation of
Irredundant Sum-of-Products Forms from Binary Decision Diagrams")."""
from program import UNDECIDED, Stop

FALSE, TRUE = 0, 1
MOST_NODES = 2_000_000


class Diagrams:
    """The nodes: each has an input and the nodes for its absence and its presence. 0 and 1 are the constants."""

    def __init__(self, inputs):
        self.inputs = inputs
        self.nodes = [(inputs, FALSE, FALSE), (inputs, TRUE, TRUE)]
        self.numbers, self.chosen, self.covers = {}, {}, {}

    def node(self, place, low, high):
        """The node of an input with these two nodes below it."""
        if low == high:
            return low
        key = (place, low, high)
        found = self.numbers.get(key)
        if found is None:
            found = self.numbers[key] = len(self.nodes)
            self.nodes.append(key)
            if found > MOST_NODES:
                raise Stop(UNDECIDED, "the events have more than %d cases" % MOST_NODES)
        return found

    def input(self, place):
        return self.node(place, FALSE, TRUE)

    def below(self, node, place):
        """The two nodes of a function where an input is absent, and where it is present."""
        own, low, high = self.nodes[node]
        return (low, high) if own == place else (node, node)

    def ite(self, test, yes, no):
        """`yes` where `test` is true, else `no`."""
        if test == TRUE or yes == no:
            return yes
        if test == FALSE:
            return no
        if yes == TRUE and no == FALSE:
            return test
        key = (test, yes, no)
        found = self.chosen.get(key)
        if found is None:
            place = min(self.nodes[test][0], self.nodes[yes][0], self.nodes[no][0])
            (t0, t1), (y0, y1), (n0, n1) = (self.below(it, place) for it in key)
            found = self.chosen[key] = self.node(place, self.ite(t0, y0, n0), self.ite(t1, y1, n1))
        return found

    def both(self, left, right):
        return self.ite(left, right, FALSE)

    def either(self, left, right):
        return self.ite(left, TRUE, right)

    def negated(self, node):
        return self.ite(node, FALSE, TRUE)

    def event(self, node):
        """An event with few inputs that a function holds of, as the places of the inputs that are present."""
        found = []
        while node != TRUE:
            place, low, high = self.nodes[node]
            if low == FALSE:
                found.append(place)
            node = high if low == FALSE else low
        return found

    def cover(self, lower, upper):
        """Products of inputs, each a tuple of places and values, whose sum is above one function and below another; and the sum."""
        if lower == FALSE:
            return [], FALSE
        if upper == TRUE:
            return [()], TRUE
        key = (lower, upper)
        found = self.covers.get(key)
        if found is None:
            place = min(self.nodes[lower][0], self.nodes[upper][0])
            found = self.covers[key] = self.cover_at(place, self.below(lower, place), self.below(upper, place))
        return found

    def cover_at(self, place, lowers, uppers):
        """A cover by the products that need the absence of an input, then its presence, then those that need neither."""
        absent, absent_sum = self.cover(self.both(lowers[0], self.negated(uppers[1])), uppers[0])
        present, present_sum = self.cover(self.both(lowers[1], self.negated(uppers[0])), uppers[1])
        left = [self.both(lower, self.negated(done)) for lower, done in zip(lowers, (absent_sum, present_sum))]
        shared, shared_sum = self.cover(self.either(*left), self.both(*uppers))
        products = [((place, 0), *it) for it in absent] + [((place, 1), *it) for it in present] + shared
        whole = self.ite(self.input(place), present_sum, absent_sum)
        return products, self.either(whole, shared_sum)

    def product(self, literals):
        """The function of one product."""
        found = TRUE
        for place, value in sorted(literals, reverse=True):
            found = self.node(place, FALSE, found) if value else self.node(place, found, FALSE)
        return found
