"""The column of each line of a source, by the statements that are open where it begins; share/emacs does the same."""
from tokens import line_and_column, readable_tokens

OFFSET = 2
OPENERS = ("loop", "abort", "suspend", "trap", "present", "every", "repeat", "signal")
NAMED_ENDS = ("await", "present", "loop", "every", "repeat", "abort", "trap", "signal", "module")
BEFORE_TEST = ("when", "await", "present", "every", "each", "case", "immediate", "and", "or", "not", "(", "[", "number")
CLOSERS = ("end", "each", "when", "handle", "else", "||", "]")


def after_bracket(tokens, number):
    """The number of the token after the bracket that opens at a number."""
    depth = 0
    while number < len(tokens):
        depth += {"[": 1, "]": -1}.get(tokens[number].kind, 0)
        number += 1
        if depth == 0:
            break
    return number


def after_delay(tokens, number):
    """The number of the token after the delay that begins at a number."""
    for kind in ("immediate", "number"):
        if number < len(tokens) and tokens[number].kind == kind:
            number += 1
    return after_bracket(tokens, number) if number < len(tokens) and tokens[number].kind == "[" else number + 1


class Lines:
    """The lines of a text with the columns that they get, and what is open: pairs of a kind and a column, the innermost last."""

    def __init__(self, text):
        self.tokens = readable_tokens(text)[:-1]
        self.rows = [line_and_column(text, it.start)[0] - 1 for it in self.tokens]
        self.opened, self.number = [], 0

    def kind(self, number):
        return self.tokens[number].kind if 0 <= number < len(self.tokens) else ""

    def drop_case(self):
        if self.opened and self.opened[-1][0] == "case":
            self.opened.pop()

    def close(self):
        self.drop_case()
        if self.opened:
            self.opened.pop()

    def take(self, column):
        """Takes up one token of a line that has a column."""
        number, kind = self.number, self.kind(self.number)
        after, before = self.kind(number + 1), self.kind(number - 1)
        self.number += 1
        if kind == "module" and before != "end":
            self.opened = []
        elif kind == "end":
            self.close()
            self.number += after in NAMED_ENDS
        elif kind in ("each", "]"):
            self.close()
        elif kind == "case":
            self.drop_case()
            self.opened.append(("case", column))
        elif kind == "else":
            self.drop_case()
        elif kind in OPENERS:
            self.opened.append((kind, column))
        elif kind == "[":
            if after == "signal" or before in BEFORE_TEST:
                self.number = after_bracket(self.tokens, number)
            else:
                self.opened.append((kind, column))
        elif kind in ("await", "when"):
            goes_on = after == "case" or self.kind(after_delay(self.tokens, number + 1)) == "do"
            if kind == "await" and goes_on:
                self.opened.append((kind, column))
            elif kind == "when" and not goes_on:
                self.close()
                self.number = after_delay(self.tokens, number + 1)

    def column(self, is_empty=False):
        """The column of the line that begins with the next token, or of an empty line before it."""
        kind, opened = "" if is_empty else self.kind(self.number), list(self.opened)
        if not opened:
            return 0
        if kind == "case":
            return opened[-1][1] + (0 if opened[-1][0] == "case" else OFFSET)
        if kind in CLOSERS and kind != "||" and opened[-1][0] == "case":
            opened.pop()
        if not opened:
            return 0
        return opened[-1][1] + (0 if kind in CLOSERS else OFFSET)


def columns_of(text):
    """The column of each line; none for a line that begins in a comment, or has none of the tokens."""
    lines, found, rows = Lines(text), [], text.split("\n")
    for row in range(len(rows)):
        here = lines.number < len(lines.tokens) and lines.rows[lines.number] == row
        is_empty = not here and not rows[row].strip()
        column = lines.column(is_empty) if here or is_empty else None
        found.append(column)
        while lines.number < len(lines.tokens) and lines.rows[lines.number] == row:
            lines.take(column if column is not None else 0)
    return found


def indented(text):
    """A text with each line at its column; lines of comments stay as they are."""
    made = []
    for line, column in zip(text.split("\n"), columns_of(text)):
        words = line.strip(" \t")
        made.append(line if column is None else " " * column + words if words else "")
    return "\n".join(made)
