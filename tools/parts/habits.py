"""What people write from other languages, or by a slip, and what to write here: notes about a fault of syntax."""
import difflib
import re

from indentation import NAMED_ENDS
from porting import COMPARED, test_words, word_before
from source import Reader
from tokens import Unread, line_and_column, readable_tokens

# Words that begin a statement.
STATEMENTS = frozenset(
    "abort await emit every exit halt loop nothing pause positive present repeat run signal suspend sustain trap weak [".split()
)

MARKS_OF_OTHERS = {
    "//": "a comment is written `%` and the rest of the line",
    "/*": "a comment is written `%{ .. }%`",
    "||": "`||` runs two statements in parallel; a test has `or`",
}
DECLARATIONS = ("input", "inputoutput", "output", "relation")
TESTS = ("await", "when", "every", "each", "immediate")
# Words of other languages at the place of a statement.
STATEMENTS_OF_OTHERS = {
    ("if",): "a test of a signal is written `present A then p else q end`",
    ("while", "until"): "a loop that ends at an event is written `abort loop p end when e`",
    ("forever",): "`loop p end` runs p again and again; it ends by an `abort` around it, or by an `exit`",
    ("for", "foreach"): "`repeat 3 times p end` runs p three times, and `await 3 A` waits for the third A",
    ("switch", "select", "match", "case"): "tests in turn are written `present case A do p case B do q end`",
    ("begin", "par", "fork", "parallel", "do"): "statements are grouped by `[ .. ]`, and `[ p || q ]` runs two in parallel",
    ("goto", "break", "continue", "return", "leave"): "`exit T` leaves the block `trap T in .. end`",
    ("throw", "raise"): "`exit T` leaves the block `trap T in .. end`",
    ("set", "assign", "output", "send", "signals"): "`emit S` makes S present at this instant, `sustain S` at every instant",
    ("delay", "sleep", "timer"): "`await 3 TICK` waits for the third TICK, an input that a timer gives",
    ("when", "on"): "`every A do p end` runs p at each A, and `await A; p` at the next one",
    ("always", "always_ff", "always_comb", "process"): "an instant is a turn of the clock: `loop p; pause end` runs p in each instant,"
    " and `every A do p end` at each A",
    ("initial",): "the body of a module starts once, in the first instant: write its statements without `initial`",
    ("local", "wire", "reg", "logic", "bit", "bool", "boolean", "int"): "a local signal is declared by `signal S in p end`, and has no value",
    ("parameter", "localparam", "const"): "there are no constants: write the number where it is used, as in `await 5 TICK`",
    ("assert", "property"): "a property is an observer in parallel, such as `every immediate [A and B] do emit BAD end`, with an output BAD;"
    " `cec-prove never BAD FILE` proves it (docs/proving.md)",
    ("call", "start", "instance"): "the body of another module is run by `run M [signal A/X]`",
}
NOTE_OF_WORD = {word: note for words, note in STATEMENTS_OF_OTHERS.items() for word in words}
# An `end` and the word of its statement as one word.
ENDS_OF_OTHERS = re.compile(r"end_?(%s|if|case|while|for|function|task|generate|property)" % "|".join(NAMED_ENDS))
DELAY_OF_OTHERS = re.compile(r"#\s*(\d+)")
# What to say where a single word could follow and another token does.
IN_PLACE = {
    "do": "`do` is missing here",
    "times": "`times` is missing here: `repeat 3 times p end`",
    "in": "`in` is missing here: `signal S in p end`, `trap T in p end`",
    "then": "`then` is missing here",
}


# Words of other languages that declare what a port keeps or carries.
KINDS_OF_PORTS = frozenset(("reg", "wire", "logic", "bit", "bool", "boolean", "std_logic"))


def about_ports(before, now):
    """A note about a list of ports, or about a declaration of ports that has a range or a word for what a port keeps."""
    kinds = [token.kind for token in before]
    if now.kind == "(" and kinds[-2:] == ["module", "name"]:
        return "a module has no list of ports: write `module %s:` here, and then the declarations, as `input A, B; output O;`" % before[-1].text
    if now.kind == "#" and kinds[-2:] == ["module", "name"]:
        return "a module has no parameters: write `module %s:` here, and each number where it is used" % before[-1].text
    if now.text == "inout":
        return "a signal that comes from outside and is emitted too is declared by `inputoutput A;`, before the body"
    start = max(len(kinds) - 1 - kinds[::-1].index(mark) if mark in kinds else -1 for mark in (";", ":", ")"))
    head = kinds[start + 1] if start + 1 < len(kinds) else ""
    if head not in ("input", "output", "inputoutput"):
        return None
    if now.kind == "[":
        return "there are no vectors: declare one signal for each bit, as `%s A0, A1, A2;`" % head
    if now.kind == "name" and before[-1].text in KINDS_OF_PORTS:
        return "there is no `%s`: a signal is present or absent in each instant; write `%s %s;`" % (before[-1].text, head, now.text)
    return None


def about_mark(text, at, expected):
    """A note about a mark of another language at a place."""
    delay = DELAY_OF_OTHERS.match(text, at)
    if delay and "await" in expected:
        return "a delay is written `await %s TICK`, with an input TICK that a timer gives" % delay[1]
    for mark, note in MARKS_OF_OTHERS.items():
        if text[at:].startswith(mark) or (mark != "||" and text[at - 1 :].startswith(mark)):
            return note
    return None


def about_renaming(before, now, expected):
    """A note about the renamings of a `run`."""
    if now.kind == "(" and len(before) > 1 and before[-2].kind == "run":
        return "a module has no list of arguments: `run M [signal A/X]` gives A of this module as X of M"
    if expected == ["signal"]:
        return "a renaming begins with its kind: `run M [signal A/X]`, the name here first"
    if now.kind == "signal" and [token.kind for token in before[-1:]] == [","]:
        return "one `signal` begins the whole list: `run M [signal A/X, B/Y]`"
    return None


def about_test(before, now, last):
    """A note about a test or a delay."""
    if now.kind in ("and", "or") and last in ("name", "tick", "]"):
        return "a test of several signals is put between brackets: `[A %s B]`" % now.kind
    if now.kind == "not" and last in (*TESTS, "number"):
        return "a negation is put between brackets: `[not A]`"
    if now.kind == "immediate" and last == "each":
        return "`loop .. each` starts at once by itself, so it has no `immediate`"
    if last == "name" and before[-1].text in ("rising", "falling", "posedge", "negedge", "rise", "fall"):
        return "a signal is present at single instants and has no edges: give the edge as an input of its own"
    if now.kind == "name" and last == "repeat":
        return "the number of turns is written as a number; a loop that ends at an event is `abort loop p end when e`"
    if now.kind == "(" and last in (*TESTS, "number"):
        head = last if last in ("await", "when", "every", "each") else "await"
        return "a single signal has no brackets, and a test of several has square ones: `%s A`, `%s [A or B]`" % (head, head)
    if now.kind == "number" and last in ("present", "not", "and", "or"):
        return "a number is no test: `tick` is true at every instant, and `not tick` at none"
    return None


class Opened(Reader):
    """A reader of tokens that knows which statements are open where it stops, which one ended last, and by which `end` each one was
    closed: pairs of first tokens and tokens `end`, in the order of the latter."""

    def __init__(self, text):
        super().__init__(text)
        self.opened, self.ended, self.closed = [], None, []

    def item(self):
        token = self.tokens[self.at]
        self.opened.append(token)
        statement = super().item()
        self.opened.pop()
        last = self.tokens[self.at - 1]
        if last.kind == "end":
            self.ended = token
        elif last.kind in NAMED_ENDS:
            last = self.tokens[self.at - 2]
        if last.kind == "end":
            self.closed.append((token, last))
        return statement


def read_up_to(text, at):
    """A reader of the tokens before a place."""
    reader = Opened(text[:at])
    try:
        reader.program()
    except Unread:
        pass
    return reader


def place_words(text, token):
    """The line and the column of a token, as the lines of explain have them."""
    return "%d:%d" % line_and_column(text, token.start)


def closed_words(text, closed, kind):
    """Which `end` closed the last statement of a kind, or the last one of all where none has this kind; nothing where none was closed."""
    found = [it for it in closed if it[0].kind == kind] or closed
    return "the `%s` at %s was closed by the `end` at %s" % (found[-1][0].kind, *(place_words(text, it) for it in found[-1])) if found else ""


def about_surplus_end(text, at, before, now, expected):
    """A note about one `end` too many: only `module` may follow it, or an open statement that another word closes."""
    if not before or now.kind in ("", "name"):
        return None
    if before[-1].kind == "end" and expected == ["module"]:
        words = closed_words(text, read_up_to(text, at).closed, now.kind)
        return "the `end` at %s is one too many: no statement is open there%s" % (place_words(text, before[-1]), words and ", and " + words)
    if now.kind == "end" and ";" in expected and "end" not in expected:
        reader = read_up_to(text, at)
        if reader.opened:
            opened, inner = reader.opened[-1], [it for it in reader.closed if it[0].start > reader.opened[-1].start]
            words = closed_words(text, inner, "")
            head = "this `end` is one too many: the `%s` at %s is open, which `%s` closes" % (
                opened.kind, place_words(text, opened), "]" if opened.kind == "[" else "when")
            return head + (words and "; " + words)
    return None


def about_end(text, at, before, now):
    """A note about an `end`, or the end of the text, where another statement is open than the one that is meant."""
    if not before or now.kind not in ("", *NAMED_ENDS) or (now.kind == "" and text[at:].strip()):
        return None
    reader = read_up_to(text, at)
    if before[-1].kind == "end" and now.kind and reader.ended:
        line = line_and_column(text, reader.ended.start)[0]
        return "this `end` ends the `%s` of line %d: an `end` is missing before it" % (reader.ended.kind, line)
    if now.kind == "" and reader.opened and reader.opened[-1].kind not in ("emit", "sustain", "exit", "run"):
        line = line_and_column(text, reader.opened[-1].start)[0]
        return "the text ends, and the `%s` of line %d is still open" % (reader.opened[-1].kind, line)
    return "a module ends with `end module`" if now.kind == "" else None


def about_missing(text, before, now, last, expected):
    """A note about a mark or a word that is missing at a place, or that another stands for."""
    if now.kind == ";" and last == ";":
        return "one `;` separates two statements"
    if now.kind in ("then", "do") and {"then", "do"} & set(expected):
        return "write `%s` here" % ("do" if now.kind == "then" else "then")
    if now.text in ("when", "for", "while", "until", "if") and [token.kind for token in before[-2:]] in (["emit", "name"], ["sustain", "name"]):
        head, name = before[-2].kind, before[-1].text
        if head == "emit" and now.text in ("when", "if"):
            return "`present A then emit %s end` emits where A is present" % name
        return "`abort sustain %s when 3 TICK` emits %s up to the third TICK, and not with it" % (name, name)
    if now.kind in STATEMENTS and ";" in expected:
        return "`;` is missing before this statement, or `||`"
    only = [word for word in expected if word not in ("and", "or", "else", "end", ",")]
    if len(only) == 1 and only[0] in IN_PLACE and now.kind not in ("name", "number"):
        return IN_PLACE[only[0]]
    return None


def after_declaration(text, at, expected):
    """The place and the words of a note about a declaration that has no `;`; none where none is missing."""
    before, now = readable_tokens(text[:at])[:-1], readable_tokens(text[at:])[0]
    if ";" not in expected or now.kind not in STATEMENTS | set(DECLARATIONS) or word_before(before) not in DECLARATIONS:
        return None
    ends = before[-1].end
    line = line_and_column(text, ends)[0]
    if line == line_and_column(text, at)[0]:
        # A bracket after a name on the same line is a range of bits.
        return None if now.kind == "[" else (at, "`;` is missing before this `%s`" % now.kind)
    return ends, "`;` is missing at the end of line %d" % line


def about_comparison(text, at, now):
    """A note about an `if` that compares a signal with a value of a switch."""
    test = COMPARED.match(text, at + len(now.text)) if now.kind == "name" and now.text.lower() == "if" else None
    return "a signal has no value, it is present or absent: `present %s then p else q end`" % test_words(test) if test else None


def about_word(now, last, expected):
    """A note about a word that begins no statement."""
    end = ENDS_OF_OTHERS.fullmatch(now.text) if now.kind == "name" else None
    if end:
        return "`end %s` is two words" % end[1] if end[1] in NAMED_ENDS else "a statement ends with `end`, alone or with the word that began it"
    near = difflib.get_close_matches(now.text, [it for it in expected if it.isalpha()], 1, 0.7) if now.kind == "name" else []
    if near:
        return "did you mean `%s`?" % near[0]
    if "emit" not in expected:
        return "`end` is followed by the word that began its statement, or by none" if last == "end" and "||" in expected else None
    if now.text.lower() in NOTE_OF_WORD:
        return NOTE_OF_WORD[now.text.lower()]
    if now.kind == "name":
        return "a statement begins with a word such as `emit` or `await`, and not with a name"
    return None


def habit_note(text, at, expected):
    """What is written here in place of a habit from other languages, or of a slip; none where nothing is known."""
    before, now = readable_tokens(text[:at])[:-1], readable_tokens(text[at:])[0]
    last = before[-1].kind if before else ""
    if now.kind == "," and len(before) > 1 and before[-2].kind in ("emit", "sustain", "exit", "await"):
        return "`%s` takes one name; write one for each, with `;` between" % before[-2].kind
    if now.kind == "module" and last == ".":
        return None
    looks = (
        about_ports(before, now),
        about_surplus_end(text, at, before, now, expected),
        about_mark(text, at, expected),
        about_renaming(before, now, expected),
        about_test(before, now, last),
        about_end(text, at, before, now),
        about_missing(text, before, now, last, expected),
        about_comparison(text, at, now),
        about_word(now, last, expected),
    )
    return next((note for note in looks if note), None)
