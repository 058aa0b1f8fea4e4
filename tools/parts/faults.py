"""Why a fault that is not of the grammar comes, and what to do about it: bytes that begin no token, counts, renamings."""
import re
import unicodedata

from porting import COMPARED, ROWS, test_words
from source import all_statements, modules_of
from tokens import Unread, readable_tokens

GREATEST_COUNT = 255
MARKS = {
    "!": "write `not` for a negation: `[not A]`",
    "~": "write `not` for a negation: `[not A]`",
    "&": "write `and` in a test: `[A and B]`",
    "|": "one `|` is no mark: `||` runs two statements in parallel, and a test has `or`",
    "^": "there is no exclusive or; write `[(A and not B) or (B and not A)]`",
    "{": "`{` begins nothing: put statements between `[` and `]`, and a comment between `%{` and `}%`",
    "}": "`}` ends nothing here: statements are put between `[` and `]`, and this is no end of a comment `%{ .. }%`",
    "?": ROWS["value"].words(),
    '"': "there are no strings, since signals carry no values here",
    "'": "there are no characters, since signals carry no values here",
    "_": "a name begins with a letter; `_` may follow",
    "$": "`$` begins nothing here",
    "`": "a backquote begins nothing here",
    "\\": "a backslash begins nothing here; a statement goes on in the next line without a mark",
}
VALUE_MARKS = "<>+*"
# A wait for an event, and a choice between two values, as Verilog and C have them.
EDGE = re.compile(r"@\s*\(?\s*(?:posedge\s|negedge\s)?\s*([A-Za-z]\w*)\s*\)?")
CHOICE = re.compile(r"\?[^;?:]*:")
IN_TEST = re.compile(r"(?:[(\[]|\b(?:if|elsif|present|await|when|while|until|every|each|case|immediate|and|or|not))\s*\Z")


def why_bad_byte(text, at):
    """Why the byte at a place begins no token, in words."""
    rest = text[at:]
    two = text[max(0, at - 1) : at + 1]
    if rest.startswith("\xef\xbb\xbf"):
        return "the file begins with a byte order mark; save it as UTF-8 without one"
    if at == 0 and rest[:2] in ("\xff\xfe", "\xfe\xff") or "\0" in rest[:2]:
        return "the file seems to be UTF-16, in which every second byte is 0; save it as ASCII or UTF-8"
    if two == "/*" or rest.startswith("*/"):
        return "a comment is written `%{ .. }%`, or `%` and the rest of the line"
    if rest.startswith("--"):
        return "a comment is written `%` and the rest of the line"
    if rest[0] == "-" and text[at - 1 : at].isalnum() and rest[1:2].isalnum():
        return "a name has letters, digits and `_`, and no `-`"
    compared = why_compared(text, at)
    if compared:
        return compared
    if rest[0] == "@":
        return why_at_sign(rest)
    if CHOICE.match(rest) and readable_tokens(text[:at])[-2:-1] and readable_tokens(text[:at])[-2].kind in ("name", "number", ")", "]"):
        return "a choice is a statement, since signals carry no values here: `present A then p else q end`"
    if rest[0] == "=":
        return why_bad_equals(text, at)
    if rest[:2] == "!=":
        return "there is nothing to compare, since signals carry no values here"
    if rest[0] in VALUE_MARKS or rest[0] == "-":
        return "there is nothing to compute or compare, since signals carry no values here"
    if rest[0] in MARKS:
        return MARKS[rest[0]]
    return why_other_byte(rest)


def why_at_sign(rest):
    """What to write in place of an `@` and the event after it."""
    found = EDGE.match(rest)
    event = found[1] if found else "A"
    return "`await %s` waits for %s, and `every %s do p end` runs p at each one; signals have no edges" % (event, event, event)


def why_compared(text, at):
    """What to write in place of the comparison of a signal with a value, whose mark is at a place; none where it is no such comparison."""
    name = re.search(r"[A-Za-z]\w*\s*\Z", text[:at])
    found = COMPARED.match(text, name.start()) if name else None
    # A lone `=` outside of a test may be meant as an assignment.
    if not found or (found[2] == "=" and not IN_TEST.search(text[: name.start()])):
        return None
    return "there is nothing to compare, since signals carry no values here: `%s` tests %s" % (test_words(found), found[1])


def why_bad_equals(text, at):
    """Why a `=` that is no part of `=>` stands nowhere."""
    if text[at - 1 : at] == ":":
        return "there is no `:=`; " + ROWS["var"].words()
    if re.match(r"==", text[at:]):
        return "there is nothing to compare, since signals carry no values here"
    if re.search(r"\b(?:constant|const|parameter|localparam)\s+\w+\s*\Z", text[:at]):
        return ROWS["constant"].words()
    return "a lone `=` begins nothing; a relation is written `A => B` or `A # B`"


def why_other_byte(rest):
    """Why a control character, or a character outside of ASCII, begins no token."""
    character = rest[:4].encode("latin-1").decode("utf-8", "ignore")[:1]
    number = ord(rest[0])
    if number < 128 or not character or ord(character) < 128:
        return "byte %d is no character of a source" % number
    name = unicodedata.name(character, "U+%04X" % ord(character)).lower()
    if character.isspace() or unicodedata.category(character) == "Cf":
        return "this is a %s, which looks like a space and is none; write a space" % name
    if character.isalpha():
        return "this is a %s; names have the letters of ASCII alone, comments may have any" % name
    return "this is a %s; outside of comments a source is ASCII" % name


def factors(count):
    """A count as two factors and a rest, each at most the greatest count; none where that takes a third factor."""
    exact = [inner for inner in range(GREATEST_COUNT, 1, -1) if count % inner == 0 and count // inner <= GREATEST_COUNT]
    inner = exact[0] if exact else GREATEST_COUNT
    return None if count // inner > GREATEST_COUNT else (count // inner, inner, count % inner)


def waits(count, event):
    """Statements that wait for so many events, by nested counts; none where two levels are not enough."""
    found = factors(count)
    if not found:
        return None
    outer, inner, rest = found
    return "repeat %d times await %d %s end" % (outer, inner, event) + ("; await %d %s" % (rest, event) if rest else "")


def counted_statement(text, at):
    """The form of the statement whose count is at a place, and its event; `repeat` has none."""
    try:
        modules = modules_of(text)
    except Unread:
        return None
    for module in modules:
        for statement in all_statements(module.body):
            delay = statement.parts.get("delay")
            if delay and delay.start <= at < delay.end:
                return statement.form, text[delay.start : delay.end].split(None, 1)[1]
            if statement.form == "repeat" and statement.start <= at and re.match(r"(positive\s+)?repeat\s+\Z", text[statement.start : at]):
                return "repeat", ""
    return None


def why_bad_count(text, at):
    """What to write in place of a count that is too great."""
    count = int(re.match(r"\d+", text[at:])[0])
    if count == 0:
        return ["a count is from 1 to %d: what comes 0 times is left out" % GREATEST_COUNT]
    notes = ["a count is from 1 to %d" % GREATEST_COUNT]
    form, event = counted_statement(text, at) or ("", "")
    found = factors(count)
    if form == "repeat" and found and not found[2]:
        notes.append("nested counts multiply: `repeat %d times repeat %d times p end end`" % found[:2])
    wait = waits(count, event) if event else None
    if wait and form.startswith("await"):
        notes.append("nested counts multiply: `%s`" % wait)
    elif wait and "abort" in form:
        head = "weak abort" if form.startswith("weak") else "abort"
        notes.append(
            "nested counts multiply: `trap OVER in signal LATE in %s p when LATE; exit OVER || %s; emit LATE; exit OVER end end`"
            % (head, wait)
        )
    elif wait and form == "every":
        notes.append("nested counts multiply: `signal TURN in loop %s; emit TURN end || every TURN do p end end`" % wait)
    elif wait and form == "loop each":
        notes.append("nested counts multiply: `signal TURN in loop %s; emit TURN end || loop p each TURN end`" % wait)
    if event:
        notes.append("each count is code of its own; an input that a timer gives every %d %s costs none" % (count, event))
    else:
        notes.append("each turn is code of its own; a `loop` that a counted event aborts is code once")
    return notes


def why_bad_renaming(text, at):
    """The signals that can be renamed at a place: those of the interface of the module that is run."""
    name = re.match(r"\w*", text[at:])[0]
    try:
        modules = {module.name.name: module for module in reversed(modules_of(text))}
    except Unread:
        return []
    for module in modules.values():
        for statement in all_statements(module.body):
            if statement.form == "run" and statement.start <= at < statement.end:
                return interface_notes(modules.get(statement.parts["module"].name), statement, name, at)
    return []


def interface_notes(module, run, name, at):
    """Notes about a formal that is renamed twice, or is none of a module's interface."""
    if module is None:
        return []
    earlier = [formal for _, formal in run.parts["renamings"] if formal.name == name and formal.start < at]
    listed = "; ".join("%s %s" % (kind, ", ".join(it.name for it in names)) for kind, names in module.signals.items() if names)
    notes = ["%s is renamed before; each signal is renamed once" % name] if earlier else []
    swapped = [it.name for it, formal in run.parts["renamings"] if formal.start == at and it.name in interface_of(module)]
    if swapped and not earlier:
        notes.append("the name here comes first and the name in the module last: `%s/%s`" % (name, swapped[0]))
    return notes + ["the interface of %s: %s" % (module.name.name, listed or "no signals")]


def interface_of(module):
    """The names of a module's interface."""
    return {it.name for names in module.signals.values() for it in names}
