"""What could stand at the place of a syntax fault: the program is asked, token by token, whether the fault moves on."""
import os
import re
import tempfile
from concurrent.futures import ThreadPoolExecutor

from habits import STATEMENTS
from program import DONE, ask, main_words
from tokens import MARKS, WORDS, byte_at

PLACE = re.compile(r"cec: (\d+):(\d+): (.*)")


def asked(text, main=None, command="check"):
    """What the program answers to a text."""
    handle, name = tempfile.mkstemp(suffix=".strl")
    try:
        with os.fdopen(handle, "wb") as file:
            file.write(text.encode("latin-1"))
        return ask(command, *main_words(main), name)
    finally:
        os.unlink(name)


def fault_of(text, main=None):
    """The place of the first fault of a text, in bytes, and its text; no place where there is none, or the fault has none."""
    answer = asked(text, main)
    match = PLACE.match(answer.err.decode("latin-1"))
    if answer.status == DONE or not match:
        return None, ""
    return byte_at(text, int(match[1]), int(match[2])), match[3].strip()


def goes_on(text, at, word):
    """Whether a token can stand at a place: put there, with nothing behind it, it is not where the fault is."""
    head = text[:at]
    if head[-1:].isalnum() or head[-1:] == "_":
        head += " "
    place, fault = fault_of(head + word + "\n")
    return not (fault in ("syntax", "limit: nesting") and place is not None and place <= len(head))


def tokens_that_could(text, at):
    """The tokens that could stand at a place: marks, words, and what a name or a number is called."""
    words = [*MARKS, *sorted(WORDS), "x", "3"]
    with ThreadPoolExecutor(os.cpu_count()) as asking:
        could = list(asking.map(lambda word: goes_on(text, at, word), words))
    return [{"x": "a name", "3": "a number"}.get(word, word) for word, is_one in zip(words, could) if is_one]


def in_words(tokens):
    """A list of tokens for a reader: all that begin a statement are one."""
    left, words = list(tokens), []
    if STATEMENTS <= set(left):
        left = [token for token in left if token not in STATEMENTS]
        words.append("a statement")
    return ", ".join(words + [token if token.startswith("a n") else "`%s`" % token for token in left])
