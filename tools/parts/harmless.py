"""Whether a cycle is harmless: what the program answers where it has no inputs, and what `cec-opt` answers where it is built."""
import os
import re
import tempfile

from program import DONE, ask, ask_within, main_words, other_program, write_file
from source import modules_of
from tokens import Unread

# The statuses of `cec run --via tri` at an instant that is not constructive, of `cec-opt` for such a program, and where it is undecided.
STUCK, NOT_CONSTRUCTIVE, UNDECIDED = 12, 12, 21
SECONDS = 10
# A longer trace fills a screen.
MOST_OF_TRACE = 400

COMPILES = "`cec-opt blif --source` compiles the program as it is (docs/cycles.md)"
UNKNOWN = "if the cycle is harmless, " + COMPILES


def has_inputs(text, main):
    """Whether the main module has inputs; so too where this reading does not follow the source."""
    try:
        module = next((it for it in modules_of(text) if main in (None, it.name.name)), None)
    except Unread:
        return True
    return module is None or bool(module.signals["input"] or module.signals["inputoutput"])


def is_stuck_at_once(file, main):
    """Whether the first instant of a program without inputs is not constructive."""
    with tempfile.TemporaryDirectory() as folder:
        name = os.path.join(folder, "first.trace")
        write_file(name, ";\n")
        return ask("run", "--via", "tri", *main_words(main), file, name).status == STUCK


def judged(file, main, seconds):
    """What `cec-opt` answers about the cycles of a source, in notes; none where it is not built, or answers something else."""
    optimizer = other_program("cec-opt")
    if not optimizer:
        return None
    answer = ask_within(seconds, *optimizer, "check", "--source", file, *main_words(main))
    if answer is None:
        return ["`cec-opt` does not decide in %d seconds whether the cycle is harmless; if it is, %s" % (seconds, COMPILES)]
    out, err = answer.out.decode("latin-1"), answer.err.decode("latin-1")
    counted = re.match(r"\S+: constructive, (\d+) components", out)
    if answer.status == DONE and counted:
        several = ["this cycle is in one of %s components; each of the others has cycles of its own" % counted[1]]
        return several * (int(counted[1]) > 1) + ["the cycle is harmless: " + COMPILES]
    if answer.status == NOT_CONSTRUCTIVE and ": not constructive: " in err:
        trace = " ".join(out.split())
        if len(trace) > MOST_OF_TRACE:
            trace = trace[:MOST_OF_TRACE].rsplit(" ", 1)[0] + " .."
        return ["the cycle is not harmless: the program has no reaction to the last instant of the trace `%s` (docs/cycles.md)" % trace]
    if answer.status == UNDECIDED:
        return ["`cec-opt` finds no proof that the cycle is harmless, and no trace that shows that it is not (docs/cycles.md)"]
    return None


def outlook(file, text, main, seconds=SECONDS):
    """Notes on whether a cycle of a source is harmless."""
    if not has_inputs(text, main) and is_stuck_at_once(file, main):
        return ["the cycle is not harmless: the program has no inputs, and its first instant is not constructive (docs/cycles.md)"]
    return judged(file, main, seconds) or [UNKNOWN]
