"""The program `cec`, as the tools call it: where it is found, what it is asked, and its statuses.

`$CEC` names it, with words behind it where there are some; else it is the built program of the repository, where the tools stand
in one; else `cec` beside the tools, where they are installed, or on the path.
"""
import os
import shlex
import shutil
import signal
import subprocess
import sys
import tempfile
from typing import NamedTuple

DONE, FAILED, USAGE, FILE, STATIC, CYCLIC, TRACE, BAD_TEXT, LIMIT, WRITE, NO_MEMORY = 0, 1, 2, 3, 4, 5, 6, 7, 8, 9, 10
# Statuses that only tools have: nothing was found out, and another program is missing.
UNDECIDED, MISSING = 11, 12


# What runs a source with a cycle, which has no text of its own.
IF_HARMLESS = "if it is harmless, `simulate` and `trace_report` run the source, and `cec-opt blif --source` makes a text of it"


class Stop(Exception):
    """A tool's end before its work is done: a status, and a line about it."""

    def __init__(self, status, line):
        super().__init__(line)
        self.status = status


class Answer(NamedTuple):
    """What one call of the program gave."""

    status: int
    out: bytes
    err: bytes


def command():
    """The words that call the program."""
    if os.environ.get("CEC"):
        return shlex.split(os.environ["CEC"])
    tools = os.path.dirname(os.path.dirname(os.path.realpath(__file__)))
    if os.path.isdir(os.path.join(tools, "..", "crates", "cec")):
        built = os.path.normpath(os.path.join(tools, "..", "crates", "cec", "out", "cec"))
        if os.access(built, os.X_OK):
            return [built]
        # The script ./cec would prove and build for more than an hour here, and say nothing.
        raise Stop(MISSING, "the program is not built here; ./cec builds it, or $CEC names another one")
    beside = os.path.normpath(os.path.join(tools, "..", "..", "..", "bin", "cec"))
    found = beside if os.access(beside, os.X_OK) else shutil.which("cec")
    if not found:
        raise Stop(MISSING, "no program cec beside the tools or on the path; $CEC can name it")
    return [found]


def other_program(name):
    """The words that call another program of the repository, `cec-opt` or `cec-prove`; none where it is not here."""
    crate = name.replace("-", "_")
    given = os.environ.get(crate.upper())
    if given:
        return shlex.split(given)
    built = os.path.normpath(os.path.join(os.path.dirname(os.path.realpath(__file__)), "..", "..", "crates", crate, "out", crate))
    beside = os.path.join(os.path.dirname(command()[0]), name)
    found = next((it for it in (built, beside, shutil.which(name)) if it and is_program(it)), None)
    return [found] if found else None


def is_program(name):
    """Whether a file is a program, and not the script of a repository that proves and builds it for more than an hour."""
    if not os.access(name, os.X_OK) or not os.path.isfile(name):
        return False
    return not os.path.exists(os.path.join(os.path.dirname(os.path.realpath(name)), "tools", "program"))


def ask(*words):
    """What the program answers to these words."""
    try:
        run = subprocess.run([*command(), *map(str, words)], stdin=subprocess.DEVNULL, capture_output=True, check=False)
    except OSError as error:
        raise Stop(MISSING, "cannot start the program: %s" % error) from error
    return Answer(run.returncode, run.stdout, run.stderr)


def ask_within(seconds, *words):
    """What some words answer within a time; none where they take longer, and an answer of its own where they do not start."""
    try:
        run = subprocess.Popen([*map(str, words)], stdin=subprocess.DEVNULL, stdout=subprocess.PIPE, stderr=subprocess.PIPE, start_new_session=True)
    except OSError:
        return Answer(MISSING, b"", b"")
    with run:
        try:
            out, err = run.communicate(timeout=seconds)
            return Answer(run.returncode, out, err)
        except subprocess.TimeoutExpired:
            return None
        finally:
            if run.poll() is None:
                # The program may be a script that has started others.
                os.killpg(run.pid, signal.SIGKILL)


def text_of(*words):
    """What the program writes for these words; its line and its status where it refuses."""
    answer = ask(*words)
    if answer.status == CYCLIC:
        # The wires of a cycle fill a screen; explain shows its statements.
        raise Stop(CYCLIC, "%s: the dependencies have a cycle; `explain` shows it, and %s" % (words[-1], IF_HARMLESS))
    if answer.status == STATIC:
        raise Stop(STATIC, "%s:%s; `explain` says more" % (words[-1], answer.err.decode("latin-1").strip().removeprefix("cec: ")))
    if answer.status != DONE:
        raise Stop(answer.status, answer.err.decode("latin-1").strip().removeprefix("cec: "))
    return answer.out.decode("latin-1")


def main_words(main):
    """The words that name a main module, where one is named."""
    return ["--main", main] if main else []


def read(name):
    """The text of a file, a character for each byte, or of standard input for `-`."""
    try:
        if name == "-":
            return sys.stdin.buffer.read().decode("latin-1")
        with open(name, "rb") as file:
            return file.read().decode("latin-1")
    except OSError as error:
        raise Stop(FILE, "cannot read %s" % name) from error


def write(text):
    """Writes a text to standard output, a byte for each character."""
    try:
        sys.stdout.buffer.write(text.encode("latin-1"))
        sys.stdout.buffer.flush()
    except OSError as error:
        # What is still in the buffer would fail once more at the end.
        sys.stdout = open(os.devnull, "w", encoding="latin-1")
        raise Stop(WRITE, "cannot write") from error


def write_file(name, text):
    """Writes a text to a file: whole, or not at all."""
    folder = os.path.dirname(os.path.abspath(name))
    try:
        handle, beside = tempfile.mkstemp(dir=folder, prefix=".%s." % os.path.basename(name))
        try:
            with os.fdopen(handle, "wb") as file:
                file.write(text.encode("latin-1"))
            mask = os.umask(0)
            os.umask(mask)
            os.chmod(beside, 0o666 & ~mask)
            os.replace(beside, name)
        except OSError:
            os.unlink(beside)
            raise
    except OSError as error:
        raise Stop(WRITE, "cannot write %s" % name) from error


def run_tool(name, main):
    """Runs a tool's main function and gives its status; a stop is one line on standard error."""
    try:
        return main()
    except Stop as stop:
        print("%s: %s" % (name, stop), file=sys.stderr)
        return stop.status
    except KeyboardInterrupt:
        return 130
