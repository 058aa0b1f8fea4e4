"""Whether an output of a program is ever emitted: what cec-prove answers, or a search by berkeley-abc over the program's text; and a
run of the trace that one of them finds."""
import os
import re
import shutil
import subprocess
import tempfile
import time
from typing import NamedTuple

from blif import Latch, blif_of
from program import DONE, MISSING, UNDECIDED, USAGE, Stop, ask, main_words, other_program, read, text_of, write_file
from relations import check_pairs, forbidden_pairs
from traces import groups_of, trace_of

ABC = ("berkeley-abc", "yosys-abc", "abc")
READ = "read_blif asked.blif; strash; zero; "
# A trace of at most so many instants is looked for alone, for at most so many seconds.
SHORT_INSTANTS, SHORT_SECONDS = 50, 3
# Statuses of cec-prove.
PROVED, REFUTED, OPEN, NO_SIGNAL = 0, 20, 21, 22


def abc_program():
    """The first of abc's names that is here."""
    for name in ABC:
        if shutil.which(name):
            return name
    raise Stop(MISSING, "no berkeley-abc here")


def monitored(blif, name, pairs):
    """The text with one output: that NAME is emitted, and no event so far broke a relation."""
    tables = [([left, right, "_pair%d" % number], ["1%s 1" % value]) for number, (left, right, value) in enumerate(pairs)]
    broken = ["_pair%d" % number for number in range(len(pairs))]
    # A table has two inputs, since one of the profile has at most eight.
    so_far = "_before"
    for number, pair in enumerate(broken):
        tables.append(([so_far, pair, "_so_far%d" % number], ["1- 1", "-1 1"]))
        so_far = "_so_far%d" % number
    tables.append(([so_far, name, "_asked"], ["01 1"]))
    return blif._replace(outputs=["_asked"], latches=[*blif.latches, Latch(so_far, "_before", "0")], tables=blif.tables + tables)


def events_of_cex(text, inputs, last):
    """The events of a trace that abc found, up to an instant from 0, as lists of the inputs that are present."""
    present = set(re.findall(r"(\S+)@(\d+)=1", text))
    return [[name for name in inputs if (name, str(instant)) in present] for instant in range(last + 1)]


class Search:
    """A run of abc by a script, which ends by itself or is ended."""

    def __init__(self, folder, name, script):
        self.folder, self.name = folder, name
        words = [abc_program(), "-q", READ + script + "; write_cex -n %s.cex" % name]
        self.log = open(os.path.join(folder, name + ".log"), "w+", encoding="latin-1")
        self.run = subprocess.Popen(words, cwd=folder, stdin=subprocess.DEVNULL, stdout=self.log, stderr=subprocess.STDOUT)

    def answer(self):
        """What abc printed, read: `never`, or `found` with the inputs and the instant; none where it does not say."""
        self.log.seek(0)
        printed = self.log.read()
        if "Property proved" in printed:
            return "never", "", 0
        last = re.search(r"asserted in frame (\d+)", printed)
        return ("found", read(os.path.join(self.folder, self.name + ".cex")), int(last[1])) if last else None

    def end(self):
        if self.run.poll() is None:
            self.run.kill()
        self.run.wait()
        self.log.close()


def first_answer(folder, scripts, deadline):
    """The first answer of several runs of abc side by side, before a deadline; none where none of them says."""
    searches = [Search(folder, name, script) for name, script in scripts]
    try:
        waiting = list(searches)
        while waiting and time.monotonic() < deadline:
            time.sleep(0.01)
            for search in [it for it in waiting if it.run.poll() is not None]:
                waiting.remove(search)
                answer = search.answer()
                if answer:
                    return answer
        return None
    finally:
        for search in searches:
            search.end()


def abc_answer(folder, deadline):
    """What abc says of the text: that the output is never true; or in which instant it is, and by which inputs; or nothing."""
    seconds = max(1, int(deadline - time.monotonic()))
    short = [("short", "bmc3 -F %d -T %d" % (SHORT_INSTANTS, min(SHORT_SECONDS, seconds)))]
    both = [("proof", "scorr; dc2; pdr -T %d" % seconds), ("long", "bmc3 -S %d -T %d" % (SHORT_INSTANTS, seconds))]
    return first_answer(folder, short, deadline) or first_answer(folder, both, deadline)


def confirm(folder, source, main, output, events):
    """The events of a trace and the program's lines of it, up to the first line that has the output."""
    name = os.path.join(folder, "found.trace")
    write_file(name, trace_of(events))
    answer = ask("run", "--via", "blif", *main_words(main), source, name)
    lines = answer.out.decode("latin-1").splitlines()
    hits = [number for number, line in enumerate(lines, 1) if output in line.partition(" | ")[0].split(" ")]
    if answer.status != DONE or not hits:
        raise Stop(UNDECIDED, "the program does not confirm the trace: %s" % answer.err.decode("latin-1").strip())
    return events[: hits[0]], lines[: hits[0]]


class Verdict(NamedTuple):
    """That an output is never emitted, with no events; or events after which it is, with the program's lines; and who says so."""

    events: list
    lines: list
    by: str = "by berkeley-abc"


def decide(source, main, output, seconds):
    """Whether an output is ever emitted; a stop where that is not decided in time."""
    deadline = time.monotonic() + seconds
    blif = blif_of(text_of("blif", "--encode", *main_words(main), source))
    name = next((it for it in (output, output + ".out") if it in blif.outputs), None)
    if name is None or output == "_paused":
        raise Stop(USAGE, "no output %s" % output)
    pairs = forbidden_pairs(read(source), main)
    with tempfile.TemporaryDirectory() as folder:
        check_pairs(folder, source, main, pairs)
        write_file(os.path.join(folder, "asked.blif"), monitored(blif, name, pairs).text())
        answer = abc_answer(folder, deadline)
        if answer is None:
            raise Stop(UNDECIDED, "not decided in %d seconds" % seconds)
        verdict, found, last = answer
        if verdict == "never":
            return Verdict([], [])
        return Verdict(*confirm(folder, source, main, output, events_of_cex(found, blif.inputs, last)))


def proved(source, main, output, seconds):
    """What cec-prove answers about an output; a stop where it is not here, or where it does not decide in time."""
    words = other_program("cec-prove")
    if not words:
        raise Stop(MISSING, "no cec-prove here")
    try:
        call = [*words, "never", output, source, *main_words(main)]
        told = subprocess.run(call, stdin=subprocess.DEVNULL, capture_output=True, timeout=seconds, check=False)
    except subprocess.TimeoutExpired as late:
        raise Stop(UNDECIDED, "not decided in %d seconds" % seconds) from late
    line = told.stderr.decode("latin-1").strip().removeprefix("cec-prove: ")
    if told.returncode == PROVED:
        return Verdict([], [], "proved by cec-prove")
    if told.returncode == REFUTED:
        with tempfile.TemporaryDirectory() as folder:
            return Verdict(*confirm(folder, source, main, output, groups_of(told.stdout.decode("latin-1"))), "by cec-prove")
    if told.returncode == NO_SIGNAL:
        raise Stop(USAGE, "no output %s" % output)
    raise Stop(UNDECIDED if told.returncode == OPEN else told.returncode, line)


def proved_or_decided(source, main, output, seconds):
    """What cec-prove answers; where it is not here or does not decide, what berkeley-abc says."""
    try:
        return proved(source, main, output, seconds)
    except Stop as stop:
        if stop.status not in (UNDECIDED, MISSING):
            raise
        try:
            return decide(source, main, output, seconds)
        except Stop as other:
            # Where neither is here, the missing one is cec-prove.
            raise (other if stop.status == MISSING and other.status != MISSING else stop) from other
