"""The table of properties: cec-prove next to berkeley-abc, on the sources of the corpus with observers, on the examples, and on
circuits with an assertion.

Each question is whether a signal is never present. berkeley-abc gets the encoded BLIF text with the relations as tables, and of a
circuit its text; it runs `bmc3`, up to 50 instants or three seconds, and then `scorr; dc2; pdr`. Times are processor seconds of each
process, whose limit is 60 seconds."""
import os
import pathlib
import re
import resource
import subprocess
import sys
import tempfile

from bench_tools import PROGRAM, TOP, table

sys.path.insert(0, str(TOP / "tools" / "parts"))
os.environ.setdefault("CEC", str(PROGRAM))
from blif import blif_of  # noqa: E402
from program import read, text_of  # noqa: E402
from properties import monitored  # noqa: E402
from relations import forbidden_pairs  # noqa: E402

PROVER = pathlib.Path(os.environ.get("CEC_PROVE") or TOP / "crates/cec_prove/out/cec_prove")
LIMIT = 60
WITHIN = (1, 10, 60)
ABC = "read_blif asked.blif; strash; zero; bmc3 -F 50 -T 3"
ABC_PROOF = "read_blif asked.blif; strash; zero; scorr; dc2; pdr -T %d" % LIMIT
ANSWERS = {0: "never", 20: "reached"}
# Outgoing signals of the examples that are observers.
EXAMPLES = [("bus", "BAD"), ("bus", "UNASKED")]


def timed(words, folder):
    """The standard output, status, processor seconds and peak megabytes of a process within the limit."""
    with open(folder / "out", "w+b") as out:
        process = subprocess.Popen(["prlimit", "--cpu=%d" % LIMIT, *map(str, words)], cwd=folder, stdout=out, stderr=subprocess.DEVNULL,
                                   stdin=subprocess.DEVNULL)
        _, status, usage = os.wait4(process.pid, 0)
        out.seek(0)
        printed = out.read().decode("latin-1")
    return printed, os.waitstatus_to_exitcode(status), usage.ru_utime + usage.ru_stime, usage.ru_maxrss / 1e3


def ours(source, signal, folder):
    """The answer of cec-prove, its seconds, and its megabytes."""
    form = ["--text"] if source.suffix == ".blif" else []
    _, status, seconds, peak = timed([PROVER, "never", signal, source, *form], folder)
    return ANSWERS.get(status), seconds, peak


def asked_text(source, signal):
    """The text with one output, which is true where the signal is present after events that meet the relations."""
    if source.suffix == ".blif":
        return monitored(blif_of(source.read_text()), signal, []).text()
    blif = blif_of(text_of("blif", "--encode", str(source)))
    name = signal if signal in blif.outputs else signal + ".out"
    return monitored(blif, name, forbidden_pairs(read(str(source)), None)).text()


def theirs(source, signal, folder):
    """The answer of berkeley-abc, its seconds, and its megabytes."""
    (folder / "asked.blif").write_text(asked_text(source, signal))
    seconds, peak = 0.0, 0.0
    for script in (ABC, ABC_PROOF):
        printed, _, took, room = timed(["berkeley-abc", "-q", script], folder)
        seconds, peak = seconds + took, max(peak, room)
        if "Property proved" in printed:
            return "never", seconds, peak
        if re.search(r"asserted in frame (\d+)", printed):
            return "reached", seconds, peak
    return None, seconds, peak


def questions(folder):
    """The questions of each part: a name, a source, and a signal."""
    subprocess.run([TOP / "checks/corpus/properties", folder / "watched"], check=True, stdout=subprocess.DEVNULL)
    parts = [("examples", [(name + " " + signal, TOP / "examples" / (name + ".strl"), signal) for name, signal in EXAMPLES])]
    for half in ("tune", "aside"):
        parts.append((half, [(path.stem, path, "VIOLATED") for path in sorted((folder / "watched" / half).glob("*.strl"))]))
    subprocess.run([TOP / "checks/corpus/asserted", folder / "circuits"], check=True)
    for half in ("tune", "aside"):
        parts.append(("circuits, " + half, [(path.stem, path, "BAD") for path in sorted((folder / "circuits" / half).glob("*.blif"))]))
    return parts


def asked(part, folder):
    """The answers of both to the questions of a part."""
    found = []
    for name, source, signal in part:
        found.append((name, *ours(source, signal, folder), *theirs(source, signal, folder)))
    return found


def count(answers, at, seconds):
    """How many answers came within a time."""
    return str(sum(row[at] is not None and row[at + 1] <= seconds for row in answers))


def never_table(folder):
    """Prints the tables, and ends with status 1 where two answers contradict each other."""
    resource.setrlimit(resource.RLIMIT_CORE, (0, 0))
    rows, slow, wrong = [], [], []
    for part, asking in questions(folder):
        answers = asked(asking, folder)
        for who, at in (("cec-prove", 1), ("berkeley-abc", 4)):
            never = sum(row[at] == "never" for row in answers)
            reached = sum(row[at] == "reached" for row in answers)
            rows.append([part, who, str(len(answers)), str(never), str(reached), *(count(answers, at, limit) for limit in WITHIN),
                         "%.1f" % sum(row[at + 1] for row in answers), "%.0f" % max(row[at + 2] for row in answers)])
        for name, our, time, _, their, abc_time, _ in answers:
            if None not in (our, their) and our != their:
                wrong.append(name)
            if our is None or (time > 0.1 and time > 10 * abc_time):
                slow.append([name, our or "-", "%.2f" % time, their or "-", "%.2f" % abc_time])
    table(["part", "by", "questions", "never", "reached", *("in %d s" % limit for limit in WITHIN), "s", "MB"], rows)
    if slow:
        table(["question", "cec-prove", "s", "berkeley-abc", "s"], slow)
    for name in wrong:
        print("bench: the answers to %s contradict each other" % name)
    return 1 if wrong else 0


if __name__ == "__main__":
    with tempfile.TemporaryDirectory() as place:
        sys.exit(never_table(pathlib.Path(place)))
