"""What the scripts that measure share: runs of a program with their time and memory, sources, events, and tables of Markdown."""
import os
import pathlib
import random
import re
import shutil
import subprocess

TOP = pathlib.Path(__file__).resolve().parent.parent
PROGRAM = TOP / "crates/cec/out/cec"
OPTIMIZER = pathlib.Path(os.environ.get("CEC_OPT") or TOP / "crates/cec_opt/out/cec_opt")
OPTIMIZED_BRANCHES = [10, 30, 100, 200, 400]
# How often the compiled text goes over the events, so that its start does not count.
ROUNDS = 200


def peak(words, folder):
    """The peak memory of a process in megabytes, as the command time of Debian tells it; None where that is missing."""
    time = shutil.which("time")
    if not time:
        return None
    run = subprocess.run([time, "-f", "%M", *map(str, words)], cwd=folder, stdout=subprocess.DEVNULL, stderr=subprocess.PIPE)
    return int(run.stderr.split()[-1]) * 1024 / 1e6


def measured(words, folder, repeats, out=None, limit=None):
    """The least processor time of a process, in seconds; None where it fails, or takes more than the limit."""
    words = (["prlimit", "--cpu=%d" % limit] if limit else []) + [str(word) for word in words]
    least = None
    for _ in range(repeats):
        with open(out or os.devnull, "wb") as sink:
            process = subprocess.Popen(words, cwd=folder, stdout=sink, stderr=subprocess.DEVNULL)
            _, status, usage = os.wait4(process.pid, 0)
        if status != 0:
            return None
        time = usage.ru_utime + usage.ru_stime
        least = time if least is None else min(least, time)
    return least


def shown(value, form):
    """A figure, or a line where there is none."""
    return "-" if value is None else form % value


def table(heads, rows):
    """A table of Markdown."""
    print("| " + " | ".join(heads) + " |")
    print("|" + "".join("---:|" if re.match(r"[\d.-]+$", cell) else "---|" for cell in rows[0]))
    for row in rows:
        print("| " + " | ".join(row) + " |")
    print()


def drawn(program, folder, branches):
    """A drawn source, its texts, and the number of its wires."""
    source = folder / ("drawn%d.strl" % branches)
    for words, name in (
        (["gen", "--start", "1", "--branches", branches], source),
        (["blif", source], source.with_suffix(".blif")),
        (["c", source], source.with_suffix(".c")),
        (["check", source], source.with_suffix(".counts")),
    ):
        measured([program] + words, folder, 1, name)
    return source, int(re.search(r"(\d+) wires", source.with_suffix(".counts").read_text()).group(1))


def event_loop(folder, text, inputs, events, rounds=ROUNDS, options=("-O2",)):
    """A C text as a program of its own that reacts to events, one after another, so many times; None without gcc."""
    if not shutil.which("gcc"):
        return None
    rows = ",".join("{" + ",".join(str(int(name in event)) for name in inputs) + "}" for event in events)
    main = ["int react(void);"] + ["extern int I_%s;" % name for name in inputs]
    main += ["static const char given[%d][%d] = {%s};" % (len(events), len(inputs), rows), "int main(void) {"]
    main += ["int sum = 0;", "for (int round = 0; round < %d; round++)" % rounds]
    main += ["for (int n = 0; n < %d; n++) {" % len(events)]
    main += ["I_%s = given[n][%d];" % (name, number) for number, name in enumerate(inputs)]
    main += ["sum += react();", "}", "return sum < 0;", "}", ""]
    (folder / "main.c").write_text("\n".join(main))
    built = measured(["gcc", "-std=c99", *options, "main.c", text, "-o", "compiled"], folder, 1)
    return folder / "compiled" if built is not None else None


def drawn_events(source, number, chances):
    """As many events, in which each input is present by chance: `NEXT` seldom, the others as often as is said."""
    inputs = re.search(r"^input (.*);$", source.read_text(), re.MULTILINE).group(1).split(", ")
    chance = random.Random(number)
    return inputs, [[name for name in inputs if chance.random() < (0.02 if name == "NEXT" else chances)] for _ in range(number)]


def events_of(source):
    """The inputs of an example, and the events of its trace, again and again."""
    trace = source.with_suffix(".trace")
    if not trace.exists() or "!reset" in trace.read_text():
        return None
    events = [event.split() for event in re.sub(r"%.*", "", trace.read_text()).split(";")[:-1]]
    return sorted({name for event in events for name in event}), events * (20_000 // len(events))


def sizes(folder, text, passes):
    """The latches, the and gates and their depth behind some passes of berkeley-abc."""
    script = "read_blif %s; strash; %sprint_stats" % (text, passes)
    told = subprocess.run(["berkeley-abc", "-q", script], cwd=folder, capture_output=True, text=True, check=False).stdout
    found = re.search(r"lat\s*=\s*(\d+)\s+and\s*=\s*(\d+)\s+lev\s*=\s*(\d+)", told)
    return " / ".join(found.groups()) if found else "-"
