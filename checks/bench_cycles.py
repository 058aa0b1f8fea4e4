"""The table of harmless cycles: programs of checks/corpus/cyclic of every size, by `cec-opt --source`, next to the same functions
written without a cycle.

Each text is run over a random trace, and its lines are compared with those of `cec run --via tri` of the source. Times are processor
seconds of the one process that compiles, whose limit is 120 seconds."""
import pathlib
import random
import re
import subprocess
import sys
import tempfile

from bench_tools import OPTIMIZER, PROGRAM, TOP, measured, table

LIMIT = 120
EVENTS = 500
HEAD = re.compile(r".*: constructive, (\d+) components, (\d+) cuts$")
SIZES = re.compile(r".*: \d+ inputs, \d+ outputs, (\d+) latches, (\d+) gates, depth (\d+)$")


def counted(source, folder):
    """The components and cuts, the latches, gates and depth, and the seconds, of a source; none where it is not compiled."""
    seconds = measured([OPTIMIZER, "check", "--source", source], folder, 1, folder / "counts", LIMIT)
    if seconds is None:
        return None, None, None
    first, second = (folder / "counts").read_text().splitlines()
    head, sizes = HEAD.match(first), SIZES.match(second)
    return head.groups() if head else None, sizes.groups(), seconds


def random_trace(source, folder):
    """A trace in which each input is present by chance."""
    inputs = re.search(r"^input (.*);$", source.read_text(), re.MULTILINE).group(1).split(", ")
    chance = random.Random(source.name)
    often = [chance.choice((0.05, 0.3, 0.7)) for _ in range(EVENTS)]
    events = [" ".join(name for name in inputs if chance.random() < part) + ";" for part in often]
    (folder / "trace").write_text("\n".join(events) + "\n")


def lines_of(words, folder):
    run = subprocess.run([str(word) for word in words], cwd=folder, capture_output=True, check=False)
    return run.stdout if run.returncode == 0 else None


def differs(source, folder):
    """Whether the text of a source has other lines than its reactions."""
    random_trace(source, folder)
    written = measured([OPTIMIZER, "blif", "--source", source], folder, 1, folder / "text", LIMIT)
    by_text = lines_of([PROGRAM, "exec", "--via", "blif", "text", "trace"], folder)
    by_source = lines_of([PROGRAM, "run", "--via", "tri", source, "trace"], folder)
    return written is None or by_text is None or by_text != by_source


def cycle_table(folder):
    """Prints the table, and ends with status 1 where lines differ."""
    subprocess.run([TOP / "checks/corpus/cyclic", folder / "sources"], check=True)
    rows, compared, wrong = [], 0, []
    for source in sorted((folder / "sources").glob("*_plain.strl"), key=lambda path: (path.name.split("_")[0], int(path.name.split("_")[1]))):
        name, size = source.name.split("_")[:2]
        cyclic = source.with_name(f"{name}_{size}.strl")
        head, sizes, seconds = counted(cyclic, folder)
        _, plain, plain_seconds = counted(source, folder)
        compared += sizes is not None
        if sizes and differs(cyclic, folder):
            wrong.append(cyclic.name)
        ours = [*(head or "--"), *(sizes or "---"), "-" if seconds is None else "%.2f" % seconds]
        rows.append([name, size, *ours, *(plain or "---"), "-" if plain_seconds is None else "%.2f" % plain_seconds])
    heads = ["program", "size", "components", "cuts", "latches", "gates", "depth", "s"]
    table([*heads, *("%s, no cycle" % head for head in heads[4:])], rows)
    print("bench: %d texts run over %d events, %d with other lines than the source" % (compared, EVENTS, len(wrong)))
    for name in wrong:
        print("bench: the text of %s has other lines than its source" % name)
    return 1 if wrong else 0


if __name__ == "__main__":
    with tempfile.TemporaryDirectory() as place:
        sys.exit(cycle_table(pathlib.Path(place)))
