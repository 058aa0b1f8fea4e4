"""The tables of two trials: would induction over more instants, or the relations of the inputs, leave less of a text of `cec-opt`?

Berkeley-abc does here what `cec-opt` lacks. It gets the text that `cec-opt blif` writes for each source of the corpus, plain and
encoded, and merges nets that are equal by induction over one, two and four instants (`scorr -F`). For sources with relations it gets the
relations as constraints too (`constr`, `scorr -c`), so that it may merge nets that are equal where the relations hold. Each time `dc2`
follows. The rows are sums of latches and AND gates over each half of the corpus."""
import pathlib
import re
import subprocess
import sys
import tempfile

from bench_tools import OPTIMIZER, PROGRAM, TOP, measured, table

INSTANTS = [1, 2, 4]
COUNTS = re.compile(r"lat\s*=\s*(\d+)\s+and\s*=\s*(\d+)")


def relations_of(text):
    """The relations of a source, each as pairs of an input and one that is present with it (True) or absent (False)."""
    bare = re.sub(r"%\{.*?\}%|%[^\n]*", "", text, flags=re.DOTALL)
    pairs = []
    for listed in re.findall(r"\brelation\b([^;]*);", bare):
        for relation in listed.split(","):
            names = [name.strip() for name in re.split(r"#|=>", relation)]
            if "=>" in relation:
                pairs.append((names[0], names[1], True))
            else:
                pairs += [(one, other, False) for number, one in enumerate(names) for other in names[:number]]
    return pairs


def constrained(text, pairs):
    """A BLIF text with an output more for each pair, which is true where the pair breaks its relation."""
    whole = text.replace("\\\n", " ")
    heads = " ".join("broken%d" % number for number in range(len(pairs)))
    rows = "".join(".names %s %s broken%d\n1%d 1\n" % (one, other, number, not with_it) for number, (one, other, with_it) in enumerate(pairs))
    return re.sub(r"^(\.outputs.*)$", lambda found: found.group(1) + " " + heads, whole, count=1, flags=re.MULTILINE).replace(".end", rows + ".end")


def counts_after(folder, name, passes):
    """The latches and AND gates of a text after these passes."""
    script = "read_blif %s; strash; %s; dc2; dc2; print_stats" % (name, passes)
    told = subprocess.run(["berkeley-abc", "-q", script], cwd=folder, capture_output=True, text=True, check=False).stdout
    latches, gates = COUNTS.findall(told)[-1]
    return int(latches), int(gates)


def trial(source, words, folder):
    """The counts after each number of instants, and with the relations where the source has some; None where it is refused."""
    if measured([PROGRAM, "blif", *words, source], folder, 1, folder / "given.blif") is None:
        return None
    measured([OPTIMIZER, "blif", "given.blif"], folder, 1, folder / "small.blif")
    by_instants = [counts_after(folder, "small.blif", "scorr -F %d" % number) for number in INSTANTS]
    text = (folder / "small.blif").read_text()
    inputs = re.search(r"^\.inputs(.*)$", text.replace("\\\n", " "), re.MULTILINE).group(1).split()
    pairs = [pair for pair in relations_of(source.read_text()) if pair[0] in inputs and pair[1] in inputs]
    if not pairs:
        return by_instants, None
    (folder / "constrained.blif").write_text(constrained(text, pairs))
    passes = "scorr; constr -N %d; scorr -c; constr -r; trim" % len(pairs)
    return by_instants, counts_after(folder, "constrained.blif", passes)


def summed(counts):
    return "%d / %d" % (sum(latches for latches, _ in counts), sum(gates for _, gates in counts))


def trial_tables(folder):
    """Prints both tables."""
    deeper, related = [], []
    for half in ("tune", "aside"):
        for form, words in (("plain", []), ("encoded", ["--encode"])):
            told = [trial(source.resolve(), words, folder) for source in sorted((TOP / "checks/corpus" / half).glob("*.strl"))]
            told = [it for it in told if it]
            deeper.append([half, form, "%d" % len(told), *(summed([it[0][k] for it in told]) for k in range(len(INSTANTS)))])
            some = [it for it in told if it[1]]
            related.append([half, form, "%d" % len(some), summed([it[0][0] for it in some]), summed([it[1] for it in some])])
    table(["half", "text", "sources", *("%d instants" % number for number in INSTANTS)], deeper)
    table(["half", "text", "sources with relations", "without", "with the relations"], related)
    return 0


if __name__ == "__main__":
    with tempfile.TemporaryDirectory() as place:
        sys.exit(trial_tables(pathlib.Path(place)))
