"""The style of what people read: pages, and the comments of code and definitions.

Each file may have at most as many findings of a kind as `checks/style_known.txt` lists, so new text has none, and old text
gets better. `python3 checks/style.py` prints all findings of the files that are named after it, or the sums of all;
`--baseline` writes the list anew, which may only shrink.
"""

import collections
import pathlib
import re
import shutil
import subprocess
import sys

TOP = pathlib.Path(__file__).resolve().parent.parent
KNOWN = TOP / "checks" / "style_known.txt"
WORDS_OF_A_SENTENCE = 40
LINES = {"README.md": 120}

# Words that are wrong in every context, each with what to write.
WORDS = {
    r"behind": "after, following",
    r"stands? (?:on|in|there)|stood (?:on|in)": "is, depends on, is in",
    r"likewise": "also, in the same way",
    r"so many as|as many as there": "N, the same number of",
    r"want of memory": "out of memory",
    r"but for|all but": "except",
    r"is told|are told|tells of|told of": "reports, states",
    r"is to be|are to be": "must",
    r"besides|beside it": "also, in addition",
    r"made whole": "in one piece",
    r"parted": "split",
    r"is had|has it all": "describes, exists",
    r"that which|of which this": "(rewrite)",
}
WRONG = [(re.compile(rf"\b(?:{words})\b", re.IGNORECASE), better) for words, better in WORDS.items()]


def page_text(text):
    """The prose of a page: without blocks of code, tables and names in backquotes."""
    text = re.sub(r"^```.*?^```$", "", text, flags=re.MULTILINE | re.DOTALL)
    lines = ["" if line.startswith("|") else line for line in text.split("\n")]
    return re.sub(r"`[^`]*`", "x", "\n".join(lines))


def comment_text(text, mark):
    """The comments of code or definitions, each run of lines a paragraph."""
    lines = []
    for line in text.split("\n"):
        found = re.match(rf"\s*{mark}[/!]?(?: |$)(.*)", line)
        lines.append(found[1] if found else "")
    return re.sub(r"`[^`]*`", "x", "\n".join(lines))


def prose(path):
    """What people read in a file; nothing of files that are not read so."""
    name = path.relative_to(TOP).as_posix()
    text = path.read_text(errors="replace")
    if name.endswith(".md"):
        return page_text(text)
    if name.endswith(".rt") and "/src/" in name:
        return comment_text(text, "//")
    if name.endswith(".antt") and "/specs/" in name:
        return comment_text(text, "--")
    return ""


def sentences(text):
    """The sentences of a text, each as its words."""
    for paragraph in re.split(r"\n\s*\n|\n(?=[-*#] |\d+\. )", text):
        for sentence in re.split(r"(?<=[.!?:])\s+", " ".join(paragraph.split())):
            yield sentence.split()


def findings(path):
    """What is to be written otherwise in a file: kinds with the places where they are found."""
    text = prose(path)
    found = collections.defaultdict(list)
    for pattern, better in WRONG:
        for match in pattern.finditer(text):
            line = text.count("\n", 0, match.start()) + 1
            found["words"].append(f"{line}: `{match[0]}`: write {better}")
    for words in sentences(text):
        if len(words) > WORDS_OF_A_SENTENCE:
            found["long"].append(f"{len(words)} words: {' '.join(words[:8])} ..")
    return found


def files():
    """The files of the repository that people read."""
    listed = subprocess.run(["git", "ls-files", "-z", "*.md", "*.rt", "*.antt"], cwd=TOP, capture_output=True, check=True)
    return [TOP / name for name in listed.stdout.decode().split("\0") if name and (TOP / name).is_file()]


def known():
    """How many findings each file may have, by file and kind."""
    counts = {}
    for line in KNOWN.read_text().splitlines() if KNOWN.exists() else []:
        if not line.startswith("#"):
            name, kind, count = line.split()
            counts[name, kind] = int(count)
    return counts


def misspelt():
    """What Debian's codespell finds, where it is installed."""
    if not shutil.which("codespell"):
        return []
    pages = [str(path) for path in files() if path.suffix == ".md"]
    words = "crate,upto,nets,ors,ands,clos,inout,ot,te,fo,wit,pase,ue,nd,sie,blif,numer,ba"
    told = subprocess.run(["codespell", "-L", words, *pages], cwd=TOP, capture_output=True, text=True, check=False)
    return [line.removeprefix(f"{TOP}/") for line in told.stdout.splitlines()]


def new_findings():
    """Where a file has more findings than the list allows, with those it has; pages that are too long; misspelt words."""
    allowed, found = known(), misspelt()
    for path in files():
        name = path.relative_to(TOP).as_posix()
        for kind, places in findings(path).items():
            most = allowed.get((name, kind), 0)
            if len(places) > most:
                found.append(f"{name}: {len(places)} findings of style, {most} known: {'; '.join(places[:4])}")
    for name, most in LINES.items():
        count = len((TOP / name).read_text().splitlines())
        if count > most:
            found.append(f"{name}: {count} lines, more than {most}")
    return found


def write_baseline():
    """Writes the list of what is known, with no count above the present one."""
    before, lines = known(), []
    for path in files():
        name = path.relative_to(TOP).as_posix()
        for kind, places in sorted(findings(path).items()):
            most = min(len(places), before.get((name, kind), 0)) if before else len(places)
            if most:
                lines.append(f"{name} {kind} {most}\n")
    KNOWN.write_text("# Findings of style that older text still has: file, kind, count. checks/style.py --baseline writes this.\n" + "".join(lines))


def main():
    if sys.argv[1:] == ["--baseline"]:
        write_baseline()
        return 0
    paths = [pathlib.Path(name).resolve() for name in sys.argv[1:]]
    for path in paths:
        for kind, places in findings(path).items():
            for place in places:
                print(f"{path.relative_to(TOP)}: {kind}: {place}")
    if not paths:
        sums = collections.Counter()
        for path in files():
            for kind, places in findings(path).items():
                sums[path.suffix, kind] += len(places)
        for (suffix, kind), count in sorted(sums.items()):
            print(f"{suffix} {kind}: {count}")
    return 0


if __name__ == "__main__":
    sys.exit(main())
