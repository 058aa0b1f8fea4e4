#!/usr/bin/env python3
"""The repository's own checks: quick looks that no proof makes. Ends with status 1 where one finds something.

With `--table`, writes the maps of README and docs/architecture.md anew, from crates.txt and the crates' pages.
"""

import pathlib
import re
import shutil
import subprocess
import sys

import lemmas
import style

TOP = pathlib.Path(__file__).resolve().parent.parent


def tracked():
    """The files of the repository, as git lists them; none where git is missing."""
    listed = subprocess.run(
        ["git", "ls-files", "-z"], cwd=TOP, capture_output=True, check=True
    )
    return [TOP / name for name in listed.stdout.decode().split("\0") if name]


def lines_of_crates():
    """The names in crates.txt, in the order of its lines, each with those of the crates that it stands on."""
    lines = []
    for line in (TOP / "crates.txt").read_text().splitlines():
        name, _, below = line.split("#")[0].partition(":")
        if name.strip():
            lines.append((name.split()[0], below.split()))
    names = {name for name, _ in lines}
    return [(name, [it for it in below if it in names]) for name, below in lines]


def crates():
    """The names in crates.txt, in the order of its lines."""
    return [name for name, _ in lines_of_crates()]


def layers():
    """The layers of crates.txt in its order: each with its prefix, what it does, and its crates."""
    found = []
    for line in (TOP / "crates.txt").read_text().splitlines():
        head = re.match(r"# (\w+_): (.*)", line)
        if head:
            found.append((head[1], head[2], []))
        elif ":" in line and not line.startswith("#"):
            found[-1][2].append(line.partition(":")[0].split()[0])
    return found


def crates_are_in_layers():
    """Each crate's name begins with its layer's prefix (the program `cec` is the layer's word), it uses crates above it in
    the list alone, and `X_laws` is next to `X`."""
    found = []
    place = {name: number for number, name in enumerate(crates())}
    for prefix, _, names in layers():
        for name in names:
            if not f"{name}_".startswith(prefix):
                found.append(f"crates.txt: {name} is in the section {prefix}")
            about = name.removesuffix("_laws")
            if about != name and place.get(about) != place[name] - 1:
                found.append(f"crates.txt: {name} is not next to {about}")
    for name, below in lines_of_crates():
        found += [f"crates.txt: {name} is above {it}, which it uses" for it in below if place[it] > place[name]]
    return found


CITES = re.compile(
    r"\b[DTWR][0-9]{1,2}(\.[0-9]+)?\b"
    r"|\b[Dd]ocument 0[0-9]"
    r"|\b0[1-4]-(scope|theorems|requests|formats)"
    r"|\b[Rr]ow [0-9]+"
    r"|\.\./shared"
    r"|\bpapers/"
    r"|\bissue #?[0-9]"
)
SKIPPED = {"checks/repository.py"}
READ = {".rt", ".antt", ".md", ".edit", ".txt", ".sh", ".py", ".strl", ""}


def stands_alone():
    """No line of code, specification, document or commit message cites what is not here."""
    found = []
    for path in tracked():
        name = path.relative_to(TOP).as_posix()
        if name in SKIPPED or path.suffix not in READ or not path.is_file():
            continue
        text = path.read_text(errors="replace")
        for number, line in enumerate(text.splitlines(), 1):
            if CITES.search(line):
                found.append(f"{name}:{number}: {line.strip()[:100]}")
    log = subprocess.run(
        ["git", "log", "--format=%h %B"], cwd=TOP, capture_output=True, check=True
    )
    for line in log.stdout.decode(errors="replace").splitlines():
        if CITES.search(line):
            found.append(f"commit message: {line.strip()[:100]}")
    return found


def first_sentence(name):
    """The first sentence of a crate's page, without its full stop, and with links as plain names."""
    page = TOP / "crates" / name / "README.md"
    parts = page.read_text().split("\n\n") if page.exists() else []
    text = " ".join(parts[1].split()) if len(parts) > 1 else ""
    text = re.sub(r"\[`?(\w+)`?\]\([^)]*\)", r"`\1`", text)
    return re.split(r"\.(?= [A-Z`]|$)", text)[0]


def section_of_crates():
    """The lines of docs/architecture.md from its first layer on: each layer with a table of its crates."""
    uses = dict(lines_of_crates())
    lines = []
    for prefix, what, names in layers():
        lines += [f"### `{prefix}`", "", what, "", "| Crate | What it is | Uses |", "|---|---|---|"]
        for name in names:
            below = ", ".join(f"`{it}`" for it in uses[name]) or "none"
            lines.append(f"| [`{name}`](../crates/{name}/README.md) | {first_sentence(name)} | {below} |")
        lines.append("")
    return lines


def map_of_layers():
    """The rows of README's map: each layer with what it does and its crates."""
    rows = ["| Layer | What it does | Crates |", "|---|---|---|"]
    for prefix, what, names in layers():
        rows.append(f"| `{prefix}` | {what} | {', '.join(f'[`{it}`](crates/{it}/README.md)' for it in names)} |")
    return rows


MAPS = [("docs/architecture.md", "### `", section_of_crates), ("README.md", "| Layer |", map_of_layers)]


def with_map(page, begins, lines):
    """The page's lines with these in place of its map, which begins at the first line that begins so and ends before the next
    heading of the page's second level, or for a table at its last row."""
    old = (TOP / page).read_text().split("\n")
    first = next((number for number, line in enumerate(old) if line.startswith(begins)), None)
    if first is None:
        return None
    is_table = begins.startswith("|")
    last = first
    while last < len(old) and (old[last].startswith("|") if is_table else not old[last].startswith("## ")):
        last += 1
    return old[:first] + lines + old[last:]


def crates_are_introduced():
    """The maps of README and docs/architecture.md have the layers and crates of crates.txt, in its order, with the first
    sentence of each crate's page and the crates that it uses; and each crate has a `//!` head in its root file."""
    found = []
    for name in crates():
        folder = TOP / "crates" / name / "src"
        root = folder / "lib.rt" if (folder / "lib.rt").exists() else folder / "main.rt"
        if not root.exists() or not root.read_text().startswith("//!"):
            found.append(f"crates/{name}: the root file has no `//!` head")
    for page, begins, lines in MAPS:
        wanted = with_map(page, begins, lines())
        if wanted is None or (TOP / page).read_text().rstrip("\n") != "\n".join(wanted).rstrip("\n"):
            found.append(f"{page}: its map is not that of crates.txt (checks/repository.py --table writes it)")
    return found


def write_table():
    """Writes the maps of README and docs/architecture.md."""
    for page, begins, lines in MAPS:
        wanted = with_map(page, begins, lines())
        if wanted:
            (TOP / page).write_text("\n".join(wanted).rstrip("\n") + "\n")


LINKED_CRATE = re.compile(r"crates/(\w+)")


def pages_name_crates_that_are():
    """Each crate that a page, a check or a tool names by its folder is there."""
    found = []
    for path in tracked():
        name = path.relative_to(TOP).as_posix()
        if path.suffix not in READ or not path.is_file() or name.startswith("crates/") and path.suffix != ".md":
            continue
        for number, line in enumerate(path.read_text(errors="replace").splitlines(), 1):
            for crate in LINKED_CRATE.findall(line):
                if "_" in crate and not (TOP / "crates" / crate).is_dir():
                    found.append(f"{name}:{number}: no crate {crate}")
    return found


EXPORTED = re.compile(r"^pub use ([\s\S]*?);", re.M)
DECLARED = re.compile(r"^pub (?:const )?(?:fn|struct|enum|trait|type|const) (\w+)", re.M)
DEFINED = re.compile(r"^(?:(?:abbrev )?pub (?:abbrev |record |data )?|(?:record|data) pub )([^\s:({]+)\s*[:({]", re.M)
# Crates of target languages may use one word for one role: the crate says of which language.
TARGETS = ("blif_", "csub_", "vlog_")


def public_words():
    """Each public word with the crates that define it: what a root file exports, and the definitions that a reader of the
    theorem must believe."""
    words = {}
    ours = set(crates())
    for name in crates():
        folder = TOP / "crates" / name
        root = folder / "src" / "lib.rt"
        exported = set()
        for item in EXPORTED.findall(root.read_text()) if root.exists() else []:
            if item.split("::")[0] not in ours:
                listed = re.search(r"\{([\s\S]*)\}", item)
                parts = listed[1].split(",") if listed else [item]
                exported |= {re.split(r"::| as ", part.strip())[-1].strip() for part in parts}
        declared = {it for path in folder.glob("src/**/*.rt") for it in DECLARED.findall(path.read_text())}
        believed = [path.read_text() for path in folder.glob("specs/**/*.antt")]
        defined = {it for text in believed if text.startswith("-- To believe:") for it in DEFINED.findall(text)}
        for word in (exported & declared) | (defined - {"use", "mod"}):
            words.setdefault(word, set()).add(name)
    return words


def words_have_one_meaning():
    """No public word has meanings in two crates, except for target languages and the words that checks/shared_words.txt lists
    with a reason, each of which must still be needed."""
    listed = set()
    for line in (TOP / "checks" / "shared_words.txt").read_text().splitlines():
        if not line.startswith("#"):
            listed |= set(line.rpartition(":")[2].split())
    shared = {}
    for word, names in public_words().items():
        groups = {"a target" if name.startswith(TARGETS) else name for name in names}
        if len(groups) > 1:
            shared[word] = names
    found = [f"{word} is defined in {', '.join(sorted(names))}" for word, names in sorted(shared.items()) if word not in listed]
    return found + [f"checks/shared_words.txt: {word} has one meaning now" for word in sorted(listed - set(shared))]


FREE_FUNCTION = re.compile(r"^pub fn (\w+)(?:<[^(]*>)?\(([^)]*)\)([^{;]*)", re.M)


def functions_have_callers():
    """Each public function that computes something is called by another crate that is no test, or is listed in
    checks/uncalled.txt with a reason, which must still be needed. (A law is a function without parameters that computes
    nothing: its caller is the reader.)"""
    code = {name: "\n".join(re.sub(r"//.*", "", it.read_text()) for it in (TOP / "crates" / name / "src").rglob("*.rt"))
            for name in crates()}
    listed = {}
    for line in (TOP / "checks" / "uncalled.txt").read_text().splitlines():
        if not line.startswith("#"):
            word, _, reason = line.partition(": ")
            listed[word] = reason
    uncalled = set()
    for name in crates():
        root = TOP / "crates" / name / "src" / "lib.rt"
        if not root.exists() or name.startswith("test_"):
            continue
        for function, parameters, rest in FREE_FUNCTION.findall(code[name]):
            handed = re.search(rf"\b{function}\b", "".join(EXPORTED.findall(root.read_text())))
            is_law = not parameters.strip() and "->" not in rest.partition("ensures")[0]
            called = re.compile(rf"\b{function}\b")
            if handed and not is_law and not any(called.search(text) for other, text in code.items()
                                                 if other != name and not other.startswith("test_")):
                uncalled.add(f"{name}::{function}")
    found = [f"{word} is called by no other crate" for word in sorted(uncalled - listed.keys())]
    return found + [f"checks/uncalled.txt: {word} has a caller, or is gone" for word in sorted(listed.keys() - uncalled)]


# The libraries that the product uses.
LIBRARIES = ("indexmap", "itoa", "smallvec", "thiserror")

# A public type whose name says that it is a fault, with what it derives.
FAULT = re.compile(r"((?:#\[[^\n]*\]\n)*)pub (?:enum|struct) (\w*(?:Fault|Error|Refusal|NoMemory|Stop))\b")

# Such types without messages of their own, and why.
WITHOUT_MESSAGE = {
    "base_reader::Fault": "a place in a list of tokens, which each reader turns into a fault of its own",
    "base_reader::ReadError": "the same, or out of memory",
    "base_types::FileFault": "the programs write its line, with the name of the file",
    "base_types::NoMemory": "one value, whose line the programs write",
    "base_types::SinkFault": "one value, whose line the programs write",
    "base_types::Stop": "either a fault of a type parameter, which has the message, or out of memory",
    "est_expand::ExpandFault": "a scope fault, which has the message, a limit, or out of memory",
    "csub_guard_read::NameFault": "stays in its crate",
    "cec_prove_commands::InputFault": "a part of an outcome, of which the program writes a line",
    "vlog_read::NameFault": "stays in its crate",
}


def libraries_are_used():
    """Each of the libraries is listed by a crate and named in its code."""
    found = []
    listed = {}
    for line in (TOP / "crates.txt").read_text().splitlines():
        name, colon, below = line.split("#")[0].partition(":")
        if colon:
            listed[name] = [it for it in below.split() if it in LIBRARIES]
    for library in LIBRARIES:
        if not any(library in below for below in listed.values()):
            found.append(f"no crate uses {library}")
    for name, below in listed.items():
        code = "".join(it.read_text() for it in (TOP / "crates" / name / "src").rglob("*.rt"))
        if name != "est_expand":  # its proofs see the table in `NameSet`
            found += [f"{name} lists {library} and does not use it" for library in below if f"use {library}::" not in code]
    return found


def faults_have_messages():
    """Each public fault type derives its messages by thiserror, or is listed above with a reason that still holds."""
    bare = set()
    for name in crates():
        for path in (TOP / "crates" / name / "src").rglob("*.rt"):
            for attributes, fault in FAULT.findall(path.read_text()):
                if not re.search(r"derive\([^)]*\bError\b", attributes):
                    bare.add(f"{name}::{fault}")
    found = [f"{word} derives no messages" for word in sorted(bare - WITHOUT_MESSAGE.keys())]
    return found + [f"{word} is listed without need" for word in sorted(WITHOUT_MESSAGE.keys() - bare)]


def lemmas_are_said_once():
    """No two files of proofs have a lemma of the same type, and no lemma is an instance of another one that is not listed in
    checks/lemma_instances.txt: see checks/lemmas.py."""
    found = list(lemmas.all_lemmas(TOP))
    lines = (TOP / "checks" / "lemma_instances.txt").read_text().splitlines()
    known, made = {it for it in lines if it and not it.startswith("#")}, set(lemmas.instances(found))
    new = [f"{it}: the second is an instance of the first" for it in sorted(made - known)]
    gone = [f"checks/lemma_instances.txt: {it}: no longer so, remove the line" for it in sorted(known - made)]
    return [", ".join(them) for them in lemmas.twice(found)] + new + gone


def edits_are_named():
    """A must-fail edit's name says the wrong body in words."""
    found = []
    for name in crates():
        edits = [edit for part in ("must-fail", "edits") for edit in sorted((TOP / "crates" / name / part).glob("*.edit"))]
        for edit in edits:
            words = edit.stem.split("_")
            if len(words) < 2 or not all(re.fullmatch(r"[a-z]+", word) for word in words):
                found.append(f"{edit.relative_to(TOP)}: not a name in words")
    return found


def edits_apply():
    """Each old text of an edit stands in its file exactly once, also in edits/, where the gate does not look."""
    found = []
    for edit in sorted(TOP.glob("crates/*/edits/*.edit")):
        text = old = ""
        for line in edit.read_text().splitlines():
            key, _, rest = line.partition(": ")
            if key == "file":
                path = edit.parent.parent / rest.strip()
                text = path.read_text() if path.exists() else ""
            elif key == "old":
                old = rest
                if text.count(old) != 1:
                    found.append(f"{edit.relative_to(TOP)}: its old text does not stand once: {old.strip()}")
            elif key == "new":
                text = text.replace(old, rest)
    return found


def handles_are_none():
    """The file HANDLES holds its one line."""
    line = "Handles allowed: none.\n"
    return [] if (TOP / "HANDLES").read_text() == line else ["HANDLES: not its one line"]


def columns(name):
    """The columns that a line of this file may have; none where that is not said."""
    if name.endswith(".rt") and "/src/" in name:
        return 120
    if name.endswith(".antt") and "/specs/" in name:
        return 120
    if name.endswith(".antt") and "/proofs/" in name:
        return 160
    return None


TEXT = re.compile(r'^\s*(b"|#\[tactic|.*codes ".*\\n.*")')


def lines_are_short():
    """No line is longer than its file's columns, but for a written text in quotes, and the forms of an attribute."""
    found = []
    for path in tracked():
        name = path.relative_to(TOP).as_posix()
        limit = columns(name)
        if limit is None or not path.is_file():
            continue
        for number, line in enumerate(path.read_text().splitlines(), 1):
            if len(line) > limit and not TEXT.match(line):
                found.append(f"{name}:{number}: {len(line)} columns")
    return found


def pages_are_whole():
    """Each crate's page says what is proved, what is tested, and what is neither."""
    found = []
    for name in crates():
        page = TOP / "crates" / name / "README.md"
        text = page.read_text() if page.exists() else ""
        for head in ("Proved", "Tested", "Neither"):
            if f"\n## {head}\n" not in text:
                found.append(f"crates/{name}/README.md: no part `{head}`")
    return found


PROOF_NAMES = re.compile(r"^(?:pub )?use Rattle\.(\w+)\.proofs\.([A-Z]\w*)\.\{(.*)\}", re.M)
PROOF_RULES = re.compile(r"\busing\((?:[^()]*\b)?(\w+)::proofs::(\w+)::(\w+)")


def exports_are_listed():
    """What other crates use of a crate's proofs by name is what its `proofs/Exports.antt` lists; all of `base_facts` is for others."""
    found, listed, used = [], set(), set()
    ours = set(crates()) - {"base_facts"}
    for path in sorted(TOP.glob("crates/*/proofs/**/*.antt")) + sorted(TOP.glob("crates/*/src/**/*.rt")):
        name = path.relative_to(TOP).as_posix()
        crate, text = path.relative_to(TOP / "crates").parts[0], path.read_text()
        if path.suffix == ".rt":
            uses = PROOF_RULES.findall(text)
        else:
            uses = PROOF_NAMES.findall(text)
        for other, module, names in uses:
            words = {word.split(" as ")[0].strip() for word in names.split(",")}
            if path.name == "Exports.antt":
                listed |= {(crate, word) for word in words}
            elif other in ours and other != crate:
                if module != "Exports":
                    found.append(f"{name}: takes from {other}/proofs/{module}, not from its Exports")
                used |= {(other, word) for word in words}
    found += [f"crates/{crate}/proofs/Exports.antt: no other crate uses {word}" for crate, word in sorted(listed - used)]
    return found


def texts_are_plain():
    """Texts that people read have no finding of style that is new: see checks/style.py."""
    return style.new_findings()


CHECKS = [
    ("the repository stands alone", stands_alone, "git"),
    ("every crate is in its layer", crates_are_in_layers, None),
    ("every crate is introduced", crates_are_introduced, None),
    ("pages name crates that are there", pages_name_crates_that_are, "git"),
    ("one word has one meaning", words_have_one_meaning, None),
    ("public functions have callers", functions_have_callers, None),
    ("libraries are used", libraries_are_used, None),
    ("faults have messages", faults_have_messages, None),
    ("every edit is named in words", edits_are_named, None),
    ("every edit has its text", edits_apply, None),
    ("no handle is allowed", handles_are_none, None),
    ("lines are short", lines_are_short, "git"),
    ("every page is whole", pages_are_whole, None),
    ("texts are plain", texts_are_plain, "git"),
    ("each lemma is said once", lemmas_are_said_once, None),
    ("what other crates use is exported", exports_are_listed, None),
]


def main():
    if sys.argv[1:] == ["--table"]:
        write_table()
        return 0
    failed = 0
    for title, check, tool in CHECKS:
        if tool and not shutil.which(tool):
            print(f"checks: skipped, no {tool} here: {title}")
            continue
        found = check()
        print(f"checks: {'ok' if not found else 'FAILED'}: {title}")
        for line in found:
            print(f"  {line}")
        failed += bool(found)
    print(f"checks: {len(CHECKS) - failed} of {len(CHECKS)} ok or skipped")
    return 1 if failed else 0


if __name__ == "__main__":
    sys.exit(main())
