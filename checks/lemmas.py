"""Reads the types of lemmas, with names resolved and binders numbered, to find those that several files have, and those that
another lemma gives by one substitution.

A lemma is a declaration of a file of `proofs/` that is no abbreviation; worked data in `proofs/worked/`, whose values may well
agree, and a function's own folder are left out. A name is resolved by the file's `use` lines; one of the toolchain's library
keeps its last part alone, since the library exports it from several modules; an abbreviation stands for its text.
"""

import collections
import re

TOKEN = re.compile(r'"(?:[^"\\]|\\.)*"|\.(?=\s)\s|[(){}\[\],;.]|[^\s(){}\[\],;."]+')
DECLARED = re.compile(r'^(abbrev )?(pub )?([^\s(){}\[\],;."]+) : ')
OTHER = ("use ", "mod ", "pub mod ", "pub use ", "module ", "record ", "pub record ", "data ", "pub data ", "unfolding ", "--")
MARKS = set("(){}[],;.:→")
LEFT_OUT = ("Answers.antt", "Invariants.antt", "Lib.antt")
LIBRARY = ("Rattle.std.", "lib.", "mathlib.", "native.")


def binders(tokens):
    """The names that a type binds, in the order in which they come, each with the name that stands for it."""
    names = {}
    for place, token in enumerate(tokens):
        end = place + 1
        if token in "({":
            while end < len(tokens) and tokens[end].strip() not in MARKS:
                end += 1
            if end < len(tokens) and tokens[end] == ":":
                found = tokens[place + 1 : end]
            else:
                found = []
        elif token == "λ":
            while end < len(tokens) and tokens[end].strip() not in {".", ":"}:
                end += 1
            found = [it for it in tokens[place + 1 : end] if it not in "()"]
        else:
            found = []
        for name in found:
            names.setdefault(name, f"v{len(names)}")
    return names


class ProofFile:
    """What a file of proofs declares, and what its `use` lines name."""

    def __init__(self, path, module):
        self.path, self.module = path, module
        self.lines = path.read_text().split("\n")
        self.used, self.declared, self.local = {}, {}, set()
        at = 0
        while at < len(self.lines):
            line = self.lines[at]
            use = re.match(r"^(?:pub )?use ([\w.]+)\.\{(.*)\}\s*$", line)
            if use:
                for name in use[2].split(","):
                    self.used[name.strip()] = f"{use[1]}.{name.strip()}"
            kind = re.match(r"^(?:pub )?(?:record|data) (\S+)", line)
            if kind:
                self.local.add(kind[1])
            found = None if line.startswith(OTHER) else DECLARED.match(line)
            at += 1
            if not found:
                continue
            begin, name = at - 1, found[3]
            while at < len(self.lines) and self.lines[at].startswith(" "):
                at += 1
            behind = at
            while at < len(self.lines) and (
                self.lines[at].startswith((" ", "]", "}", ")", "unfolding "))
                or self.lines[at].split(" ")[0] == name
                and not DECLARED.match(self.lines[at])
            ):
                at += 1
            text = " ".join(it.strip() for it in self.lines[begin:behind])
            body = " ".join(it.strip() for it in self.lines[behind:at]).replace(name, "self")
            self.declared[name] = (bool(found[1]), DECLARED.sub("", text), body)

    def resolved(self, name):
        """A name with its module, or the text that an abbreviation stands for."""
        if name in self.declared:
            short, _, _ = self.declared[name]
            return f"<{self.type_of(name)}>" if short else f"{self.module}.{name}"
        whole = self.used.get(name) or (f"{self.module}.{name}" if name in self.local else name)
        return f"std.{whole.rsplit('.', 1)[1]}" if whole.startswith(LIBRARY) else whole

    def type_of(self, name):
        """The type of a declaration, with names resolved and binders numbered."""
        short, text, body = self.declared[name]
        tokens = TOKEN.findall(f"{text} IS {body}" if short else text)
        names, parts, before = binders(tokens), [], ""
        for token in tokens:
            if token in names and before != ".":
                parts.append(names[token])
            elif before == "." or token.strip() in MARKS:
                parts.append(token.strip())
            else:
                parts.append(self.resolved(token))
            before = token
        return " ".join(parts)


def all_lemmas(top):
    """Each lemma, by its file and its name, with its type."""
    for path in sorted(top.glob("crates/*/proofs/**/*.antt")):
        inner = path.relative_to(top / "crates")
        if path.name in LEFT_OUT or "worked" in inner.parts:
            continue
        read = ProofFile(path, "Rattle." + ".".join(inner.with_suffix("").parts))
        for name, (short, _, _) in read.declared.items():
            if not short:
                yield f"{inner}: {name}", read.type_of(name)


def twice(lemmas):
    """Each type that lemmas of more than one file have, with these lemmas."""
    found = collections.defaultdict(list)
    for lemma, its_type in lemmas:
        found[its_type].append(lemma)
    return [them for them in found.values() if len({it.split(":")[0] for it in them}) > 1]


# ---- lemmas that are instances of others

OPENING, CLOSING = "({[", ")}]"
VARIABLE = re.compile(r"v\d+")
# A type with fewer words than this is an instance of too many others to mean anything.
FEWEST_WORDS = 3


def nested(tokens):
    """Tokens as a tree, in which brackets with what they hold are a tuple; none where brackets do not match."""
    stack = [[]]
    for token in tokens:
        if token in CLOSING:
            if len(stack) == 1:
                return None
            inner = tuple(stack.pop())
            stack[-1].append(inner)
        elif token in OPENING:
            stack.append([token])
        else:
            stack[-1].append(token)
    return stack[0] if len(stack) == 1 else None


def is_binder(node):
    """Whether a node binds variables."""
    return isinstance(node, tuple) and ":" in node


def premises_and_conclusion(its_type):
    """The premises of a lemma and its conclusion, without what binds variables."""
    parts = [[]]
    for node in nested(its_type.split(" ")) or []:
        if node == "→":
            parts.append([])
        else:
            parts[-1].append(node)
    left = [tuple(it for it in part if not (is_binder(it) and it[0] == "{")) for part in parts if not all(map(is_binder, part))]
    return left


def becomes(pattern, tree, values):
    """Whether a pattern becomes a tree where its variables have these values; the values of further ones are added."""
    if isinstance(pattern, str):
        return values.setdefault(pattern, tree) == tree if VARIABLE.fullmatch(pattern) else pattern == tree
    return isinstance(tree, tuple) and len(pattern) == len(tree) and all(becomes(p, t, values) for p, t in zip(pattern, tree))


def words_of(tree):
    """The words of a tree that are neither marks nor variables."""
    for node in tree:
        if isinstance(node, tuple):
            yield from words_of(node)
        elif node not in MARKS and not VARIABLE.fullmatch(node):
            yield node


def instances(lemmas):
    """Each lemma that another one gives by one substitution, after that other one: `GENERAL ~ INSTANCE`."""
    shapes = collections.defaultdict(list)
    for lemma, its_type in lemmas:
        parts = premises_and_conclusion(its_type)
        shapes[tuple(map(len, parts))].append((lemma, parts))
    for them in shapes.values():
        for general, pattern in them:
            if len(list(words_of(pattern))) < FEWEST_WORDS:
                continue
            for instance, parts in them:
                values = {}
                if general == instance or not all(becomes(p, t, values) for p, t in zip(pattern, parts)):
                    continue
                names = [it for it in values.values() if isinstance(it, str) and VARIABLE.fullmatch(it)]
                if len(set(names)) < len(values):
                    yield f"{general} ~ {instance}"
