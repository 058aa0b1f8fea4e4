"""What Esterel V5 has and Pure Esterel as `cec` reads it has not: each form with the line of docs/from_v5.md about it.

`ROWS` repeats lines of that page; `checks/explained` compares the two, and asks the program about each form in its last
column. In the forms p, q and r are statements, e, a and b are events, and capital names are free.
"""
import re
from typing import NamedTuple

from tokens import readable_tokens


class Row(NamedTuple):
    """A line of docs/from_v5.md: the form of V5, the form here (empty where there is none), and a remark."""

    v5: str
    here: str
    remark: str = ""

    def words(self):
        """The line as one note."""
        if not self.here:
            return "`%s` is not Pure Esterel: %s" % (self.v5, self.remark)
        return "`%s` is written `%s`%s" % (self.v5, self.here, "; " + self.remark if self.remark else "")


ROWS = {
    "watching": Row("do p watching e", "abort p when e"),
    "watching immediate": Row("do p watching immediate e", "abort p when immediate e"),
    "timeout": Row("do p watching e timeout q end", "abort p when e do q end", "q runs where e came, and not where p ended"),
    "upto": Row("do p upto e", "abort p; halt when e", "it ends only at e"),
    "weak do": Row(
        "weak abort p when e do q end",
        "trap OVER in trap LATE in [p]; exit OVER || await e; exit LATE end; q end",
        "where p ends in the instant of e, q does not run",
    ),
    "weak case": Row(
        "weak abort p when case a do q case b do r end",
        "trap OVER in trap LATE in [p]; exit OVER || await [a or b]; exit LATE end;"
        " present case a do q case b do r end end",
        "the first case that holds is taken",
    ),
    "traps": Row(
        "trap T, U in p handle T do q handle U do r end",
        "trap OVER in trap U in trap T in [p]; exit OVER end; q; exit OVER end; r end",
        "of two traps that are left in the same instant the outer one wins",
    ),
    "await case immediate": Row(
        "await case immediate a do q case b do r end",
        "present a then q else await case a do q case b do r end end",
    ),
    "case immediate": Row(
        "abort p when case immediate a do q case b do r end",
        "present a then q else abort p when case a do q case b do r end end",
    ),
    "case count": Row(
        "abort p when case 2 a do q case b do r end",
        "signal SECOND in trap OVER in abort p when case SECOND do q case b do r end; exit OVER"
        " || await 2 a; emit SECOND end end",
        "a branch counts and emits what the case tests",
    ),
    "elsif": Row("present a then p elsif b then q end", "present case a do p case b do q end", "`else r` may follow the last case"),
    "copymodule": Row("copymodule M [signal A/X]", "run M [signal A/X]", "the older name"),
    "instance": Row("run N/M [signal A/X]", "run M [signal A/X]", "a run has no name of its own"),
    "run signals": Row("run M [signal A/X; signal B/Y]", "run M [signal A/X, B/Y]", "one `signal` begins the list; `;` separates lists of other kinds"),
    "run constant": Row("run M [signal A/X; constant 5/LIMIT]", "run M [signal A/X]", "only signals are renamed"),
    "pre": Row(
        "present pre(S) then p end",
        "signal WAS in loop present S then pause; emit WAS else pause end end || q end",
        "q is the whole body of the module, with `present WAS then p end` in it; the first branch remembers S for one instant",
    ),
    "sensor": Row("sensor TEMPERATURE : integer", "", "an input `TOO_HOT`, which the program around sets before each reaction"),
    "if": Row("if ?TEMPERATURE > 90 then p end", "", "`present TOO_HOT then p end`, with an input that the program around sets"),
    "var": Row("var N := 0 : integer in p end", "", "count by a delay (`await 5 MS`), or in the program around"),
    "constant": Row("constant LIMIT = 5 : integer", "", "write the number where it is used: `await 5 MS`"),
    "values": Row("output SPEED(integer), emit SPEED(3)", "", "write one output for each value"),
    "input value": Row("input KEY : integer", "", "one input for each value that matters, with a relation `KEY1 # KEY2`"),
    "local value": Row(
        "signal S : integer in p end", "", "one local signal for each value that matters, `signal S1, S2 in p end`; a local signal has no relation"
    ),
    "trap value": Row("trap T : integer in p end", "", "one trap for each value that matters, each inside another"),
    "value": Row("?SPEED", "", "the program around keeps values"),
    "exec": Row("exec TASK", "", "an output `TASK_START` and an input `TASK_DONE`; an abort adds an output `TASK_STOP`"),
    "call": Row("call PROCEDURE", "", "an output; the program around calls the procedure where it is present"),
    "type": Row("type T", "", "signals carry no values"),
    "function": Row("function F(integer) : integer", "", "the program around computes"),
    "procedure": Row("procedure P(integer)()", "", "the program around computes"),
    "task": Row("task T(integer)()", "", "an output that starts the task and an input that ends it"),
    "combine": Row("combine integer with +", "", "two emissions of a signal are one"),
}
# Words of V5 that are no words here, with their rows.
WORDS = {
    **{word: word for word in ("sensor", "if", "var", "call", "exec", "type", "constant", "function", "procedure", "task", "copymodule")},
    "return": "task",
    "combine": "combine",
}
# The word before a name, or before a list of names, with the row of a value after it.
VALUES = {
    "input": "input value", "inputoutput": "input value", "signal": "local value", "trap": "trap value", "exit": "trap value",
}


# The comparison of a signal with a value that a switch has: `A == 1`, also with brackets before it.
COMPARED = re.compile(r"[\s(\[]*([A-Za-z]\w*)\s*(==?|!=|/=|<>)\s*(0|1|true|false|present|absent)\b", re.IGNORECASE)


def test_words(comparison):
    """The test of a signal that is written in place of its comparison with a value."""
    is_present = (comparison[2] in ("=", "==")) == (comparison[3].lower() in ("1", "true", "present"))
    return comparison[1] if is_present else "[not %s]" % comparison[1]


def row_of_do(text, at):
    """The row of a `do` that begins a statement: the word that ends it says which; none where no such word follows."""
    depth, last = 0, None
    tokens = readable_tokens(text[at:])
    for token, after in zip(tokens, tokens[1:]):
        if token.kind == "do" and (last is None or last in ("", ";", "||", "[", "do", "then", "else", "in", "loop", "times")):
            depth += 1
        elif token.text in ("watching", "upto"):
            depth -= 1
            if depth == 0:
                return ROWS["upto"] if token.text == "upto" else ROWS[row_of_watching(text[at + token.start :], after)]
        last = token.text
    return None


def row_of_watching(rest, after):
    """The row of a `watching`, by what follows it."""
    if re.match(r"watching\s[^;|]*?\btimeout\b", rest):
        return "timeout"
    return "watching immediate" if after.kind == "immediate" else "watching"


def last_when_is_weak(before):
    """Whether the last `when` of some tokens belongs to a weak abort."""
    opened, is_weak = [], False
    for token, earlier in zip(before, [None, *before]):
        if token.kind in ("abort", "suspend"):
            opened.append(earlier is not None and earlier.kind == "weak")
        elif token.kind == "when":
            is_weak = bool(opened) and opened.pop()
    return is_weak


def row_of_case(before, now):
    """The row of a delay in a case, by the statement of the case."""
    if now.kind == "number":
        return ROWS["case count"]
    heads = [token.kind for token in before if token.kind in ("await", "when", "present")]
    if heads[-1:] == ["when"] and last_when_is_weak(before):
        return ROWS["weak case"]
    return ROWS["await case immediate" if heads[-1:] == ["await"] else "case immediate"]


def is_in_run(before):
    """Whether some tokens end in the renamings of a `run`."""
    kinds = [token.kind for token in before]
    opened = len(kinds) - 1 - kinds[::-1].index("[") if "[" in kinds else 0
    return opened > 1 and "]" not in kinds[opened:] and kinds[opened - 2] == "run"


def word_before(tokens):
    """The word before the list of names that ends some tokens, such as `input`; empty where they end with no name."""
    at = len(tokens)
    while at and tokens[at - 1].kind in ("name", ",", "#", "=>"):
        at -= 1
    return tokens[at - 1].kind if 0 < at < len(tokens) else ""


def row_at(text, at, expected):
    """The row for what is written at a syntax fault; none where it is no form of V5."""
    before, now = readable_tokens(text[:at])[:-1], readable_tokens(text[at:])[0]
    last = before[-1] if before else now
    if now.kind == "do" and "halt" in expected:
        return row_of_do(text, at)
    if now.kind in ("do", "case") and last_when_is_weak(before):
        return ROWS["weak do" if now.kind == "do" else "weak case"]
    if (now.kind == "," and len(before) > 1 and before[-2].kind == "trap") or (now.kind == "handle" and "end" in expected):
        return ROWS["traps"]
    if now.kind in ("number", "immediate") and last.kind == "case":
        return row_of_case(before, now)
    if now.kind == "(" and last.text == "pre":
        return ROWS["pre"]
    if now.kind == "/" and len(before) > 1 and before[-2].kind == "run":
        return ROWS["instance"]
    if is_in_run(before) and (now.kind == ";" or now.text in ("constant", "type", "function", "procedure", "task")):
        is_other = re.match(r";?\s*(constant|type|function|procedure|task)\b", text[at:])
        return ROWS["run constant" if is_other else "run signals"]
    if re.match(r"\w+\s*:=", text[at:]):
        return ROWS["var"]
    if now.kind in ("(", ":") and last.kind == "name" and word_before(before) not in ("run", "module"):
        return ROWS[VALUES.get(word_before(before), "values")]
    if now.text in ("elsif", "elseif", "elif") and "else" in expected:
        return ROWS["elsif"]
    if now.text == "timeout":
        return ROWS["timeout"]
    if now.text == "if" and (COMPARED.match(text, at + 2) or not ("halt" in expected and re.match(r"if\b[^;{]*?(\?|<|>|=)", text[at:]))):
        return None
    return ROWS[WORDS[now.text]] if now.text in WORDS else None
