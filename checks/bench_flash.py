"""What the C texts of the examples take on small machines: bytes of flash and cycles of a reaction, for `bench --flash`."""
import pathlib
import re
import shutil
import subprocess
import tempfile

from bench_tools import OPTIMIZER, TOP, measured, shown, table

AVR = ["avr-gcc", "-mmcu=atmega328p", "-std=c99", "-Os"]
CORTEX = ["arm-none-eabi-gcc", "-mcpu=cortex-m0", "-mthumb", "-std=c99", "-Os"]
EMBED = TOP / "examples/embed"
# Over so many drawn events a reaction's cycles are counted.
EVENTS = 512


def read_tables(text):
    """The inputs, outputs, latches and tables of a BLIF text: latches as (next, name, initial), tables as (names, rows)."""
    inputs, outputs, latches, tables = [], [], [], []
    for line in text.replace("\\\n", " ").splitlines():
        words = line.split("#")[0].split()
        if words[:1] == [".inputs"]:
            inputs += words[1:]
        elif words[:1] == [".outputs"]:
            outputs += words[1:]
        elif words[:1] == [".latch"]:
            latches.append((words[1], words[2], words[-1]))
        elif words[:1] == [".names"]:
            tables.append((words[1:], []))
        elif words and not words[0].startswith("."):
            tables[-1][1].append(words)
    return inputs, outputs, latches, tables


def ordered(tables, known):
    """The tables, each behind those that it reads."""
    waiting, known = list(tables), set(known)
    while waiting:
        ready = [it for it in waiting if set(it[0][:-1]) <= known]
        yield from ready
        known |= {it[0][-1] for it in ready}
        waiting = [it for it in waiting if it[0][-1] not in known]


def c_of_blif(text):
    """A C text of a BLIF text, of the form of those of `cec c`: one variable for each input, latch and table."""
    inputs, outputs, latches, tables = read_tables(text)
    names = {name: "s%d" % k for k, (_, name, _) in enumerate(latches)} | {name: "i%d" % k for k, name in enumerate(inputs)}
    steps = list(ordered(tables, names))
    names |= {it[0][-1]: "g%d" % k for k, it in enumerate(steps)}
    lines = ["static int s%d = %s;" % (k, first) for k, (_, _, first) in enumerate(latches)]
    shown_as = {name: name.removesuffix(".out") for name in outputs if name != "_paused"}
    lines += ["int I_%s;" % name for name in inputs] + ["int O_%s;" % name for name in shown_as.values()]
    lines += ["int react(void) {"] + ["int i%d;" % k for k in range(len(inputs))]
    lines += ["int g%d;" % k for k in range(len(steps))] + ["int n%d;" % k for k in range(len(latches))]
    lines += ["i%d = I_%s; I_%s = 0;" % (k, name, name) for k, name in enumerate(inputs)]
    for reads, rows in steps:
        terms = []
        for row in rows:
            cells = zip(reads[:-1], row[0] if len(row) > 1 else "")
            terms.append(" & ".join(names[name] if cell == "1" else "!" + names[name] for name, cell in cells if cell != "-") or "1")
        lines.append("%s = %s;" % (names[reads[-1]], " | ".join("(%s)" % term for term in terms) or "0"))
    lines += ["n%d = %s;" % (k, names[step]) for k, (step, _, _) in enumerate(latches)]
    lines += ["O_%s = %s;" % (short, names[name]) for name, short in shown_as.items()]
    lines += ["s%d = n%d;" % (k, k) for k in range(len(latches))]
    return "\n".join(lines + ["return %s;" % names["_paused"], "}", ""])


def flash(folder, compiler, text):
    """The bytes that a file of C takes in flash: its code and the first values of its variables; None without the compiler."""
    if not shutil.which(compiler[0]) or measured([*compiler, "-c", text, "-o", "size.o"], folder, 1) is None:
        return None
    told = subprocess.run([compiler[0].replace("gcc", "size"), "size.o"], cwd=folder, capture_output=True, text=True, check=True).stdout
    return sum(map(int, told.splitlines()[1].split()[:2]))


def flash_by_hand(folder, compiler, name):
    """The bytes that the reaction takes that was written by hand for an example; None where there is none."""
    if not shutil.which(compiler[0]) or not (EMBED / (name + "_by_hand.c")).exists():
        return None
    words = [*compiler, "-I.", "-c", EMBED / (name + "_by_hand.c"), "-o", "hand.o"]
    if measured(words, folder, 1) is None:
        return None
    told = subprocess.run([compiler[0].replace("gcc", "nm"), "-S", "hand.o"], cwd=folder, capture_output=True, text=True, check=True).stdout
    return int(re.search(r"^\w+ (\w+) T %s_react$" % name, told, re.MULTILINE).group(1), 16)


def main_of_events(inputs, head, call):
    """A main function for an AVR that draws events, and writes the most cycles that a reaction takes to its serial line."""
    lines = ["#include <avr/interrupt.h>", "#include <avr/io.h>", "#include <avr/sleep.h>", *head]
    lines += ["static void put(char c) { while (!(UCSR0A & 1 << UDRE0)) { } UDR0 = (unsigned char)c; }", "int main(void) {"]
    lines += ["unsigned long draw = 1; unsigned most = 0, place, event; UCSR0B = 1 << TXEN0; TCCR1B = 1 << CS10;"]
    lines += ["for (event = 0; event < %d; event++) { unsigned start, taken;" % EVENTS]
    lines += ["draw = draw * 1103515245ul + 12345ul; %s((draw >> 16 & 3u) == 0);" % name for name in inputs]
    lines += ["start = TCNT1; (void)%s; taken = TCNT1 - start; if (taken > most) most = taken; }" % call]
    lines += ["for (place = 10000; place; place /= 10) put((char)('0' + most / place % 10));", "put('\\n');"]
    return "\n".join(lines + ["cli(); sleep_enable(); sleep_cpu(); return 0; }", ""])


def simulated_cycles(folder, text, main):
    """The cycles that a main function for an AVR writes; None without compiler or simulator."""
    (folder / "counting.c").write_text(main)
    if not shutil.which("simavr") or not shutil.which(AVR[0]):
        return None
    if measured([*AVR, "-I.", "counting.c", text, "-o", "counting.elf"], folder, 1) is None:
        return None
    words = ["simavr", "-m", "atmega328p", "-f", "16000000", "counting.elf"]
    told = subprocess.run(words, cwd=folder, capture_output=True, text=True, timeout=300, check=False)
    found = re.search(r"(\d{5})", told.stdout + told.stderr)
    return int(found.group(1)) if found else None


def cycles(folder, text):
    """The most cycles that a reaction of a C text takes on an AVR over drawn events."""
    inputs = re.findall(r"^int I_(\w+);$", text.read_text(), re.MULTILINE)
    head = ["int react(void);"] + ["extern int I_%s;" % name for name in inputs]
    return simulated_cycles(folder, text, main_of_events(["I_%s = " % name for name in inputs], head, "react()"))


def cycles_by_hand(folder, name):
    """The most cycles of a reaction that was written by hand for an example, over the same events; None where there is none."""
    text = EMBED / (name + "_by_hand.c")
    if not text.exists():
        return None
    inputs = re.findall(r"^void (%s_set_\w+)\(" % name, text.read_text(), re.MULTILINE)
    return simulated_cycles(folder, text, main_of_events(inputs, ['#include "%s.h"' % name], name + "_react()"))


def cycles_of_instruction(name, operands):
    """The cycles of one instruction of a Cortex-M0, where a jump is taken; None for one that this table does not have."""
    listed = operands.count(",") + 1
    if name in ("push", "pop", "ldmia", "stmia"):
        return 1 + listed - (name in ("ldmia", "stmia")) + 3 * (name == "pop" and "pc" in operands)
    if re.match(r"(ldr|str)(|b|h|sb|sh)$", name):
        return 2
    if re.match(r"b(|eq|ne|cs|cc|mi|pl|vs|vc|hi|ls|ge|lt|gt|le)(\.n)?$|bx$", name):
        return 3
    return 1 if re.match(r"(mov|add|adc|sub|sbc|rsb|neg|and|orr|eor|bic|mvn|lsl|lsr|asr|ror|tst|cmp|cmn|sxt|uxt|nop)", name) else None


def ways_on(body):
    """Of each instruction of a function its cycles, and those that may come behind it, each with what it takes less or more."""
    rows = re.findall(r"^ *(\w+):\t([a-z.]+)\t?(.*)$", body, re.MULTILINE)
    for number, (at, name, operands) in enumerate(rows):
        taken, jump = cycles_of_instruction(name, operands), re.match(r"(\w+) <", operands)
        ways = [(int(jump.group(1), 16), taken)] if jump else []
        if name != "bx" and name not in ("b", "b.n") and not (name == "pop" and "pc" in operands) and number + 1 < len(rows):
            ways.append((int(rows[number + 1][0], 16), 1 if jump else taken))
        yield int(at, 16), (taken, ways)


def longest(steps, at):
    """The most cycles from an instruction on; None where it calls, or may come to itself again."""
    most, waiting = {}, [at]
    while waiting:
        taken, ways = steps[waiting[-1]]
        missing = [it for it, _ in ways if it not in most]
        if taken is None or any(it in waiting or it not in steps for it in missing):
            return None
        if not missing:
            most[waiting[-1]] = max([cost + most[it] for it, cost in ways], default=taken)
            waiting.pop()
        waiting += missing[:1]
    return most[at]


def counted_cycles(folder, text, function="react"):
    """The cycles of the longest way through a function on a Cortex-M0; None without the compiler, or where it calls or loops."""
    if not shutil.which(CORTEX[0]) or measured([*CORTEX, "-I.", "-c", text, "-o", "size.o"], folder, 1) is None:
        return None
    words = [CORTEX[0].replace("gcc", "objdump"), "-d", "--no-show-raw-insn", "size.o"]
    told = subprocess.run(words, cwd=folder, capture_output=True, text=True, check=True).stdout
    first, body = re.search(r"^(\w+) <%s>:\n(.*?)(?:\n\n|\Z)" % function, told, re.DOTALL | re.MULTILINE).groups()
    return longest(dict(ways_on(body)), int(first, 16))


def flash_texts(program, folder, source):
    """The C texts of an example: of `cec`, of `cec-opt` from the plain and from the encoded BLIF text, and of abc's net."""
    texts = {name: folder / (name + ".c") for name in ["before", "plain", "encoded", "abc"]}
    measured([program, "c", source], folder, 1, texts["before"])
    for form, words in [("plain", []), ("encoded", ["--encode"])]:
        measured([program, "blif", *words, source], folder, 1, folder / (form + ".blif"))
        measured([OPTIMIZER, "c", folder / (form + ".blif")], folder, 1, texts[form])
    script = "read_blif plain.blif; strash; scorr; dc2; dc2; logic; sop -d; write_blif abc.blif"
    measured(["berkeley-abc", "-q", script], folder, 1)
    texts["abc"].write_text(c_of_blif((folder / "abc.blif").read_text()))
    measured([TOP / "tools/c_interface", texts["before"], "--prefix", source.stem, "--to", folder], folder, 1)
    return list(texts.values())


def flash_rows(program, folder):
    """For each example the bytes of flash of its C texts, and the cycles."""
    for source in sorted((TOP / "examples").glob("*.strl")):
        texts = flash_texts(program, folder, source)
        hand = EMBED / (source.stem + "_by_hand.c")
        bytes_taken = [flash(folder, it, text) for it in (AVR, CORTEX) for text in texts]
        bytes_taken[4:4] = [flash_by_hand(folder, AVR, source.stem)]
        bytes_taken += [flash_by_hand(folder, CORTEX, source.stem)]
        taken = [cycles(folder, text) for text in texts] + [cycles_by_hand(folder, source.stem)]
        taken += [counted_cycles(folder, text) for text in texts]
        taken += [counted_cycles(folder, hand, source.stem + "_react") if hand.exists() else None]
        yield [[source.stem] + [shown(it, "%d") for it in row] for row in (bytes_taken, taken)]


def flash_tables(program):
    """Prints the bytes of flash and the cycles of the examples."""
    tools = [AVR[0], CORTEX[0], "simavr", "berkeley-abc"]
    for tool in [it for it in tools if not shutil.which(it)]:
        print("bench: no %s here, so its columns are open" % tool)
    if not shutil.which("berkeley-abc") or not OPTIMIZER.exists():
        print("bench: skipped, it wants berkeley-abc and the built cec-opt (./cec-opt builds it)")
        return
    with tempfile.TemporaryDirectory() as name:
        rows = list(flash_rows(program, pathlib.Path(name)))
    columns = ["`cec c`", "`cec-opt c`", "encoded", "abc", "by hand"]
    for number in range(2):
        heads = ["source"] + [device + ": " + it for device in ("AVR", "M0") for it in columns]
        table(heads, [row[number] for row in rows])
