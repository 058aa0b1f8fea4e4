"""What the checks of tools/ share: the program that they call, runs of tools, and simulations of netlists in Verilog."""
import os
import pathlib
import re
import shlex
import shutil
import subprocess
import sys
import time

TOP = pathlib.Path(__file__).resolve().parent.parent
BUILT = TOP / "crates/cec/out/cec"
EXAMPLES = TOP / "examples"
SECONDS = 120


def program(check, count=None):
    """The words that call the program: the argument's, `$CEC`, or the built one. Where it is not built, the check ends, with
    what it found so far."""
    words = shlex.split(os.environ.get("CEC", "")) or [str(BUILT)]
    if len(sys.argv) > 1:
        words = [os.path.abspath(sys.argv[1])]
    if not shutil.which(words[0]):
        print("%s: skipped, the program is not built here (./cec builds it)" % check)
        sys.exit(1 if count and count.failed else 0)
    os.environ["CEC"] = shlex.join(words)
    return words


def optimizer():
    """The words that call the built cec-opt, or `$CEC_OPT`; none where it is not there."""
    words = shlex.split(os.environ.get("CEC_OPT", "")) or [str(TOP / "crates/cec_opt/out/cec_opt")]
    return words if shutil.which(words[0]) else None


def prover():
    """The words that call the built cec-prove, or `$CEC_PROVE`; none where it is not there."""
    words = shlex.split(os.environ.get("CEC_PROVE", "")) or [str(TOP / "crates/cec_prove/out/cec_prove")]
    return words if shutil.which(words[0]) else None


def program_file(folder, words, name="program"):
    """One executable file that is a program."""
    file = folder / name
    file.write_text('#!/bin/sh\nexec %s "$@"\n' % " ".join(words))
    file.chmod(0o755)
    return file


def has(check, *tools):
    """Whether all these tools are here; one line about each that is not."""
    missing = [tool for tool in tools if not shutil.which(tool)]
    for tool in missing:
        print("%s: skipped, no %s here" % (check, tool))
    return not missing


def run(words, text="", folder=None, timeout=300):
    """A run of some words, over a text on standard input."""
    return subprocess.run(
        list(map(str, words)), input=text, cwd=folder, capture_output=True, text=True, errors="replace", timeout=timeout, check=False
    )


def run_on_terminal(words, folder=None, timeout=300):
    """The same with no input, where standard error is a terminal."""
    seen, terminal = os.openpty()
    told = subprocess.run(
        list(map(str, words)), stdin=subprocess.DEVNULL, cwd=folder, stdout=subprocess.PIPE, stderr=terminal, text=True, timeout=timeout, check=False
    )
    os.write(terminal, b"\n.")
    os.close(terminal)
    shown = b""
    while not shown.endswith(b"\r\n."):
        shown += os.read(seen, 65536)
    os.close(seen)
    told.stderr = shown[:-3].decode(errors="replace").replace("\r\n", "\n")
    return told


def tool(name, *words, text="", folder=None):
    """A run of a script of tools/."""
    return run([TOP / "tools" / name, *words], text, folder)


def counter(bits):
    """A source with a counter of some bits over A, which emits BAD when it is full."""
    names = ["A", *("C%d" % number for number in range(1, bits)), "BAD"]
    runs = "\n||\n".join("run BIT [signal %s/IN, %s/NEXT]" % pair for pair in zip(names, names[1:]))
    bit = "module BIT:\ninput IN;\noutput NEXT;\nloop await 2 IN; emit NEXT end\nend module\n"
    return "module M:\ninput A;\noutput BAD;\nsignal %s in\n%s\nend\nend module\n%s" % (", ".join(names[1:-1]), runs, bit)


def groups_of(trace):
    """The groups of a trace, each a list of names; a reset is its one word."""
    return [group.split() for group in re.sub(r"%[^\n]*", "", trace).split(";")[:-1]]


def traced(folder=EXAMPLES):
    """The examples that have a trace and its lines."""
    return [it for it in sorted(folder.glob("*.strl")) if it.with_suffix(".trace").exists()]


def ports_of(blif):
    """The model, the inputs and the outputs of a text of `cec blif`."""
    def words(head):
        line = re.search(r"^\.%s(.*)$" % head, blif, re.MULTILINE)
        return line.group(1).split() if line else []
    return words("model")[0], words("inputs"), words("outputs")


def bench(blif, trace, reset=None):
    """A test bench in Verilog: it clocks the module over the groups of a trace and prints its outputs in each instant."""
    model, inputs, outputs = ports_of(blif)
    given = inputs + ([reset] if reset else [])
    ports = [".clk(clk)"] + [".\\%s (i%d)" % port for port in zip(given, range(len(given)))]
    ports += [".\\%s (o%d)" % port for port in zip(outputs, range(len(outputs)))]
    lines = ["module bench;", "reg clk = 0;"] + ["reg i%d = 0;" % number for number in range(len(given))]
    lines += ["wire o%d;" % number for number in range(len(outputs))]
    lines += ["%s tested(%s);" % (model, ", ".join(ports)), "initial begin"]
    for group in groups_of(trace):
        present = [reset] if group == ["!reset"] else group
        lines += ["i%d = %d;" % (number, name in present) for number, name in enumerate(given)] + ["#1;"]
        if group != ["!reset"]:
            values = ", ".join("o%d" % number for number in range(len(outputs)))
            lines += ['$display("%s", %s);' % ("%b" * len(outputs), values)]
        lines += ["clk = 1; #1; clk = 0; #1;"]
    return "\n".join(lines + ["$finish;", "end", "endmodule", ""])


def lines_of(blif, printed):
    """The lines of answers that the printed values of the outputs stand for."""
    names = [name.removesuffix(".out") for name in ports_of(blif)[2]]
    lines = ""
    for values in re.findall(r"^[01x]+$", printed, re.MULTILINE):
        present = [name for name, value in zip(names[:-1], values) if value == "1"]
        lines += " ".join(present or ["-"]) + (" | paused\n" if values[-1] == "1" else " | ended\n")
    return lines


def simulated(folder, blif, netlist, trace, models=(), reset=None):
    """The lines of a module in Verilog over a trace, or what went wrong."""
    (pathlib.Path(folder) / "bench.v").write_text(bench(blif, trace, reset))
    # The cells of an iCE40 have default values at their ports, which iverilog does not know.
    words = ["iverilog", "-g2012", "-DNO_ICE40_DEFAULT_ASSIGNMENTS", "-o", "bench.vvp", "bench.v", netlist, *models]
    built = run(words, folder=folder)
    if built.returncode != 0:
        return built.stderr
    return lines_of(blif, run(["vvp", "-n", "bench.vvp"], folder=folder).stdout)


class Terminal:
    """A terminal of tmux with one program in it, on a socket of its own."""

    def __init__(self, socket, words, columns=110):
        self.base = ["tmux", "-S", socket, "-f", "/dev/null"]
        call = "CEC=%s %s; echo status $?; sleep 100" % (shlex.quote(os.environ.get("CEC", "")), shlex.join(map(str, words)))
        run([*self.base, "new-session", "-d", "-x", columns, "-y", "40", call])

    def press(self, *keys):
        run([*self.base, "send-keys", *keys])

    def resize(self, columns):
        run([*self.base, "resize-window", "-x", columns])

    def screen(self, *words):
        return run([*self.base, "capture-pane", "-p", *words]).stdout

    def shows(self, *texts):
        """Whether the screen comes to show all these texts."""
        until = time.time() + SECONDS
        while time.time() < until:
            seen = self.screen()
            if all(text in seen for text in texts):
                return True
            time.sleep(0.1)
        return False

    def end(self):
        run([*self.base, "kill-server"])


class Count:
    """The complaints of a check."""

    def __init__(self, check):
        self.check, self.failed, self.looked = check, 0, 0

    def wants(self, what, is_right, shown=""):
        """Takes up one look; a complaint says what was wanted and what came."""
        self.looked += 1
        if not is_right:
            self.failed += 1
            print("%s: not so: %s%s" % (self.check, what, ":\n%s" % (shown,) if shown else ""))

    def same(self, what, found, wanted):
        """Takes up a comparison."""
        self.wants(what, found == wanted, "%s\n(wanted)\n%s" % (found, wanted))

    def end(self):
        """The status of the check, with its last line."""
        print("%s: %s: %d looks" % (self.check, "FAILED" if self.failed else "ok", self.looked))
        return 1 if self.failed else 0
