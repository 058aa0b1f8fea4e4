"""The table of the kernel: how much of the time of `test_dimacs` goes to checking derivations, and how many hints are read in that time.

`perf` samples the program, and tells the share of the functions of sat_kernel. `gdb` counts the derivations and their hints: it stops at
`Kernel::implies`, whose arguments, a clause and the hints, have their lengths in the third and in the fifth register of a call."""
import os
import re
import shutil
import subprocess

from bench_search import FAMILIES, SEARCH
from bench_tools import table

# The families whose questions are asked, by the word that their names contain.
ASKED = ("200 variables", "holes", "adders", "multipliers", "random pairs")
BREAK = "break sat_kernel::kernel::Kernel::implies if (($calls = $calls + 1) && ($hints = $hints + $r8) && ($literals = $literals + $rdx) && 0)"
# A hint as text, as proofs in LRAT's form write it: a number of about five digits, and a space.
BYTES = 6


def counted(path, folder):
    """The derivations and the hints of the answer to a text."""
    script = ["set pagination off", "set $calls = 0", "set $hints = 0", "set $literals = 0", BREAK, f"run < {path} > {folder / 'answer'}",
              'printf "%lu %lu\\n", $calls, $hints']
    (folder / "script").write_text("\n".join(script) + "\n")
    run = subprocess.run(["gdb", "-q", "-batch", "-x", folder / "script", SEARCH], capture_output=True, text=True, check=True)
    return [int(number) for number in run.stdout.splitlines()[-1].split()]


def timed(path, folder):
    """The processor seconds of the answer to a text, and the share of the kernel in them."""
    with open(path, "rb") as source:
        process = subprocess.Popen([SEARCH], stdin=source, stdout=subprocess.DEVNULL)
        _, _, usage = os.wait4(process.pid, 0)
    with open(path, "rb") as source:
        subprocess.run(["perf", "record", "-q", "-o", folder / "samples", SEARCH], stdin=source, stdout=subprocess.DEVNULL, check=True)
    words = ["perf", "report", "-i", folder / "samples", "--stdio", "-q"]
    report = subprocess.run(words, capture_output=True, text=True, check=True).stdout
    share = sum(float(found) for found in re.findall(r"^\s*([\d.]+)%.*\bsat_kernel::", report, re.MULTILINE))
    return usage.ru_utime + usage.ru_stime, share / 100


def kernel_table(folder):
    """One row for each family; status 1 where a tool is missing."""
    missing = [tool for tool in ("gdb", "perf") if not shutil.which(tool)]
    if missing:
        print(f"bench: no {missing[0]} here")
        return 1
    rows = []
    for name, make in FAMILIES.items():
        if not any(word in name for word in ASKED):
            continue
        path = folder / "question.cnf"
        with open(path, "w") as sink:
            for count, clauses in make():
                sink.write(f"p cnf {count} {len(clauses)}\n" + "".join(" ".join(map(str, it)) + " 0\n" for it in clauses))
        (calls, hints), (seconds, share) = counted(path, folder), timed(path, folder)
        checking = seconds * share
        rows.append([name, "%.2f" % seconds, "%.0f %%" % (100 * share), "%.3f" % checking, f"{calls:,}", f"{hints:,}",
                     "%.0f" % (hints / checking / 1e6), "%.0f" % (hints * BYTES / checking / 1e6)])
    table(["questions", "s", "kernel", "kernel, s", "derivations", "hints", "million hints a second", "MB of hints a second"], rows)
    return 0
