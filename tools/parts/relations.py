"""The relations of a source's main module: the events that they forbid, as pairs. The program is asked about each pair."""
import os
from concurrent.futures import ThreadPoolExecutor

from program import TRACE, UNDECIDED, Stop, ask, main_words, write_file
from source import modules_of
from tokens import Unread
from traces import trace_of


def forbidden_pairs(text, main):
    """What the relations of the main module forbid: pairs of a signal that is present and one that is present or absent."""
    try:
        modules = modules_of(text)
    except Unread as error:
        raise Stop(UNDECIDED, "the relations are not read: %s" % error) from error
    module = next(it for it in modules if main in (None, it.name.name))
    found = []
    for kind, names in module.relations:
        names = [it.name for it in names]
        if kind == "=>":
            found.append((names[0], names[1], "0"))
        else:
            found += [(left, right, "1") for at, right in enumerate(names) for left in names[:at]]
    # A signal forbids nothing to itself.
    return list(dict.fromkeys(pair for pair in found if pair[0] != pair[1]))


def check_pairs(folder, source, main, pairs):
    """Asks the program to refuse an event for each pair, so that a pair of this reading is one of the program's too."""
    def is_refused(numbered):
        number, (left, right, value) = numbered
        name = os.path.join(folder, "pair%d.trace" % number)
        write_file(name, trace_of([[left, right] if value == "1" else [left]]))
        answer = ask("run", "--via", "blif", *main_words(main), source, name)
        return answer.status == TRACE and b"breaks relation" in answer.err
    with ThreadPoolExecutor(os.cpu_count()) as asking:
        for (left, right, _), refused in zip(pairs, asking.map(is_refused, enumerate(pairs))):
            if not refused:
                raise Stop(UNDECIDED, "the program does not refuse %s with %s" % (left, right))
