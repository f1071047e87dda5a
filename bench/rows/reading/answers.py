"""The status and the text that a call of the program owes."""
from functools import lru_cache
from typing import NamedTuple

from . import benches, grammar, lines, machine, schedules
from .checker import check
from .grammar import program_of
from .lines import BadLine
from .schedules import Free, prints
from .steps import State
from .tokens import Refused, tokens
from .words import USAGE, Usage, options

LONGEST_PROGRAM, LONGEST_REPLAY = 2 ** 20, 2 ** 26
MOST_EVENTS = 2 ** 40
DIVIDE = b"---"
# A history of so many entries is long.
LONG = 20000


class Answer(NamedTuple):
    status: int
    output: str


def told(status, *texts):
    return Answer(status, "".join(text + "\n" for text in texts))


def answer(words, source):
    """The answer to these words and these bytes of standard input."""
    try:
        asked = options(words)
        return read(asked, source)
    except Usage:
        return told(2, USAGE)
    except Refused as refused:
        return refusal(refused.cause, refused.place)


def reads_source(words):
    """Whether a call with these words reads standard input."""
    try:
        return options(words)["command"] != "bench"
    except Usage:
        return False


def over(words, source, piece, read, write):
    """The answer where devices give and take so many bytes a call, and the call of each with this number, from 0, fails."""
    due = answer(words, source)
    # (the last read finds the end)
    if read is not None and reads_source(words) and read * piece < len(source) + piece:
        return Answer(4, "")
    if write is not None and write * piece < len(due.output):
        return Answer(5, due.output[:write * piece])
    return due


def refusal(cause, place):
    return told(1, "refused line %d column %d: %s" % (*place, cause))


def read(asked, source):
    """The answer of a command. A bench makes its own text, and the others read standard input."""
    if asked["command"] == "bench":
        return run(asked, benches.text(asked["kind"], asked["size"], asked["seed"]))
    replays = asked["command"] == "replay"
    if len(source) > (LONGEST_REPLAY if replays else LONGEST_PROGRAM):
        return told(8, "input too long")
    if replays:
        return replay(*divided(source))
    program = accepted(source)
    if asked["command"] == "check":
        return told(0, "accepted")
    return run(asked, source)


def accepted(text):
    """The accepted program that the text is."""
    program = program_of(tokens(text))
    check(program)
    return program


# Replays

def divided(source):
    """The program's text and the history's, divided by the first line that is exactly three dashes."""
    at = 0
    while at <= len(source):
        end = source.find(b"\n", at)
        end = len(source) if end < 0 else end
        if source[at:end] == DIVIDE:
            return source[:at], source[end + 1:]
        at = end + 1
    return source, b""


def replay(text, history):
    program = accepted(text)
    try:
        cores, steps, entries = lines.history(history)
    except BadLine as bad:
        return told(10, "bad history line %d" % bad.args)
    state = State(program, cores, steps)
    for count, entry in enumerate(entries, 1):
        if state.step(entry) is None:
            return told(9, "not legal at entry %d" % count)
    return told(0, "legal complete" if state.over else "legal open")


# Runs

def run(asked, text):
    """The answer of a run of an accepted program."""
    if asked["cores"] == 1:
        return run_alone(asked, core_of(text, asked["steps"], asked["events"]))
    if asked["counts"]:
        raise Free("the counts of several cores")
    if asked["events"] == 1:
        return run_one_event(asked, text)
    runs = [told_by(asked, made, length) for made in runs_of(text, asked["cores"], asked["steps"]) for length in lengths(made)]
    if any(one != runs[0] for one in runs):
        raise Free("the answer of a run of several cores")
    return runs[0]


@lru_cache(maxsize=100)
def core_of(text, steps, events):
    return machine.Core(accepted(text), steps, events)


@lru_cache(maxsize=100)
def runs_of(text, cores, steps):
    """Runs by each schedule; a long one by two of them."""
    program, runs = accepted(text), []
    for number, pick in enumerate(schedules.schedules()):
        if len(runs) < 2 or len(runs[0].entries) < LONG:
            runs.append(schedules.Run(program, cores, steps, number, pick))
    return runs


def run_alone(asked, core):
    """The answer of one core."""
    if core.state.over:
        status, last = 0, shown(core.state)
    elif core.trap:
        status, last = 3, [trap_line(core.entries[core.trap - 1])]
    else:
        status, last = 7, ["limit events core 0 clock %d" % core.clock]
        assert core.clock >= asked["events"], "one core stands still"
    counts = [core.counts_line()] if asked["counts"] else []
    return told(status, *prints(core.entries), *last, *history(asked, core.entries), *counts)


def run_one_event(asked, text):
    """Core 0 makes one event, the first action of main, which is a trap or not the end of the run. Others make one at most,
    and mark nothing."""
    core = core_of(text, asked["steps"], 1)
    if asked["history"] or core.trap:
        raise Free("the first event")
    return told(7, "limit events core 0 clock 1")


def lengths(made):
    """How many entries a run may have: once a task is trapped, those of the others may come or not."""
    return {made.trap, len(made.entries)} if made.trap else {len(made.entries)}


def told_by(asked, made, length):
    """The answer of several cores, of so many entries of this run."""
    # No run makes more events than this.
    if asked["events"] < MOST_EVENTS and asked["events"] <= 64 * (length + asked["cores"] ** 2):
        raise Free("the limit on events")
    if asked["history"] and not made.is_forced:
        raise Free("the history")
    entries = made.entries[:length]
    last = [trap_line(entries[made.trap - 1])] if made.trap else shown(made.state)
    return told(3 if made.trap else 0, *prints(entries), *last, *history(asked, entries))


def trap_line(entry):
    return "trap %s task %d.%d" % (entry.action.kind, *entry.task)


def history(asked, entries):
    text = lines.text_of(asked["cores"], asked["steps"], entries) if asked["history"] else ""
    return text.splitlines()


def shown(state):
    """The lines of the items `show`."""
    for item in state.program.items:
        if item.kind == "show":
            kind, name = state.meanings[item.name.text].kind, item.name.text
            yield " ".join(["%s %s:" % (kind, name)] + list(map(str, contents(state.memory, kind, name))))


def contents(memory, kind, name):
    if kind == "array":
        base = memory.bases[name]
        return [memory.words.get(base + place, 0) for place in range(memory.meanings[name].words.value)]
    if kind == "map":
        return ["%d=%d" % pair for pair in sorted(memory.maps[name].items())]
    return sorted(memory.sets[name]) if kind == "set" else memory.vectors[name]
