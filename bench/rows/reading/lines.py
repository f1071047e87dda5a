"""The text of a history."""
import functools
import re
from dataclasses import dataclass
from typing import NamedTuple, Optional, Tuple

from . import tasks
from .checker import OPERATIONS, REDUCERS
from .tokens import WIDEST, is_name

MOST_CORES, MOST_STEPS = 16, 2 ** 40
TRAPS = (b"div", b"place", b"core", b"steps")


class BadLine(Exception):
    """The first line that isn't in the grammar."""


class Id(NamedTuple):
    core: int
    number: int


class Entry(NamedTuple):
    """A line behind the first: which task has made this action, with what came of it.

    `words` are the result words of a call, `child` is the id that a start gave. A begin is an action `Begin` here, a pass
    is `Arrive`, and `over` has no task."""
    task: Optional[Id]
    action: object
    words: Optional[Tuple[int, ...]] = ()
    child: Optional[Id] = None


@dataclass(frozen=True)
class Begin:
    index: int


@dataclass(frozen=True)
class Over:
    """The root scope is passed."""


def number(word):
    """The number that a word spells, None where it spells none."""
    if re.fullmatch(rb"0|[1-9][0-9]{0,19}", word) and int(word) <= WIDEST:
        return int(word)
    return None


def numbers(words):
    found = tuple(map(number, words))
    return None if None in found else found


def id_of(word):
    parts = numbers(word.split(b"."))
    return Id(*parts) if parts and len(parts) == 2 else None


def named(word):
    return word.decode() if is_name(word) else None


def history(text):
    """The cores, the steps and the entries of a history text, or the number of its first bad line."""
    lines = text.split(b"\n")
    lines, rest = lines[:-1], lines[-1]
    if not lines:
        raise BadLine(1)
    cores, steps = first_line(lines[0].split(b" "))
    entries = []
    for count, line in enumerate(lines[1:], 2):
        found = entry(line)
        if found is None:
            raise BadLine(count)
        entries.append(found)
    if rest:
        raise BadLine(len(lines) + 1)
    return cores, steps, entries


def first_line(words):
    if len(words) == 6 and words[0::2] == [b"history", b"cores", b"steps"] and words[1] == b"1":
        cores, steps = number(words[3]), number(words[5])
        if cores and steps and cores <= MOST_CORES and steps <= MOST_STEPS:
            return cores, steps
    raise BadLine(1)


@functools.lru_cache(maxsize=1000)
def entry(line):
    """The entry that a line spells, None where it spells none. Its words have one blank between them."""
    words = line.split(b" ")
    if words == [b"over"]:
        return Entry(None, Over())
    task = id_of(words[0])
    if task is None or len(words) < 2:
        return None
    word, rest = words[1], words[2:]
    if word in (b"finish", b"pass", b"end") and not rest:
        return Entry(task, {b"finish": tasks.Open, b"pass": tasks.Arrive, b"end": tasks.End}[word]())
    if word == b"trap" and len(rest) == 1 and rest[0] in TRAPS:
        return Entry(task, tasks.Trapped(rest[0].decode()))
    if word == b"print":
        found = numbers(rest)
        return Entry(task, tasks.Print(*found)) if found and len(found) == 1 else None
    if word in (b"spawn", b"offer") or word == b"begin" and rest[1:2] == [b"as"]:
        return started(task, word, rest)
    if word == b"forall":
        return loop(task, rest)
    return call(task, word, rest)


def started(task, word, rest):
    """A spawn, an offer or a begin: the last two words are `as` and the new id."""
    child = id_of(rest[-1]) if rest[-2:-1] == [b"as"] else None
    rest = rest[:-2]
    if child is None or not rest:
        return None
    if word == b"begin":
        index = numbers(rest)
        return Entry(task, Begin(*index), child=child) if index and len(index) == 1 else None
    how, core = word.decode(), None
    if how == "spawn" and rest[0] == b"at":
        how, core, rest = "at", number(rest[1]) if len(rest) > 1 else None, rest[2:]
        if core is None:
            return None
    target, args = named(rest[0]) if rest else None, numbers(rest[1:])
    if target is None or args is None:
        return None
    return Entry(task, tasks.Start(how, core, target, args), child=child)


def loop(task, rest):
    bounds, args = numbers(rest[0:2] + rest[3:4]), numbers(rest[5:])
    if len(rest) < 5 or rest[2] != b"grain" or bounds is None or args is None or named(rest[4]) is None:
        return None
    return Entry(task, tasks.Loop(*bounds, named(rest[4]), args))


def call(task, word, rest):
    name = "heap" if word == b"heap" else named(word)
    operation = OPERATIONS.get(rest[0].decode("latin-1")) if rest else None
    if name is None or operation is None:
        return None
    spelled, rest, reducer = rest[0].decode(), rest[1:], None
    if operation.reduces:
        reducer, rest = rest[0].decode("latin-1") if rest else None, rest[1:]
        if reducer not in REDUCERS:
            return None
    args, results = rest[:operation.args], rest[operation.args:]
    if operation.results:
        if results[:1] != [b"="]:
            return None
        results = results[1:]
    args, results = numbers(args), numbers(results)
    if args is None or results is None or (len(args), len(results)) != (operation.args, operation.results):
        return None
    return Entry(task, tasks.Call(name, spelled, reducer, args), results)


SPELLED = {
    tasks.Print: "print", tasks.Open: "finish", tasks.Arrive: "pass", tasks.End: "end", tasks.Trapped: "trap", Begin: "begin"}


def spelled(entry):
    """The line of an entry."""
    action = entry.action
    if isinstance(action, Over):
        return "over"
    if isinstance(action, tasks.Call):
        words = [action.object, action.operation] + ([action.reducer] if action.reducer else []) + list(action.numbers)
        words += ["=", *entry.words] if entry.words else []
    elif isinstance(action, tasks.Start):
        words = ["spawn", "at", action.core] if action.how == "at" else [action.how]
        words += [action.target, *action.args]
    elif isinstance(action, tasks.Loop):
        words = ["forall", action.low, action.high, "grain", action.grain, action.target, *action.args]
    else:
        words = [SPELLED[type(action)], *vars(action).values()]
    if entry.child is not None:
        words += ["as", "%d.%d" % entry.child]
    return " ".join(["%d.%d" % entry.task] + list(map(str, words)))


def text_of(cores, steps, entries):
    """The text of a history."""
    return "".join(line + "\n" for line in ["history 1 cores %d steps %d" % (cores, steps)] + list(map(spelled, entries)))
