"""Runs of several tasks that come by a rule: each example, and the programs of the rows of cores, with varied words."""
import re

from reading import answers
from table import row
from worked.programs import KINDS, PROGRAMS, TRAPS

# Cores, limit and slice of the runs of an example; bench/histories has all of their combinations.
VARIED = ((1, 1, 1), (1, 256, 65536), (2, 1, 1), (2, 32, 65536), (4, 1, 65536), (4, 256, 1), (16, 1, 65536), (16, 256, 65536))
# Words of which each program of the rows of cores gets one in turn.
SETUPS = ("--cores 2 --block 1 --limit 1 --slice 3", "--cores 16 --block 1 --slice 7", "--cores 3 --block 2 --limit 7 --slice 64")
ALONE = "run --cores 1 --history --counts".split()
# The longest history that gets a row.
LONGEST = 4000


def rows(root):
    yield from examples(root)
    yield from programs()


def examples(root):
    """What each example answers is the same whatever its words, but where a core is wanting."""
    for path in sorted((root / "examples").glob("*.grappa")):
        text = path.read_bytes()
        for cores, limit, slice in VARIED:
            words = "run --cores %d --limit %d --slice %d" % (cores, limit, slice)
            yield row("examples with varied words", words.split(), text)
        yield from alone("examples on one core", text)


def programs():
    for count, text in enumerate(list(PROGRAMS.values()) + list(TRAPS.values()) + [KINDS]):
        text = shown(" ".join(text.split())).encode()
        for words in ("", SETUPS[count % len(SETUPS)]):
            yield row("programs with varied words", ["run"] + words.split(), text)
        yield from alone("programs on one core", text)


def shown(text):
    """The program with a `show` of each object that it has but the vectors, whose order is free."""
    return text + "".join(" show %s;" % name for name in re.findall(r"\b(?:array|set|map) (\w+)", text))


def alone(group, text):
    """The history and the counts of one core, or its prints where the history is long."""
    made = row(group, ALONE, text)
    if len(answers.answer(made.words, text).output) <= LONGEST:
        yield made
    else:
        yield row(group, ("run", "--cores", "1", "--counts"), text)
