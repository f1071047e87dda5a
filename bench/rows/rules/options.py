"""Words of the command line that come by a rule."""
from reading.words import KINDS, OPTIONS
from table import ACCEPTED, USAGE, bad, prints, row, shows

PROGRAM = "task main() { print 7; }"
COMMANDS = ("run", "check", "replay", "bench")
NO_NUMBERS = ["-1", "+1", "-0", "1.0", "1e3", "0x1", "1_0", "1,0", "one", "1 ", " 1", "1\n", "\u0661", "1a", "a1", "''",
              "18446744073709551616", "99999999999999999999", "0" * 20 + "1", "1" + "0" * 20, "0" * 40, "9" * 40]
NO_KINDS = ["word", "wordss", "Words", "set", "queues", "vector", "words,sets", "1", "words ", " words"]


def rows():
    for name, values in OPTIONS.items():
        if values is not KINDS:
            yield from bounds("--" + name, values.least, values.greatest)
    yield from numbers([name for name, values in OPTIONS.items() if values is not KINDS])
    yield from kinds()


def bounds(option, least, greatest):
    """The least and the greatest value of an option with each command, and the numbers beside them."""
    def told(words, due):
        return row("bounds", words, PROGRAM, due)
    for command, due in (("check", ACCEPTED), ("replay", bad(1))):
        yield told([command, option, str(least)], due)
        yield told([option, str(greatest), command], due)
    if option not in ("--size", "--events"):
        for value in (least, greatest):
            yield told(["run", option, str(value)], prints(7))
            yield told(["bench", "--kind", "sets", "--size", "3", option, str(value)], shows("array a: 3"))
    for value in [greatest + 1] + [least - 1] * (least > 0):
        for command in COMMANDS:
            yield told([command, option, str(value)], USAGE)
    for value in (least, greatest):
        yield told(["check", option, "%020d" % value], ACCEPTED)
    yield told(["check", "%s=%d" % (option, greatest)], ACCEPTED)
    yield told(["check", option, "%021d" % greatest], USAGE)
    yield told(["check", "%s=%d" % (option, greatest + 1)], USAGE)


def numbers(names):
    """Words that are no numbers, each as the value of two of the options in turn."""
    for count, word in enumerate(NO_NUMBERS):
        for name in (names[count % len(names)], names[(count + 3) % len(names)]):
            yield row("numbers of options", ["check", "--%s=%s" % (name, word)], PROGRAM, USAGE)


def kinds():
    for kind in KINDS:
        for command, due in (("check", ACCEPTED), ("replay", bad(1)), ("bench", None), ("run", prints(7))):
            yield row("kinds", [command, "--kind", kind], PROGRAM, due)
        yield row("kinds", ["run", "--cores", "1", "--kind=" + kind], PROGRAM, prints(7))
    for kind in NO_KINDS:
        yield row("kinds", ["bench", "--kind", kind], PROGRAM, USAGE)
    for words, due in (
            ("--kind queue --size 3 --seed 1", shows("array a: 3 0")), ("--kind queue --size 10 --seed 5", shows("array a: 10 11")),
            ("--kind words --size 1 --seed 0", shows("array hist:" + " 0" * 14 + " 1 0")),
            ("--kind sets --size 1 --seed 0", shows("array a: 1"))):
        for cores in ([], ["--cores", "1"], ["--cores", "2", "--block", "1", "--limit", "1"]):
            yield row("kinds", ["bench"] + words.split() + cores, "", due)
