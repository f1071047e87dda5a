"""Histories that come by a rule: lines that are cut off and misspelled, each reducer, each core of a spawn."""
from reading.checker import REDUCERS
from reading.tokens import KEYWORDS
from table import COMPLETE, OPEN, bad, entry, row

REPLAY = ("replay",)
FIRST = "history 1 cores 4 steps 1000000\n"
# A program that none of LINES is a step of, but `0.0 end` once it has printed.
FRONT = ("array a[4]; set s; map m; vector v; heap 8; task t() { } task u(x, y) { } task main() { print 1; }\n---\n" + FIRST)
# A line of each form.
LINES = """0.0 a read 0 = 5
0.0 a write 0 5
0.0 a add 0 5 = 1
0.0 a cas 0 5 6 = 1
0.0 a reduce max 0 5 = 1
0.0 s insert 9 = 1
0.0 s remove 9 = 0
0.0 s has 9 = 1
0.0 m put 5 6 = 1
0.0 m merge min 5 6 = 0
0.0 m get 5 = 1 6
0.0 m erase 5 = 1
0.0 v push 3
0.0 v pop = 1 3
0.0 v dequeue = 0 0
0.0 heap alloc 3 = 4
0.0 heap free 4 = 1
0.0 heap read 4 = 0
0.0 heap write 4 9
0.0 heap add 4 9 = 0
0.0 heap cas 4 9 8 = 9
0.0 heap reduce xor 4 9 = 8
0.0 print 2
0.0 spawn u 1 2 as 0.1
0.0 spawn t as 0.1
0.0 spawn at 3 u 1 2 as 0.2
0.0 offer u 1 2 as 0.3
0.0 offer t as 0.3
0.0 finish
0.0 forall 0 8 grain 1 u 5
0.0 forall 0 8 grain 1 t
0.0 begin 3 as 1.0
0.0 pass
0.0 end
0.0 trap div
0.0 trap place
0.0 trap core
0.0 trap steps
over""".split("\n")
WIDE = str(2 ** 64)
NO_IDS = ["0 0", "", "0", ".0.0", "0.0.0", "0,0", "0.0.", WIDE + ".0", "0." + WIDE]
NO_NUMBERS = ["+1", "-1", "", "1a", "0x1"]


def rows():
    seen = set()
    for line in LINES:
        yield from cut_off(line, seen)
    for line in LINES:
        yield from misspelled(line)
    for line in ("Over", "0.0 over", "over over", "ov", "overs"):
        yield row("spelling of lines", REPLAY, FRONT + line + "\n", bad(2))
    for count, line in enumerate(LINES):
        yield from misnumbered(line, count)
    for keyword in sorted(KEYWORDS):
        for line in ["0.0 %s read 0 = 0"] * (keyword != "heap") + ["0.0 forall 0 1 grain 1 %s", "0.0 spawn %s as 0.1"]:
            yield row("names of lines", REPLAY, FRONT + line % keyword + "\n", bad(2))
    for words in ((12, 10), (10, 12)):
        yield from reducers(*words)
    for cores in (1, 2, 16):
        for core in (0, 1, 2, 15, 16, 2 ** 64 - 1):
            yield from cores_of_a_spawn(cores, core)


def cut_off(line, seen):
    """A line whole, and cut off behind each of its words. A loop may still be cut off behind its task."""
    def told(text, due):
        return row("lines cut off", REPLAY, FRONT + text, due)
    yield told(line + "\n", entry(1))
    yield told("0.0 print 1\n" + line + "\n", OPEN if line == "0.0 end" else entry(2))
    words = line.split(" ")
    for length in range(1, len(words)):
        cut = " ".join(words[:length])
        if cut not in seen and cut not in LINES:
            seen.add(cut)
            yield told(cut + "\n", entry(1) if words[1] == "forall" and length > 6 else bad(2))
    yield told(line, bad(2))


def misspelled(line):
    """A line with each of its blanks doubled or made a tab in turn, with more before or behind it, and in other letters."""
    words = line.split(" ")
    found = [" ".join(words[:k]) + ("  ", "\t")[k % 2 == 0] + " ".join(words[k:]) for k in range(1, len(words))]
    found += [" " + line, line + " ", line + "\r", line + " 1"]
    found += sorted({line.upper(), line.title()} - {line})
    for text in found:
        may_have_more = words[1:2] == ["forall"] and text == line + " 1"
        yield row("spelling of lines", REPLAY, FRONT + text + "\n", entry(1) if may_have_more else bad(2))


def misnumbered(line, count):
    """A line in which one id or number isn't written as it has to be: with zeros in front, too wide, or in one of the other
    wrong forms, which are taken in turn."""
    words = line.split(" ")
    for k, word in enumerate(words):
        count += 1
        if "." in word:
            core, number = word.split(".")
            wrong = ["0%s.%s" % (core, number), "%s.0%s" % (core, number), NO_IDS[count % len(NO_IDS)]]
        elif word.isdigit():
            wrong = ["0" + word, WIDE, NO_NUMBERS[count % len(NO_NUMBERS)]]
        else:
            continue
        for form in wrong:
            yield row("numbers of lines", REPLAY, FRONT + " ".join(words[:k] + [form] + words[k + 1:]) + "\n", bad(2))


def reducers(before, given):
    """Each reducer on a word of an array, a word of the heap and a value of a map; what is there afterwards, and histories
    that tell another word in one of these places."""
    after = dict(zip(REDUCERS, (22, 10, 12, 14, 8, 6, before, given)))
    makes, reads, made, right, wrong = "", "", "", [], []
    for k, reducer in enumerate(REDUCERS):
        for object, place in (("a", k), ("heap", 8 + k)):
            makes += "%s.write(%d, %d); %s.reduce %s (%d, %d); " % (object, place, before, object, reducer, place, given)
            made += "0.0 %s write %d %d\n" % (object, place, before)
            made += "0.0 %s reduce %s %d %d = %d\n" % (object, reducer, place, given, before)
        makes += "m.put(%d, %d); m.merge %s (%d, %d); " % (k, before, reducer, k, given)
        made += "0.0 m put %d %d = 1\n0.0 m merge %s %d %d = 0\n" % (k, before, reducer, k, given)
        reads += "a.read(%d); heap.read(%d); m.get(%d); " % (k, 8 + k, k)
        other = before if after[reducer] != before else given
        for lines, word in ((right, after[reducer]), (wrong, other)):
            lines.append("0.0 a read %d = %d\n" % (k, word))
            lines.append("0.0 heap read %d = %d\n" % (8 + k, word))
            lines.append("0.0 m get %d = 1 %d\n" % (k, word))
    front = "array a[8]; heap 8; map m; task main() { %s%s}\n---\n%s%s" % (makes, reads, FIRST, made)
    yield row("reducers", REPLAY, front + "".join(right) + "0.0 end\nover\n", COMPLETE)
    for k, line in enumerate(wrong):
        yield row("reducers", REPLAY, front + "".join(right[:k]) + line, entry(made.count("\n") + k + 1))


def cores_of_a_spawn(cores, core):
    front = "task t() { } task main() { spawn at %d t(); }\n---\nhistory 1 cores %d steps 1\n" % (core, cores)
    whole = "0.0 spawn at %d t as 77.0\n77.0 end\n0.0 end\nover\n" % core
    yield row("cores of a spawn", REPLAY, front + whole, COMPLETE if core < cores else entry(1))
    yield row("cores of a spawn", REPLAY, front + "0.0 trap core\n", entry(1) if core < cores else OPEN)
