"""The lines of worked runs, as schedules and as what is due."""
import re

from .terms import definitions, term_of
from .words import Names, message

STEPS, EVENTS = 1000000, 2 ** 40
# A new task may take any slot that is free. The rows take the least; cores take the one that was freed last.
OTHER_SLOTS = {("enrolled", 1, 25): 1, ("enrolled", 1, 28): 1}
CARRIED = "packets as shipped"
# The most events that a core makes in its turn, in those runs that come by themselves where cores take turns.
SLICES = {"batch": 1024, "counter": 1024, "looped": 4, "nested": 1024, "remote": 1024, "trapped": 1024, "turn": 1024, "waits": 1024}
COUNTS = ["calls", "messages", "packets", "short", "batches", "asks", "gives"]


class Line:
    """A line of a run: the core, its clock after the event, the event, and the slots, messages and marks."""
    def __init__(self, term):
        kind, self.core, self.clock = term[:3]
        rest = list(term[3:])
        self.event = {"take_from": "take"}.get(kind, kind)
        self.about = [rest.pop(0)] if kind in ("ship", "take_from", "close", "steal") else []
        self.slots = rest.pop(0) if kind == "run" else []
        self.shipped = rest.pop(0) if kind == "ship" else []
        if kind == "serve":
            rest.pop(0)
        self.marks = rest.pop(0) if rest else []

    def planned(self):
        return " ".join(map(str, [self.core, self.event] + self.about))

    def due(self, names):
        parts = [" ".join(map(str, [self.core, self.clock, self.event] + self.about))]
        parts += ["slot %d" % slot for slot in self.slots]
        return " | ".join(parts + [message(term) for term in self.shipped] + [names.mark(mark) for mark in self.marks])


def names_in(text):
    found = re.findall(r"\b(array|set|map|vector|task) (\w+)", text)
    return Names([name for kind, name in found if kind != "task"], [name for kind, name in found if kind == "task"])


def history(lines, entries):
    """The marks by clock, and of equal clocks those of the lower core first, with the calls of batches and their replies."""
    closed = {(line.core, mark[1]): mark[2] for line in lines for mark in line.marks if mark[0] == "mark.Closed"}
    for line in sorted(lines, key=lambda line: (line.clock, line.core)):
        for mark in line.marks:
            if mark[0] == "mark.Entry":
                yield mark[1]
            elif mark[0] == "mark.Applied":
                for call in closed[mark[1], mark[2]]:
                    yield next(entry for entry in entries if entry[:3] == ("entry.Call", call["id"], call["op"]))


def statuses(lines, cores):
    """What has become of each core: it has passed the root scope, or a task of it is trapped."""
    found = ["going"] * cores
    for line in lines:
        for mark in line.marks:
            if mark[0] == "mark.Entry" and mark[1][0] in ("entry.Over", "entry.Trap"):
                found[line.core] = {"entry.Over": "over", "entry.Trap": "trapped"}[mark[1][0]]
    return found


def flight(origin, target, count):
    """The line of so many packets that were shipped and not taken."""
    return "in flight from %d to %d: packets %d" % (origin, target, count)


def flights(lines, cores):
    """What is in flight to each core."""
    for target in range(cores):
        for origin in range(cores):
            shipped = sum(line.core == origin and line.event == "ship" and line.about == [target] for line in lines)
            taken = sum(line.core == target and line.event == "take" and line.about == [origin] for line in lines)
            if shipped > taken:
                yield flight(origin, target, shipped - taken)


def due(text, names, lines, entries, cores):
    yield from (line.due(names) for line in lines)
    status = statuses(lines, cores)
    for core in range(cores):
        clock = max([line.clock for line in lines if line.core == core], default=0)
        numbers = re.search(r"core%d : EndsAs \w+ %d \w+ \(counts_of ([\d ]+)\)" % (core, core), text).group(1).split()
        counts = " ".join("%s %s" % pair for pair in zip(COUNTS, numbers))
        yield "core %d: clock %d %s %s" % (core, clock, counts, status[core])
    told = list(history(lines, entries))
    yield from (names.entry(entry) for entry in told)
    yield "legal %s, entries %d" % ("complete" if told[-1] == ("entry.Over",) else "open", len(told))
    yield from flights(lines, cores)
    yield CARRIED


def run(path):
    """The row of a file, and what is due to it; None where the file has no worked run."""
    text = path.read_text(encoding="utf-8")
    defined = definitions(text)
    found = [name[:-len("_lines")] for name in defined if name.endswith("_lines")]
    if not found:
        return None
    name, program = found[0], re.search(r"^-- (.*task main\(\).*)$", text, re.M).group(1)
    numbers = re.search(r"setup_of (\d+) (\d+) (\d+)", defined[name]).groups()
    cores, block, limit = map(int, numbers)
    lines = [Line(term) for term in term_of(defined[name + "_lines"], defined)]
    for line in lines:
        if (name, line.core, line.clock) in OTHER_SLOTS:
            line.slots = [OTHER_SLOTS[name, line.core, line.clock]]
    entries = term_of(defined[name + "_history"], defined)
    row = {"name": "worked " + name, "cores": cores, "block": block, "limit": limit, "steps": STEPS, "events": EVENTS,
           "text": program, "schedule": [line.planned() for line in lines]}
    return row, list(due(text, names_in(program), lines, entries, cores))


def row_of(folder):
    """The worked runs by their schedules."""
    for path in sorted(folder.glob("*Rows.antt")):
        found = run(path)
        if found is not None:
            yield found


def in_turns(row, due):
    """The same run, where the cores pick their events themselves."""
    name = row["name"].split()[1]
    count = len(row["schedule"])
    made = {key: row[key] for key in row if key != "schedule"}
    made.update(name="worked %s in turns" % name, slice=SLICES[name], lines=1, counts=1)
    return made, due[:count] + [line for line in due if line.startswith("core ")]


def rows(folder):
    yield from row_of(folder)
