"""Rows of the events that are enabled, read out of the file in which they are proved of the definitions."""
import re

from .lines import row_of
from .terms import definitions, term_of

HEAP = "255"


def events(term):
    """The texts of events."""
    return "enabled:" + "".join(" " + text(event) + "," for event in term)


def text(event):
    """`event.Take 1` in the words of a schedule."""
    kind, args = event[0].split(".")[1].lower(), event[1:]
    return " ".join([kind] + [HEAP if arg == ("HEAP",) else str(arg) for arg in args])


def changed(row, words):
    """A row whose machine has another limit, or stops at another clock: `(with_limit turn 2)` or `turn`."""
    match = re.fullmatch(r"\((with_limit|with_events) (\w+) (\d+)\)", words)
    if match:
        row = dict(row, **{{"with_limit": "limit", "with_events": "events"}[match.group(1)]: int(match.group(3))})
    return row


def rows(folder):
    """Before each event of a run, and behind the first events of one."""
    defined = definitions((folder / "EnabledRows.antt").read_text(encoding="utf-8"))
    whole = (folder / "EnabledRows.antt").read_text(encoding="utf-8")
    machines = {name: made for name, made in ((row["name"].split()[1], (row, due)) for row, due in row_of(folder))}
    for name, taken, lists in re.findall(r"= enabled_in (\w+) (\w+_lines|\(take \d+ \w+_lines\)) ≡\n((?:    .*\n)+)", whole):
        row, due = machines[name]
        count = int(taken.split()[1]) if taken.startswith("(") else len(row["schedule"])
        said = [events(term) for term in term_of(lists, {})]
        lines = [line for pair in zip(said, due[:count]) for line in pair]
        yield dict(row, name="enabled before each event of " + name, schedule=row["schedule"][:count], enabled=1), lines
    pattern = r"pub (\w+) : enabled_behind (\w+|\(with_\w+ \w+ \d+\)) (\w+_lines|\(take \d+ \w+_lines\)) (\d) ≡ Some (.*)\n"
    for field, machine, taken, core, list in re.findall(pattern, whole):
        name = re.search(r"(\w+)_lines", taken).group(1)
        row, due = machines[name]
        count = int(taken.split()[1]) if taken.startswith("(") else len(row["schedule"])
        lines = due[:count] + [events(term_of(list, {}))]
        yield dict(changed(row, machine), name="enabled behind %d events of %s: %s" % (count, name, field),
                   schedule=row["schedule"][:count], behind=int(core)), lines
