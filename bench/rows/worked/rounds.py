"""Programs that are run in rounds, and what is due to them."""
from .lines import SLICES, in_turns
from .lines import row_of as lines_of
from .plain import Plain
from .programs import KINDS, LONG, MANY, ON_CORES, PROGRAMS, STATED, TRAPS

STEPS, EVENTS, LEAST = 1000000, 2 ** 40, 10000
# Cores, words of a block, messages of a packet, and the most events that a core makes in its turn. Where a number follows, the
# cores and kinds of events are drawn, beginning with it.
SETUPS = [(1, 8, 32, 1024, None), (2, 1, 1, 1, None), (2, 2, 32, 3, 5), (3, 1, 32, 4, None), (3, 1, 1, 7, 11)]
MANY_CORES = [(16, 1, 32, 1024, None), (16, 1, 1, 5, 3)]
ON_MANY = ["nested_finish", "spawn_at", "offer", "group_by", "queue", "inserts of few keys", "three vectors", "all kinds of calls", "eight parameters"]
EXAMPLES = ["divisor", "branches", "nested_finish", "spawn_at", "offer", "breadth_first", "group_by", "distinct", "queue", "stack", "heap_blocks",
            "first", "arithmetic", "histogram", "two_arrays"]


def row(name, text, setup, seed=None, **more):
    cores, block, limit, slice = setup
    made = {"name": "%s: %d cores, blocks of %d, packets of %d, turns of %d" % (name, *setup), "cores": cores, "block": block, "limit": limit,
            "steps": STEPS, "events": EVENTS, "slice": slice, "text": text, **more}
    if seed is not None:
        made.update(seed=seed, name=made["name"] + ", drawn")
    return made


def due(text, cores, steps=STEPS):
    plain = Plain(text, cores, steps)
    if plain.trap:
        yield plain.trap
    yield "prints" + "".join(" %d" % word for word in plain.prints)
    if plain.trap:
        yield "trapped, legal open, packets as shipped"
    else:
        yield from plain.contents()
        yield "over, legal complete, entries %d, packets as shipped" % plain.entries


def worked(folder):
    """The worked runs whose schedule is that of cores that take turns."""
    for made, lines in lines_of(folder):
        if made["name"].split()[1] in SLICES:
            made, lines = in_turns(made, lines)
            yield made, lines + list(due(made["text"], made["cores"]))


def spent():
    """Runs that are cut off, or not, at the limit of events."""
    for events, last in [(1, "spent"), (5, "spent"), (6, "over")]:
        made = row("stopped at %d events" % events, "task main() { print 7; }", (1, 8, 32, 1024), events=events)
        prints = "prints" + (" 7" if events > 1 else "")
        end = "over, legal complete, entries 3" if last == "over" else "spent, legal open"
        yield made, [prints, end + ", packets as shipped"]


def stated():
    """Runs of one core of which an independent model of the machine says how many calls, batches, events and entries they have."""
    for name, (text, calls, batches, events, entries) in STATED.items():
        made = dict(row(name, text, (1, 8, 32, 1024)), counts=1)
        lines = list(due(text, 1))
        if not lines[-1].startswith("over, legal complete, entries %d," % entries):
            raise ValueError("other entries: " + name)
        counts = "core 0: clock %d calls %d messages 0 packets 0 short 0 batches %d asks 0 gives 0 over" % (events, calls, batches)
        yield made, [counts] + lines


def long():
    """A run of ten thousand events and more, and packets of as many messages as one may have."""
    for setup, seed in [((3, 1, 32, 8), None), ((3, 2, 256, 1024), None), ((2, 1, 1, 5), 9)]:
        yield row("three thousand indices", LONG, setup, seed, least=LEAST), ["events at least %d" % LEAST] + list(due(LONG, setup[0]))


def trapped():
    for name, text in TRAPS.items():
        for *setup, seed in SETUPS:
            yield row("trapped by " + name, text, setup, seed), list(due(text, setup[0]))
    text = "task main() { while 1 { } }"
    yield row("trapped by steps", text, (2, 8, 32, 1024), steps=10), list(due(text, 2, 10))


def rows(root):
    yield from worked(root / "crates/gr_machine/specs")
    yield from spent()
    yield from stated()
    programs = {name: (root / "examples" / (name + ".grappa")).read_text() for name in EXAMPLES}
    programs.update(PROGRAMS)
    for name, text in programs.items():
        for *setup, seed in SETUPS + (MANY_CORES if name in ON_MANY else []):
            if setup[0] >= ON_CORES.get(name, 1):
                yield row(name, text, setup, seed), list(due(text, setup[0]))
    for *setup, seed in SETUPS[1:]:
        yield row("messages of all kinds", KINDS, setup, seed, kinds=1), ["kinds of messages: 17"] + list(due(KINDS, setup[0]))
    yield row("sixty-four objects", MANY, (2, 1, 1, 1)), list(due(MANY, 2))
    yield from long()
    yield from trapped()
