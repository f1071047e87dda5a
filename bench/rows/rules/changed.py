"""Histories of worked programs, and each that comes of one by one change.

A schedule takes, again and again, one of the steps that are open, by the throw of a die with a fixed seed. Two schedules are
taken of each program: in the first the ids are numbered core by core, in the second they are odd ones.

The changes are: another version, one core more, one step more in the first line; and of each entry: it is left out, it
stands there twice, it changes places with the next one, and one of its numbers is raised by one; in the second schedule
lowered by one, where it isn't 0. A history that comes twice is one row."""
import re

from reading.answers import accepted
from reading.lines import Begin, Entry, Id, Over, spelled
from reading.steps import State
from reading.tasks import Arrive, Start, Trapped
from table import row

# The programs: a name, the cores, the steps, the text.
PROGRAMS = [
    ("arrays", 4, 1000000, """array a[4]; array b[2]; input a = 5, 7, 18446744073709551615;
        task main() { let x = a.read(1); b.write(1, x * 2); let y = a.add(2, 3); let z = a.cas(0, 5, 9); let w = a.cas(0, 5, 1);
          a.reduce max (3, 12); a.reduce xor (3, 10); let v = b.reduce min (1, 3);
          if (z == 5) & (w == 9) { print v; } else { print 0; } if y < x { print 1; } else { print y; } } show a; show b;"""),
    ("sets", 1, 3, """set s; set t;
        task main() { let n = s.insert(9); let o = s.insert(9); t.insert(0); let i = 3;
          while i { n = s.insert(i * 3); i = i - 1; } o = s.has(6); n = t.has(6); print n + o;
          n = s.remove(9); o = s.remove(9); print n * 2 + o; } show s;"""),
    ("maps", 4, 1000000, """map m;
        task put(k) { m.put(k, k + 7); let f, w = m.get(k); if f { m.merge or (k, 32); } else { m.erase(k); } }
        task main() { m.merge last (2, 1); finish { spawn put(1); offer put(2); } m.merge first (1, 5); let f = m.erase(2);
          let g, w = m.get(1); print w; } show m;"""),
    ("vectors", 4, 1000000, """vector v; vector w; task give(x) { v.push(x); v.push(x * 2); }
        task main() { finish { spawn give(3); spawn give(4); } let f, x = v.pop(); w.push(x); f, x = v.dequeue(); w.push(x);
          f, f = v.pop(); print f; f, x = w.dequeue(); print x; f, x = w.pop(); f, x = w.pop(); print f; } show v;"""),
    ("heap", 4, 1000000, """array a[5]; heap 6;
        task main() { let p = heap.alloc(2); let q = heap.alloc(3); let r = heap.alloc(2); print r; heap.write(q, 4);
          heap.add(q + 1, 6); let x = heap.cas(q, 4, 8); heap.reduce and (q, 12); x = heap.free(p); x = heap.free(p);
          p = heap.alloc(1); r = heap.alloc(1); a.write(4, r); x = heap.read(q); print x; heap.free(q); }"""),
    ("waits", 2, 1, """array a[1]; task leaf(x) { a.add(0, x); }
        task node(x) { spawn leaf(x); finish { offer leaf(x * 10); } }
        task main() { spawn leaf(5); finish { spawn at 1 node(1); finish { spawn at 0 leaf(2); } let y = a.read(0); }
          let z = a.read(0); print z > 12; } show a;"""),
    ("loops", 3, 2 ** 40, """array a[3]; task one(i, x) { let n = a.add(i, x); } task row(i) { forall i .. 3 grain 0 one(i + 1); }
        task main() { forall 1 .. 3 grain 2 row(); forall 2 .. 1 grain 1 row(); print 3; } show a;"""),
    ("recursion", 4, 1000000, """array a[1]; task node(d) { a.add(0, 1); if d > 1 { offer node(d - 1); offer node(d - 1); } }
        task main() { finish { offer node(3); } let x = a.read(0); print x; }"""),
    ("search", 4, 1000000, """array from[3]; array to[3]; array level[3]; array more[1]; set seen;
        input from = 0, 1, 0; input to = 1, 2, 2;
        task edge(e, d) { let u = from.read(e); let v = to.read(e); let lu = level.read(u);
          if lu == d { let old = level.cas(v, 0, d + 1); if old == 0 { seen.insert(v); more.add(0, 1); } } }
        task main() { level.write(0, 1); forall 0 .. 3 grain 2 edge(1); let go = more.read(0); print go; } show level;"""),
    ("groups", 4, 1000000, """array key[4]; array word[4]; map sum; map low;
        input key = 7, 2, 7, 7; input word = 4, 9, 1, 18446744073709551615;
        task row(i) { let k = key.read(i); let w = word.read(i); sum.merge add (k, w); low.merge min (k, w); }
        task main() { forall 0 .. 4 grain 1 row(); } show sum; show low;"""),
    ("queue", 4, 1000000, """vector v; array a[2]; task give(i, s) { v.push(i + s); }
        task grab(i) { let f, x = v.dequeue(); a.add(0, f); a.reduce xor (1, x); }
        task main() { forall 0 .. 2 grain 64 give(1); forall 0 .. 3 grain 64 grab(); let x = a.read(0); print x; } show a;"""),
    ("words", 4, 1000000, """array end[1]; vector pass; set begin; map over; task as(trap) { print trap; over.put(trap, 1); }
        task main() { end.write(0, 1); pass.push(2); begin.insert(3); spawn as(4); finish { offer as(5); }
          let x = end.read(0); print x; }"""),
    ("steps", 2, 3, """task half(n) { let m = n; while m > 1 { m = m / 2; print m; } }
        task main() { let i = 4; while i < 8 { spawn half(i); i = i + 3; } finish { } print i % 4; }"""),
    ("div trap", 4, 1000000, """task bad(x) { print 7 / x; }
        task main() { finish { spawn bad(2); spawn bad(0); } print 1; }"""),
    ("place trap", 4, 1000000, """array a[2]; task bad(i) { a.write(i, 1); } task main() { forall 0 .. 3 grain 1 bad(); }"""),
    ("core trap", 2, 1000000, """task t(x) { print x; } task main() { spawn at 1 t(8); spawn at 2 t(9); }"""),
    ("steps trap", 2, 6, """task spin(n) { print n; while n { n = n - 1; } print n; }
        task main() { offer spin(1); offer spin(5); }"""),
]
ODD_CORES, ODD_NUMBERS = (0, 3, 2 ** 64 - 1), (1, 7, 1000, 2 ** 64 - 1)


class Die:
    """Numbers that look thrown and are the same each time, on each machine and with each Python."""

    def __init__(self, seed):
        self.state = seed

    def throw(self, sides):
        self.state = (self.state * 6364136223846793005 + 1442695040888963407) % 2 ** 64
        return (self.state >> 33) % sides

    def one(self, things):
        return things[self.throw(len(things))]


def rows():
    for count, (name, cores, steps, text) in enumerate(PROGRAMS):
        text = " ".join(text.split())
        die, seen = Die(count), set()
        for odd in (False, True):
            lines = list(map(spelled, schedule(State(accepted(text.encode()), cores, steps), die, odd)))
            for changed in changes(cores, steps, lines, die, -1 if odd else 1):
                history = "".join(line + "\n" for line in changed)
                if history not in seen:
                    seen.add(history)
                    yield row("changed histories: " + name, ("replay",), text + "\n---\n" + history)


# Schedules

def schedule(state, die, odd):
    """A history from the opening state to its end: nothing is left that is a step."""
    entries = []
    while not state.over:
        found = steps_of(state, die)
        if not found:
            if not state.is_finished(0):
                return entries
            found = [Entry(None, Over())]
        entry = die.one(found)
        if isinstance(entry.action, (Begin, Start)):
            entry = entry._replace(child=new_id(state, die, odd))
        entries.append(state.step(entry))
    return entries


def steps_of(state, die):
    """A step of each task that has one; a call without its result words, and a start without its id."""
    found = []
    for id, task in state.tasks.items():
        if task.trapped:
            continue
        if state.waits(task):
            indices = to_begin(state.scopes[task.opened[-1]])
            if indices:
                found.append(Entry(id, Begin(die.one(indices))))
            elif state.is_finished(task.opened[-1]):
                found.append(Entry(id, Arrive()))
        elif isinstance(task.action, Start) and state.is_beyond(task.action):
            found.append(Entry(id, Trapped("core")))
        else:
            found.append(Entry(id, task.action, None))
    return found


def to_begin(scope):
    return [k for k in range(scope.loop.low, scope.loop.high) if k not in scope.begun] if scope.loop else []


def new_id(state, die, odd):
    """An id that no task has: the next number of one of the cores; or an odd one, as long as there are any."""
    odd_ones = [Id(core, number) for core in ODD_CORES for number in ODD_NUMBERS if Id(core, number) not in state.ids]
    if odd and odd_ones:
        return die.one(odd_ones)
    core, number = die.throw(state.cores), 0
    while Id(core, number) in state.ids:
        number += 1
    return Id(core, number)


# Changes

def changes(cores, steps, lines, die, more):
    """The lines of the history, and of each that comes of it by one change. `more` is what a number gets more, where it
    isn't 0."""
    first = "history 1 cores %d steps %d"
    here = [first % (cores, steps)]
    yield here + lines
    for changed in ("history 2 cores %d steps %d" % (cores, steps), first % (cores + 1, steps), first % (cores, steps + 1)):
        yield [changed] + lines
    for k, line in enumerate(lines):
        before, behind = here + lines[:k], lines[k + 1:]
        yield before + behind
        yield before + [line, line] + behind
        if behind:
            yield before + [behind[0], line] + behind[1:]
        numbers = list(re.finditer(r"(?<![A-Za-z_])\d+", line))
        if numbers:
            number = die.one(numbers)
            changed = int(number.group()) + (more if int(number.group()) else 1)
            yield before + [line[:number.start()] + str(changed) + line[number.end():]] + behind
