"""The machine with one core, whose run is the same each time: its events, their order, and its counts.

Written from docs/MACHINE.md. In its turn a core makes the first of these that it can: `Serve`, `Run`, `Close` of the first
object of those on which calls wait; `Take`, `Ship` and `Steal` need a second core. What the machine knows of tasks and
objects is left to the plain memory here, which takes each entry as it is marked, and refuses what is no step."""
from collections import deque

from .checker import WORDS
from .grammar import OBJECTS
from .lines import Begin, Entry, Id, Over
from .steps import MAIN, ROOT, State
from .tasks import Arrive, Call, End, Loop, Open, Print, Start, Trapped

# What a call makes of a key's value; a fold has its reducer behind it.
EFFECTS = {"has": "keep", "get": "keep", "insert": "present", "put": "present", "remove": "absent", "erase": "absent",
           "merge": "fold", "reduce": "fold"}


def joined(first, then):
    """Two effects as one; None where they don't fold."""
    if then[0] == "keep":
        return first
    if first[0] == "fold" and then[0] == "fold":
        return first if first == then else None
    return ("present",) if then[0] == "fold" and first[0] != "keep" else then


class Vector:
    """What stands in a vector, in number; the groups that wait for a turn; and the turn that is out."""

    def __init__(self):
        self.length, self.groups, self.is_out, self.asked = 0, deque(), False, 0
        self.turn, self.unanswered = None, 0


class Core:
    """The one core, run until it is halted, can do nothing, or its clock has come to the limit."""

    def __init__(self, program, steps, events):
        self.state, self.entries, self.trap = State(program, 1, steps), [], None
        self.clock, self.calls, self.batches, self.numbers = 0, 0, 0, 1
        self.inbox, self.ready, self.private, self.public = deque(), deque([MAIN]), deque(), deque()
        self.counts, self.waiters = {ROOT: 1}, {ROOT: None}
        names = [item.name.text for item in program.items if item.kind in OBJECTS]
        self.held = {name: [] for name in names + ["heap"]}
        self.vectors = {item.name.text: Vector() for item in program.items if item.kind == "vector"}
        while self.clock < events and self.trap is None and not self.state.over and self.event():
            self.clock += 1

    def event(self):
        """Makes the next event; False where there is none."""
        if self.inbox:
            serve, *about = self.inbox.popleft()
            serve(*about)
        elif self.ready:
            self.run(self.ready.popleft())
        elif self.private or self.public:
            self.take_up(self.private.popleft() if self.private else self.public.pop())
        else:
            waiting = [name for name, calls in self.held.items() if calls]
            if waiting:
                self.close(waiting[0])
            return bool(waiting)
        return True

    def mark(self, task, action, words=(), child=None):
        taken = self.state.step(Entry(task, action, words, child))
        if taken is None:
            raise AssertionError("no step: %s %s" % (task, action))
        self.entries.append(taken)

    def mark_call(self, id):
        action = self.state.tasks[id].action
        self.mark(id, action, None if isinstance(action, Call) else ())

    def send(self, *message):
        self.inbox.append(message)

    # Run

    def run(self, id):
        """The first ready task makes its next action."""
        task, action = self.state.tasks[id], self.state.tasks[id].action
        if isinstance(action, (Call, Print)):
            self.calls += 1
            self.call(id, action)
        elif isinstance(action, Trapped) or isinstance(action, Start) and self.state.is_beyond(action):
            self.mark(id, action if isinstance(action, Trapped) else Trapped("core"))
            self.trap = len(self.entries)
        elif isinstance(action, Start):
            self.start(id, action)
        elif isinstance(action, Open):
            self.mark(id, action)
            self.open(task, 1)
            self.ready.append(id)
        elif isinstance(action, Arrive):
            self.waiters[task.opened[-1]] = id
            if self.completes(task.opened[-1]):
                self.leave(task.opened[-1])
        elif isinstance(action, Loop):
            self.loop(id, task, action)
        else:
            self.mark(id, End())
            self.send(self.complete, task.scope)

    def call(self, id, action):
        """A call on a word, the heap's blocks or a print is asked of its home; any other waits with those on its object."""
        object = None if isinstance(action, Print) else action.object
        if object is None or self.state.meanings[object].kind in WORDS and action.operation != "reduce":
            self.send(self.request, id)
        else:
            self.held[object].append(id)

    def start(self, id, action):
        child = self.new_id()
        self.mark(id, action, child=child)
        self.counts[self.state.tasks[child].scope] += 1
        self.ready.append(id)
        (self.public if action.how == "offer" else self.private).append(child)

    def open(self, task, count, waiter=None):
        self.counts[task.opened[-1]], self.waiters[task.opened[-1]] = count, waiter

    def loop(self, id, task, action):
        self.mark(id, action)
        if action.low < action.high:
            self.open(task, action.high - action.low, id)
            self.private.appendleft((id, task.opened[-1], action.low, action.high))
        else:
            self.mark(id, Arrive())
            self.ready.append(id)

    def new_id(self):
        self.numbers += 1
        return Id(0, self.numbers - 1)

    def take_up(self, unit):
        """A task gets ready; a range longer than the grain is split; the first index of any other begins."""
        if isinstance(unit, Id):
            self.ready.append(unit)
            return
        owner, scope, low, high = unit
        grain = self.state.scopes[scope].loop.grain
        if high - low > grain:
            while high - low > grain:
                middle = low + (high - low) // 2
                self.public.append((owner, scope, middle, high))
                high = middle
        else:
            child = self.new_id()
            self.mark(owner, Begin(low), child=child)
            self.ready.append(child)
            low += 1
        if low < high:
            self.private.appendleft((owner, scope, low, high))

    # Serve

    def request(self, id):
        self.mark_call(id)
        self.send(self.ready.append, id)

    def completes(self, scope):
        """One task of the scope less; whether it was the last."""
        self.counts[scope] -= 1
        return not self.counts[scope]

    def complete(self, scope):
        if self.completes(scope):
            self.send(self.leave, scope)

    def leave(self, scope):
        """This core was the only one that is active in the scope."""
        waiter = self.waiters[scope]
        if scope == ROOT:
            self.mark(None, Over())
        else:
            self.mark(waiter, Arrive())
            self.ready.append(waiter)

    def batch(self, ids):
        for id in ids:
            self.mark_call(id)
        self.send(self.ready.extend, ids)

    # Vectors

    def turn(self, name):
        vector = self.vectors[name]
        if vector.is_out:
            vector.asked += 1
        else:
            vector.is_out = True
            self.send(self.grant, name)

    def grant(self, name):
        """A put for each push, and a get for each other call as long as words are left."""
        vector = self.vectors[name]
        vector.turn = vector.groups.popleft()
        pushes = sum(self.operation(id) == "push" for id in vector.turn)
        gets = min(len(vector.turn) - pushes, vector.length + pushes)
        vector.length += pushes - gets
        vector.unanswered = pushes + gets
        for _ in range(pushes + gets):
            self.send(self.element, name)
        if not vector.unanswered:
            self.finish(name)

    def element(self, name):
        self.send(self.answered, name)

    def answered(self, name):
        self.vectors[name].unanswered -= 1
        if not self.vectors[name].unanswered:
            self.finish(name)

    def finish(self, name):
        for id in self.vectors[name].turn:
            self.mark_call(id)
        self.ready.extend(self.vectors[name].turn)
        self.send(self.done, name)

    def done(self, name):
        vector = self.vectors[name]
        vector.is_out = bool(vector.asked)
        if vector.asked:
            vector.asked -= 1
            self.send(self.grant, name)

    # Close

    def operation(self, id):
        return self.state.tasks[id].action.operation

    def close(self, name):
        calls, self.held[name] = self.held[name], []
        if name in self.vectors:
            order = ("push", "pop", "dequeue")
            self.vectors[name].groups.append(sorted(calls, key=lambda id: order.index(self.operation(id))))
            self.send(self.turn, name)
            return
        effects, batches = {}, {}
        for id in calls:
            action = self.state.tasks[id].action
            key, effect = action.numbers[0], (EFFECTS[action.operation],) + ((action.reducer,) if action.reducer else ())
            effects[key] = joined(effects[key], effect) if effects.get(key) else None if key in effects else effect
            if effects[key]:
                batches.setdefault(key, []).append(id)
            else:
                self.held[name].append(id)
        self.batches += len(batches)
        for ids in batches.values():
            self.send(self.batch, ids)

    def counts_line(self):
        return "core 0: calls %d messages 0 packets 0 short 0 batches %d asks 0 gives 0" % (self.calls, self.batches)
