"""Runs on the plain memory: which task takes the next step is free, and a schedule picks it.

A run of several cores takes its steps in an order that nobody knows beforehand. So its answer is told here only where it is
the same in each of these schedules; and its history only where no moment of the run leaves a choice."""
from .lines import Begin, Entry, Id, Over
from .steps import MAIN, ROOT, State
from .tasks import Arrive, Call, End, Print, Start, Trapped


class Free(Exception):
    """The answer isn't the same in each schedule."""


class Drawn:
    """Numbers that look drawn and are the same each time, on each machine and with each Python."""

    def __init__(self, seed):
        self.state = seed

    def below(self, count):
        self.state = (self.state * 6364136223846793005 + 1442695040888963407) % 2 ** 64
        return (self.state >> 33) % count


def newest(turn, count):
    return count - 1


def oldest(turn, count):
    return 0


def in_turn(turn, count):
    return turn % count


def drawn(seed):
    numbers = Drawn(seed)
    return lambda turn, count: numbers.below(count)


def schedules():
    return [newest, oldest, in_turn, drawn(1), drawn(2)]


class Run:
    """A run by a schedule, to its end or until nothing goes on any more."""

    def __init__(self, program, cores, steps, number, pick):
        self.state, self.number, self.pick = State(program, cores, steps), number, pick
        self.entries, self.trap, self.is_forced, self.made = [], None, True, 0
        self.going, self.waiting, self.standing = [MAIN], [], {ROOT: 1}
        turn = 0
        while self.going:
            turn += 1
            self.act(self.going[pick(turn, len(self.going))])
            if not self.going:
                self.going, self.waiting = [id for id in self.waiting if self.passes(id)], self.waiting
                self.waiting = [id for id in self.waiting if id not in self.going]
        if self.state.is_finished(ROOT):
            self.take(Entry(None, Over()))

    def take(self, entry):
        taken = self.state.step(entry)
        if taken is None:
            raise AssertionError("no step: %s" % (entry,))
        self.entries.append(taken)

    def passes(self, id):
        return self.state.is_finished(self.state.tasks[id].opened[-1])

    def has_step(self, id):
        task = self.state.tasks[id]
        return not self.state.waits(task) or self.begins(task) or self.passes(id)

    def begins(self, task):
        return self.state.waits_at_loop(task) and self.state.scopes[task.opened[-1]].is_to_begin()

    def act(self, id):
        """The next step of a task, or its wait."""
        task, action = self.state.tasks[id], self.state.tasks[id].action
        self.is_forced = self.is_forced and sum(map(self.has_step, self.going + self.waiting)) <= 1
        if self.state.waits(task):
            if self.begins(task):
                self.begin(id, self.state.scopes[task.opened[-1]])
            elif self.passes(id):
                self.take(Entry(id, Arrive()))
            else:
                self.going.remove(id)
                self.waiting.append(id)
        elif isinstance(action, Start) and self.state.is_beyond(action):
            self.stop(id, Trapped("core"))
        elif isinstance(action, Trapped):
            self.stop(id, action)
        elif isinstance(action, Start):
            self.start(Entry(id, action, child=self.new_id(id)))
        elif isinstance(action, End):
            self.end(id, task.scope)
        else:
            self.take(Entry(id, action, None if isinstance(action, Call) else ()))

    def begin(self, id, scope):
        """The next index of a loop begins: the first or the last of those that are left."""
        self.is_forced = False
        low, high = scope.loop.low, scope.loop.high
        index = high - 1 - len(scope.begun) if self.number % 2 else low + len(scope.begun)
        self.start(Entry(id, Begin(index), child=self.new_id(None)))

    def start(self, entry):
        self.take(entry)
        scope = self.state.tasks[entry.child].scope
        self.standing[scope] = self.standing.get(scope, 0) + 1
        self.going.append(entry.child)

    def stop(self, id, trapped):
        self.take(Entry(id, trapped))
        self.trap = self.trap or len(self.entries)
        self.going.remove(id)

    def end(self, id, scope):
        """The last task of a scope that ends may let others go on."""
        self.take(Entry(id, End()))
        self.going.remove(id)
        self.standing[scope] -= 1
        if not self.standing[scope]:
            self.going, self.waiting = self.waiting + self.going, []

    def new_id(self, maker):
        """As long as main alone starts tasks, they have the next numbers of its core. Otherwise a number is free, and is
        another one in each schedule."""
        self.made += 1
        if maker != MAIN:
            self.made += 1000000 * (self.number + 1)
        return Id(0, self.made)


def prints(entries):
    return [str(entry.action.word) for entry in entries if isinstance(entry.action, Print)]
