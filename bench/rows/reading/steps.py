"""Which entries of a history are steps, and when a history is complete."""
from .checker import meanings
from .lines import Begin, Id, Over
from .memory import Memory
from .tasks import Arrive, Call, End, Loop, Open, Running, Start, Trapped

MAIN, ROOT = Id(0, 0), 0


class Scope:
    """What a wait is for: the scope under which it was opened, and of a loop its indices."""

    def __init__(self, parent, loop=None):
        self.parent, self.loop, self.begun = parent, loop, set()

    def is_to_begin(self):
        """Whether an index is still to begin."""
        return self.loop is not None and len(self.begun) < self.loop.high - self.loop.low


class Task:
    """A task, the scope in which it stands, and the scopes that it has opened and not passed."""

    def __init__(self, running, scope):
        self.running, self.scope, self.opened, self.trapped = running, scope, [], False

    @property
    def action(self):
        return self.running.action

    def innermost(self):
        return self.opened[-1] if self.opened else self.scope


class State:
    """What the entries so far have made."""

    def __init__(self, program, cores, steps):
        self.program, self.cores, self.steps = program, cores, steps
        self.memory, self.meanings = Memory(program), meanings(program)
        self.scopes, self.tasks, self.ids = {ROOT: Scope(None)}, {}, set()
        self.opened, self.over = 0, False
        self.begin(MAIN, "main", (), ROOT)

    def begin(self, id, target, args, scope):
        """A new task is going."""
        self.ids.add(id)
        self.tasks[id] = Task(Running(self.meanings[target], args, self.memory, self.steps), scope)

    def open(self, task, loop=None):
        self.opened += 1
        self.scopes[self.opened] = Scope(task.innermost(), loop)
        task.opened.append(self.opened)

    def waits_at_loop(self, task):
        return bool(task.opened) and self.scopes[task.opened[-1]].loop is not None

    def waits(self, task):
        return self.waits_at_loop(task) or isinstance(task.action, Arrive)

    def is_finished(self, scope):
        """Whether nothing is unfinished under the scope. A task that has ended is in `tasks` no more."""
        holders = [task.scope for task in self.tasks.values()]
        holders += [number for number, one in self.scopes.items() if one.is_to_begin()]
        return not any(self.is_under(holder, scope) for holder in holders)

    def is_under(self, scope, other):
        while scope is not None and scope != other:
            scope = self.scopes[scope].parent
        return scope == other

    def step(self, entry):
        """Makes the entry and gives it, or gives None where it is no step. A call with None for its result words stands for
        the one with those that the memory gives."""
        action = entry.action
        if isinstance(action, Over):
            return entry if self.step_over() else None
        task = self.tasks.get(entry.task)
        if task is None or task.trapped:
            return None
        if isinstance(action, Begin):
            return entry if self.step_begin(task, action.index, entry.child) else None
        if isinstance(action, Arrive):
            return entry if self.step_pass(task) else None
        if self.waits(task):
            return None
        if isinstance(action, Trapped):
            return entry if self.step_trap(task, action) else None
        return self.step_action(entry, task) if action == task.action else None

    def step_action(self, entry, task):
        """The task's next action, which the entry names rightly but for the result words or the new id."""
        action, words = entry.action, ()
        if isinstance(action, End):
            del self.tasks[entry.task]
            return entry
        if isinstance(action, Loop):
            self.open(task, action)
            return entry
        if isinstance(action, Start):
            if self.is_beyond(action) or entry.child in self.ids:
                return None
            self.begin(entry.child, action.target, action.args, task.innermost())
        elif isinstance(action, Open):
            self.open(task)
        elif isinstance(action, Call):
            words = tuple(self.memory.call(*vars(action).values()))
            if entry.words not in (None, words):
                return None
            entry = entry._replace(words=words)
        task.running.go_on(words)
        return entry

    def step_over(self):
        if self.over or not self.is_finished(ROOT):
            return False
        self.over = True
        return True

    def step_begin(self, task, index, child):
        if not self.waits_at_loop(task) or child in self.ids:
            return False
        number = task.opened[-1]
        scope = self.scopes[number]
        if not scope.loop.low <= index < scope.loop.high or index in scope.begun:
            return False
        scope.begun.add(index)
        self.begin(child, scope.loop.target, (index,) + scope.loop.args, number)
        return True

    def step_pass(self, task):
        if not self.waits(task) or not self.is_finished(task.opened[-1]):
            return False
        del self.scopes[task.opened.pop()]
        task.running.go_on()
        return True

    def is_beyond(self, start):
        """Whether this is a start at a core that there isn't."""
        return start.how == "at" and start.core >= self.cores

    def step_trap(self, task, trap):
        is_core_trap = isinstance(task.action, Start) and self.is_beyond(task.action) and trap.kind == "core"
        task.trapped = trap == task.action or is_core_trap
        return task.trapped
