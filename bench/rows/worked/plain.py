"""What a program prints and leaves in its objects, where that is the same whatever the schedule: the reading's plain memory,
with the first task first that can make an action."""
from reading.checker import check
from reading.grammar import program_of
from reading.lines import Begin, Entry, Id, Over
from reading.steps import State
from reading.tasks import Arrive, Call, Print, Start, Trapped
from reading.tokens import tokens


class Plain:
    """A run to its end, or to a trap: its prints, its trap, how many entries its history has, and its memory."""
    def __init__(self, text, cores, steps):
        self.program = program_of(tokens(text.encode()))
        check(self.program)
        self.state = State(self.program, cores, steps)
        self.prints, self.trap, self.entries, self.made = [], None, 0, 0
        while self.trap is None and not self.state.over:
            if not any(self.goes_on(id) for id in list(self.state.tasks)) and not self.takes(Entry(None, Over())):
                raise ValueError("nothing goes on")

    def takes(self, entry):
        taken = self.state.step(entry)
        self.entries += taken is not None
        return taken is not None

    def new_id(self):
        self.made += 1
        return Id(0, self.made)

    def goes_on(self, id):
        """Whether the task has made an action."""
        task = self.state.tasks[id]
        if self.state.waits_at_loop(task):
            loop = self.state.scopes[task.opened[-1]]
            if loop.is_to_begin():
                return self.takes(Entry(id, Begin(loop.loop.low + len(loop.begun)), (), self.new_id()))
            return self.takes(Entry(id, Arrive()))
        action = task.action
        if isinstance(action, Start) and self.state.is_beyond(action):
            action = Trapped("core")
        if isinstance(action, Trapped):
            self.trap = "trap %s task %d.%d" % (action.kind, *id)
        if isinstance(action, Print):
            self.prints.append(action.word)
        child = self.new_id() if isinstance(action, Start) else None
        return self.takes(Entry(id, action, None if isinstance(action, Call) else (), child))

    def contents(self):
        """A line for each array, set and map."""
        memory, number = self.state.memory, -1
        for item in self.program.items:
            if item.kind not in ("array", "set", "map", "vector"):
                continue
            number += 1
            name = item.name.text
            if item.kind == "array":
                words = [memory.words.get(memory.bases[name] + place, 0) for place in range(item.words.value)]
                yield "object %d: words%s" % (number, "".join(" %d" % word for word in words))
            elif item.kind != "vector":
                held = dict.fromkeys(memory.sets[name], 0) if item.kind == "set" else memory.maps[name]
                yield "object %d: keys%s" % (number, "".join(" %d=%d" % pair for pair in sorted(held.items())))
