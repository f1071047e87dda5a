"""The ten conditions under which a program of the grammar is refused."""
from typing import NamedTuple

from . import grammar
from .tokens import Refused

# At one place the first of these is told.
CAUSES = ("no main", "main has parameters", "duplicate name", "unknown name", "wrong kind", "wrong number", "too many",
          "heap too large", "input too long for its array", "input of no array")
MOST_TASKS, MOST_OBJECTS, MOST_LOCALS, MOST_PARAMS, MOST_WORDS = 256, 64, 64, 8, 2 ** 24
REDUCERS = ("add", "min", "max", "or", "and", "xor", "first", "last")


class Operation(NamedTuple):
    """The kinds of object that have it, how many arguments it takes, how many result words it gives, whether it takes a
    reducer."""
    kinds: tuple
    args: int
    results: int
    reduces: bool = False


WORDS = ("array", "heap")
OPERATIONS = {
    "read": Operation(WORDS, 1, 1), "write": Operation(WORDS, 2, 0), "add": Operation(WORDS, 2, 1),
    "cas": Operation(WORDS, 3, 1), "reduce": Operation(WORDS, 2, 1, True),
    "insert": Operation(("set",), 1, 1), "remove": Operation(("set",), 1, 1), "has": Operation(("set",), 1, 1),
    "put": Operation(("map",), 2, 1), "merge": Operation(("map",), 2, 1, True), "get": Operation(("map",), 1, 2),
    "erase": Operation(("map",), 1, 1),
    "push": Operation(("vector",), 1, 0), "pop": Operation(("vector",), 0, 2), "dequeue": Operation(("vector",), 0, 2),
    "alloc": Operation(("heap",), 1, 1), "free": Operation(("heap",), 1, 1),
}


def meanings(program):
    """What each name means: the first item that declares it. The heap is declared under its keyword."""
    found = {}
    for item in program.items:
        if item.kind in grammar.OBJECTS + ("task", "heap"):
            found.setdefault(item.name.text if item.name else "heap", item)
    return found


class Checker:
    """Notes every fault of a program."""

    def __init__(self, program):
        self.program, self.meanings = program, meanings(program)
        self.faults = []

    def note(self, cause, place):
        self.faults.append((place, CAUSES.index(cause)))

    # Items

    def heads(self):
        """What the items have wrong among themselves."""
        inputs, declared, counts, words = set(), set(), {"task": 0, "object": 0}, 0
        for item in self.program.items:
            if item.kind == "input":
                self.input(item, inputs)
            elif item.kind == "show":
                self.show(item)
            else:
                self.declaration(item, declared, counts)
            if item.words:
                if words <= MOST_WORDS < words + item.words.value:
                    self.note("heap too large", item.words.place)
                words += item.words.value
        self.main()

    def declaration(self, item, declared, counts):
        name, place = (item.name.text, item.name.place) if item.name else ("heap", item.words.place)
        if name in declared:
            self.note("duplicate name", place)
        declared.add(name)
        if item.kind != "heap":
            counted, most = ("task", MOST_TASKS) if item.kind == "task" else ("object", MOST_OBJECTS)
            counts[counted] += 1
            if counts[counted] > most:
                self.note("too many", place)

    def main(self):
        named = [item for item in self.program.items if item.kind == "task" and item.name.text == "main"]
        if not named:
            self.note("no main", self.program.end)
        for item in named:
            if item.params:
                self.note("main has parameters", item.params[0].place)

    def input(self, item, seen):
        meant = self.meanings.get(item.name.text)
        if item.name.text in seen:
            self.note("duplicate name", item.name.place)
        seen.add(item.name.text)
        if meant is None or meant.kind != "array":
            self.note("input of no array", item.name.place)
        elif len(item.values) > meant.words.value:
            self.note("input too long for its array", item.values[meant.words.value].place)

    def show(self, item):
        meant = self.meanings.get(item.name.text)
        if meant is None:
            self.note("unknown name", item.name.place)
        elif meant.kind == "task":
            self.note("wrong kind", item.name.place)

    # Tasks

    def task(self, item):
        self.given = set()
        for count, param in enumerate(item.params):
            self.give(param)
            if count >= MOST_PARAMS:
                self.note("too many", param.place)
        self.block(item.body, {param.text for param in item.params})

    def give(self, name):
        """A parameter or a target of `let`."""
        if name.text in self.given:
            self.note("duplicate name", name.place)
            return
        self.given.add(name.text)
        if len(self.given) > MOST_LOCALS:
            self.note("too many", name.place)

    def block(self, block, visible):
        visible = set(visible)
        for statement in block:
            self.statement(statement, visible)

    def statement(self, statement, visible):
        """Notes the faults of a statement, and makes visible what it gives."""
        if isinstance(statement, (grammar.Assign, grammar.Call)):
            self.assignment(statement, visible)
        elif isinstance(statement, grammar.If):
            self.expr(statement.test, visible)
            self.block(statement.yes, visible)
            self.block(statement.no, visible)
        elif isinstance(statement, grammar.While):
            self.expr(statement.test, visible)
            self.block(statement.body, visible)
        elif isinstance(statement, grammar.Finish):
            self.block(statement.body, visible)
        elif isinstance(statement, grammar.Print):
            self.expr(statement.value, visible)
        else:
            loop = isinstance(statement, grammar.Forall)
            parts = [statement.low, statement.high, statement.grain] if loop else [statement.core] if statement.core else []
            for part in parts + statement.args:
                self.expr(part, visible)
            self.start(statement.target, len(statement.args) + loop)

    def assignment(self, statement, visible):
        targets = [statement.target] if isinstance(statement, grammar.Assign) else statement.targets
        if isinstance(statement, grammar.Assign):
            self.expr(statement.value, visible)
        else:
            self.call(statement, visible)
        for target in targets:
            if statement.fresh:
                self.give(target)
            elif target.text not in visible:
                self.note("unknown name", target.place)
        if statement.fresh:
            visible.update(target.text for target in targets)

    def call(self, call, visible):
        meant = self.meanings.get(call.object.text)
        operation = OPERATIONS.get(call.operation.text)
        if meant is None:
            self.note("unknown name", call.object.place)
        elif meant.kind == "task":
            self.note("wrong kind", call.object.place)
        if operation is None:
            self.note("unknown name", call.operation.place)
        else:
            if meant is not None and meant.kind != "task":
                if meant.kind not in operation.kinds:
                    self.note("wrong kind", call.operation.place)
                elif call.targets and len(call.targets) != operation.results:
                    self.note("wrong number", call.targets[0].place)
            if len(call.args) != operation.args or (call.reducer is not None) != operation.reduces:
                self.note("wrong number", call.operation.place)
        if call.reducer is not None and call.reducer.text not in REDUCERS:
            self.note("unknown name", call.reducer.place)
        for arg in call.args:
            self.expr(arg, visible)

    def start(self, target, args):
        meant = self.meanings.get(target.text)
        if meant is None:
            self.note("unknown name", target.place)
        elif meant.kind != "task":
            self.note("wrong kind", target.place)
        elif len(meant.params) != args:
            self.note("wrong number", target.place)

    def expr(self, expr, visible):
        if isinstance(expr, grammar.Local):
            if expr.name.text not in visible:
                self.note("unknown name", expr.name.place)
        elif isinstance(expr, grammar.Not):
            self.expr(expr.inner, visible)
        elif isinstance(expr, grammar.Two):
            self.expr(expr.left, visible)
            self.expr(expr.right, visible)


def check(program):
    """Refuses the program at the first of all its faults, if it has any."""
    checker = Checker(program)
    checker.heads()
    for item in program.items:
        if item.kind == "task":
            checker.task(item)
    if checker.faults:
        place, cause = min(checker.faults)
        raise Refused(CAUSES[cause], place)
