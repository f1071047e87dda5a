"""What a task does: its pure steps and its actions."""
from dataclasses import dataclass
from typing import Optional, Tuple

from . import grammar
from .checker import WORDS
from .tokens import WIDEST


class Trap(Exception):
    """A trap of this kind: `div`, `place` or `steps`."""


@dataclass(frozen=True)
class Call:
    object: str
    operation: str
    reducer: Optional[str]
    numbers: Tuple[int, ...]


@dataclass(frozen=True)
class Print:
    word: int


@dataclass(frozen=True)
class Start:
    """A start of a task: `how` is `spawn`, `at` or `offer`."""
    how: str
    core: Optional[int]
    target: str
    args: Tuple[int, ...]


@dataclass(frozen=True)
class Open:
    """The begin of a `finish`."""


@dataclass(frozen=True)
class Arrive:
    """The end of a `finish`."""


@dataclass(frozen=True)
class Loop:
    low: int
    high: int
    grain: int
    target: str
    args: Tuple[int, ...]


@dataclass(frozen=True)
class End:
    """The end of the body."""


@dataclass(frozen=True)
class Trapped:
    kind: str


PURE = object()


SIGNS = {
    "+": lambda a, b: (a + b) & WIDEST, "-": lambda a, b: (a - b) & WIDEST, "*": lambda a, b: (a * b) & WIDEST,
    "/": lambda a, b: a // b, "%": lambda a, b: a % b,
    "&": lambda a, b: a & b, "^": lambda a, b: a ^ b, "|": lambda a, b: a | b,
    "==": lambda a, b: int(a == b), "!=": lambda a, b: int(a != b), "<": lambda a, b: int(a < b),
    "<=": lambda a, b: int(a <= b), ">": lambda a, b: int(a > b), ">=": lambda a, b: int(a >= b)}


def value(expr, locals):
    """The word of an expression. Operands are evaluated from left to right, all of them."""
    if isinstance(expr, grammar.Literal):
        return expr.value
    if isinstance(expr, grammar.Local):
        return locals[expr.name.text]
    if isinstance(expr, grammar.Not):
        return int(value(expr.inner, locals) == 0)
    left, right = value(expr.left, locals), value(expr.right, locals)
    if expr.sign in ("/", "%") and right == 0:
        raise Trap("div")
    return SIGNS[expr.sign](left, right)


def values(exprs, locals):
    return tuple(value(expr, locals) for expr in exprs)


def block(statements, locals, memory):
    """The pure steps and actions of a block, in their order; each call's is answered by its result words."""
    for statement in statements:
        yield from DOES[type(statement)](statement, locals, memory)


def assign(statement, locals, memory):
    yield PURE
    locals[statement.target.text] = value(statement.value, locals)


def call(statement, locals, memory):
    numbers = values(statement.args, locals)
    name = statement.object.text
    if memory.meanings[name].kind in WORDS and statement.operation.text not in ("alloc", "free"):
        if memory.address(name, numbers[0]) is None:
            raise Trap("place")
    reducer = statement.reducer.text if statement.reducer else None
    words = yield Call(name, statement.operation.text, reducer, numbers)
    for target, word in zip(statement.targets, words):
        locals[target.text] = word


def print_(statement, locals, memory):
    yield Print(value(statement.value, locals))


def if_(statement, locals, memory):
    yield PURE
    yield from block(statement.yes if value(statement.test, locals) else statement.no, locals, memory)


def while_(statement, locals, memory):
    yield PURE
    while value(statement.test, locals):
        yield from block(statement.body, locals, memory)
        yield PURE


def finish(statement, locals, memory):
    yield Open()
    yield from block(statement.body, locals, memory)
    yield Arrive()


def start(statement, locals, memory):
    core = value(statement.core, locals) if statement.core else None
    yield Start(statement.how, core, statement.target.text, values(statement.args, locals))


def forall(statement, locals, memory):
    low, high, grain = values([statement.low, statement.high, statement.grain], locals)
    yield Loop(low, high, max(grain, 1), statement.target.text, values(statement.args, locals))


DOES = {
    grammar.Assign: assign, grammar.Call: call, grammar.Print: print_, grammar.If: if_, grammar.While: while_,
    grammar.Finish: finish, grammar.Start: start, grammar.Forall: forall}


class Running:
    """A task that runs: `action` is what it does next."""

    def __init__(self, item, args, memory, steps):
        self.steps = steps
        self.body = block(item.body, dict(zip((param.text for param in item.params), args)), memory)
        self.action = None
        self.go_on()

    def go_on(self, words=()):
        """Goes on with these result words to the next action: so many pure steps at most, then an action or a trap."""
        made = 0
        try:
            action = next(self.body) if self.action is None else self.body.send(words)
            while action is PURE:
                if made == self.steps:
                    raise Trap("steps")
                made += 1
                action = next(self.body)
            self.action = action
        except StopIteration:
            self.action = End()
        except Trap as trap:
            self.action = Trapped(trap.args[0])
