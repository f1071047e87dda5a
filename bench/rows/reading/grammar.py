"""Programs, and the one that tokens spell.

The parser looks at one token at a time, and never takes one after which no program goes on. So the token at which it
stops is the first that continues no program.
"""
from dataclasses import dataclass, field
from typing import List, NamedTuple, Optional, Union

from .tokens import Place, Refused

DEEPEST = 64
MOST_SIGNS = 255
# Binary signs from the loosest level to the tightest.
COMPARISONS = ("==", "!=", "<", "<=", ">", ">=")
LEVELS = (("|",), ("^",), ("&",), ("+", "-"), ("*", "/", "%"))
OBJECTS = ("array", "set", "map", "vector")


class Name(NamedTuple):
    text: str
    place: Place


class Number(NamedTuple):
    value: int
    place: Place


@dataclass
class Item:
    """An item; what it has depends on its kind: `array` name and words, `set`, `map`, `vector` and `show` name,
    `heap` words, `input` name and values, `task` name, params and body."""
    kind: str
    name: Optional[Name] = None
    words: Optional[Number] = None
    values: List[Number] = field(default_factory=list)
    params: List[Name] = field(default_factory=list)
    body: list = field(default_factory=list)


@dataclass
class Program:
    items: List[Item]
    end: Place


@dataclass
class Literal:
    value: int


@dataclass
class Local:
    name: Name


@dataclass
class Not:
    inner: "Expr"


@dataclass
class Two:
    sign: str
    left: "Expr"
    right: "Expr"


Expr = Union[Literal, Local, Not, Two]


@dataclass
class Call:
    """An object call, with the targets of its result words."""
    object: Name
    operation: Name
    reducer: Optional[Name]
    args: List[Expr]
    fresh: bool = False
    targets: List[Name] = field(default_factory=list)


@dataclass
class Assign:
    fresh: bool
    target: Name
    value: Expr


@dataclass
class Print:
    value: Expr


@dataclass
class If:
    test: Expr
    yes: list
    no: list


@dataclass
class While:
    test: Expr
    body: list


@dataclass
class Finish:
    body: list


@dataclass
class Start:
    """A spawn or an offer; `core` is there where `how` is `at`."""
    how: str
    core: Optional[Expr]
    target: Name
    args: List[Expr]


@dataclass
class Forall:
    low: Expr
    high: Expr
    grain: Expr
    target: Name
    args: List[Expr]


class Parser:
    """What is left of the tokens, and how deep the text is nested there."""

    def __init__(self, found):
        self.tokens, self.at = found, 0
        self.depth, self.signs = 0, 0

    # Tokens

    @property
    def kind(self):
        return self.tokens[self.at].kind

    def refuse(self):
        token = self.tokens[self.at]
        raise Refused("unexpected end" if token.kind == "end" else "unexpected", token.place)

    def take(self, *kinds):
        """The next token, which has to be of one of these kinds."""
        if self.kind not in kinds:
            self.refuse()
        self.at += 1
        return self.tokens[self.at - 1]

    def takes(self, kind):
        """Whether the next token is of this kind; then it is taken."""
        if self.kind == kind:
            self.at += 1
            return True
        return False

    def open(self, kind):
        """Takes a token that nests what follows."""
        if self.kind == kind and self.depth == DEEPEST:
            self.refuse()
        self.take(kind)
        self.depth += 1

    def close(self, kind):
        self.take(kind)
        self.depth -= 1

    def name(self):
        token = self.take("name")
        return Name(token.text, token.place)

    def number(self):
        token = self.take("number")
        return Number(token.value, token.place)

    def names(self, one):
        """One or more, with commas between them."""
        found = [one()]
        while self.takes(","):
            found.append(one())
        return found

    # Items

    def program(self):
        items = []
        while self.kind != "end":
            items.append(self.item())
        return Program(items, self.tokens[self.at].place)

    def item(self):
        kind = self.take(*OBJECTS, "heap", "show", "input", "task").kind
        if kind == "task":
            return self.task()
        item = Item(kind)
        if kind == "heap":
            item.words = self.number()
        else:
            item.name = self.name()
        if kind == "array":
            self.take("[")
            item.words = self.number()
            self.take("]")
        elif kind == "input":
            self.take("=")
            item.values = self.names(self.number)
        self.take(";")
        return item

    def task(self):
        item = Item("task", self.name())
        self.take("(")
        if self.kind != ")":
            item.params = self.names(self.name)
        self.take(")")
        item.body = self.block()
        return item

    # Statements

    def block(self):
        self.open("{")
        found = []
        while self.kind != "}":
            found.append(self.statement())
        self.close("}")
        return found

    def statement(self):
        kind = self.kind
        if kind in ("name", "heap", "let"):
            return self.assignment()
        self.take("print", "if", "while", "finish", "spawn", "offer", "forall")
        if kind == "if":
            test, yes = self.expr(), self.block()
            return If(test, yes, self.block() if self.takes("else") else [])
        if kind == "while":
            return While(self.expr(), self.block())
        if kind == "finish":
            return Finish(self.block())
        if kind == "print":
            found = Print(self.expr())
        elif kind == "forall":
            low = self.expr()
            self.take("..")
            high = self.expr()
            self.take("grain")
            found = Forall(low, high, self.expr(), self.name(), self.args())
        elif kind == "spawn" and self.takes("at"):
            found = Start("at", self.expr(), self.name(), self.args())
        else:
            found = Start(kind, None, self.name(), self.args())
        self.take(";")
        return found

    def assignment(self):
        """A call, or an assignment of a call or of an expression."""
        fresh = self.takes("let")
        if not fresh and self.kind == "heap":
            found = self.call(self.object())
        else:
            first = self.name()
            if not fresh and self.kind == ".":
                found = self.call(first)
            elif self.takes(","):
                second = self.name()
                self.take("=")
                found = self.call(self.object(), fresh, [first, second])
            else:
                self.take("=")
                found = self.right(fresh, first)
        self.take(";")
        return found

    def right(self, fresh, target):
        """What stands behind the `=` of one target. A name that a `.` follows begins a call, and so does `heap`."""
        if self.kind == "heap" or self.kind == "name" and self.tokens[self.at + 1].kind == ".":
            return self.call(self.object(), fresh, [target])
        return Assign(fresh, target, self.expr())

    def object(self):
        token = self.take("name", "heap")
        return Name(token.text, token.place)

    def call(self, object, fresh=False, targets=()):
        self.take(".")
        operation = self.name()
        reducer = self.name() if self.kind == "name" else None
        return Call(object, operation, reducer, self.args(), fresh, list(targets))

    def args(self):
        self.open("(")
        found = self.names(self.expr) if self.kind != ")" else []
        self.close(")")
        return found

    # Expressions

    def expr(self):
        """A whole expression, with a count of binary signs of its own."""
        outer, self.signs = self.signs, 0
        found = self.comparison()
        self.signs = outer
        return found

    def comparison(self):
        left = self.level(0)
        if self.kind in COMPARISONS:
            return Two(self.sign(), left, self.level(0))
        return left

    def level(self, which):
        if which == len(LEVELS):
            return self.unary()
        found = self.level(which + 1)
        while self.kind in LEVELS[which]:
            found = Two(self.sign(), found, self.level(which + 1))
        return found

    def sign(self):
        if self.signs == MOST_SIGNS:
            self.refuse()
        self.signs += 1
        return self.take(self.kind).kind

    def unary(self):
        if self.kind == "!":
            self.open("!")
            found = Not(self.unary())
            self.depth -= 1
        elif self.kind == "(":
            self.open("(")
            found = self.comparison()
            self.close(")")
        elif self.kind == "number":
            found = Literal(self.number().value)
        else:
            found = Local(self.name())
        return found


def program_of(found):
    """The program that these tokens spell, or the first token that continues none."""
    return Parser(found).program()
