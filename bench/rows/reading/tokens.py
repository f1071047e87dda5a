"""Tokens and their places."""
import re
from typing import NamedTuple

WIDEST = 2 ** 64 - 1
LONGEST_NAME = 32
KEYWORDS = frozenset(
    "array set map vector heap input show task let if else while print spawn at offer finish forall grain".split())
SIGNS = "( ) { } [ ] ; , . .. = == != < <= > >= + - * / % & | ^ !".split()

# A token is the longest that fits, so the longer signs come first.
SHAPE = re.compile(
    rb"(?P<blank>[ \t\r\n]+|#[^\n]*)|(?P<word>[A-Za-z_][A-Za-z0-9_]*)|(?P<digits>[0-9]+)|(?P<sign>%s)"
    % b"|".join(re.escape(sign.encode()) for sign in sorted(SIGNS, key=len, reverse=True)))


class Place(NamedTuple):
    """A line and a column, both from 1. A column is a byte."""
    line: int
    column: int


class Refused(Exception):
    """A text is refused: for this cause, at this place."""

    def __init__(self, cause, place):
        super().__init__(cause, place)
        self.cause, self.place = cause, place


class Token(NamedTuple):
    """A token. Its kind is `name`, `number`, `end`, or the keyword or sign itself; of a number, `value` is what it says."""
    kind: str
    text: str
    value: int
    place: Place


def is_name(text):
    """Whether the text (bytes) is a name of the language."""
    is_spelled = re.fullmatch(rb"[A-Za-z_][A-Za-z0-9_]*", text) is not None
    return is_spelled and len(text) <= LONGEST_NAME and text.decode() not in KEYWORDS


def number(digits):
    """The number of these decimal digits (bytes), None where it is wider than a word. Zeros in front are allowed."""
    digits = digits.lstrip(b"0") or b"0"
    value = int(digits) if len(digits) <= 20 else WIDEST + 1
    return value if value <= WIDEST else None


def tokens(text):
    """All tokens of the text (bytes), with one of kind `end` behind them, or the first fault of a token."""
    found, at, line, start = [], 0, 1, 0
    while at < len(text):
        place = Place(line, at - start + 1)
        match = SHAPE.match(text, at)
        if match is None:
            raise Refused("bad byte", place)
        at = match.end()
        part = match.group()
        if match.lastgroup == "blank":
            line += part.count(b"\n")
            if b"\n" in part:
                start = match.start() + part.rindex(b"\n") + 1
        else:
            found.append(token(match.lastgroup, part, place))
    return found + [Token("end", "", 0, Place(line, at - start + 1))]


def token(shape, part, place):
    """The token of this shape, or its fault."""
    if shape == "digits":
        value = number(part)
        if value is None:
            raise Refused("number too wide", place)
        return Token("number", "", value, place)
    text = part.decode()
    if shape == "sign" or text in KEYWORDS:
        return Token(text, text, 0, place)
    if len(part) > LONGEST_NAME:
        raise Refused("name too long", place)
    return Token("name", text, 0, place)
