"""Rows, the files in which they are stated, and the table that crates/gr_rows reads.

A file of stated rows (stated/*.rows) has a line for each row, and lines that say what holds for the rows behind them:

    # a comment
    == GROUP                the group of the rows that follow
    words WORD ..           their words
    front TEXT              what stands before the text of each of them; nothing at the start of a group
    ANSWER | TEXT           a row: the answer that is due to these words and this source
    ANSWER < FILE           the same, the source being a file of the repository
    ANSWER > WORD ..        the same for these words; the source is what `front` says

WORD .. is words with blanks between them, or a JSON list of words.

TEXT is the source as it is, with `\\n`, `\\t`, `\\r`, `\\\\`, `\\xHH` for a byte, and `\\(N:TEXT\\)` for the text N times, in
which `\\#` is the count of the turn, from 0.

ANSWER is one of

    accepted                    too long        complete        entry K     the K-th entry is the first that is no step
    refused LINE:COLUMN CAUSE   usage           open            bad K       the K-th line of the history is the first bad one
    prints NUMBER ..            status 0 and these numbers
    status N: LINE; LINE ..     status N and these lines
"""
import json
import re
from typing import NamedTuple, Optional, Tuple

from reading import answers, words
from reading.answers import Answer, told
from reading.grammar import program_of
from reading.tokens import Place, Refused, tokens

# A longer source is written as its pieces, each with the number of times that it is repeated.
LONG = 10000


class Devices(NamedTuple):
    """A source and a sink that give and take so many bytes a call, of which the call with this number, from 0, fails."""
    piece: int
    read: Optional[int] = None
    write: Optional[int] = None


class Row(NamedTuple):
    """A row: its source is pieces, each with the number of times that it is repeated. Without words it is a program that is
    to be printed and read back. `due` is the answer that is stated, or None where only the reading says it. Where no devices
    are said, none of their calls fails."""
    group: str
    words: Optional[Tuple[str, ...]]
    pieces: Tuple[Tuple[bytes, int], ...]
    due: Optional[Answer]
    place: str
    devices: Optional[Devices] = None

    @property
    def source(self):
        return b"".join(text * times for text, times in self.pieces)


def row(group, words, text, due=None, place="a rule"):
    """A row whose source is this text."""
    return Row(group, tuple(words), ((text.encode() if isinstance(text, str) else text, 1),), due, place)


# Answers

ACCEPTED, USAGE, TOO_LONG = told(0, "accepted"), told(2, words.USAGE), told(8, "input too long")
COMPLETE, OPEN = told(0, "legal complete"), told(0, "legal open")


def refused(line, column, cause):
    return answers.refusal(cause, Place(line, column))


def entry(count):
    return told(9, "not legal at entry %d" % count)


def bad(line):
    return told(10, "bad history line %d" % line)


def prints(*numbers):
    return told(0, *map(str, numbers))


def shows(*lines):
    return told(0, *lines)


FORMS = [
    (r"accepted", lambda: ACCEPTED), (r"usage", lambda: USAGE), (r"too long", lambda: TOO_LONG),
    (r"complete", lambda: COMPLETE), (r"open", lambda: OPEN),
    (r"refused (\d+):(\d+) (.+)", lambda line, column, cause: refused(int(line), int(column), cause)),
    (r"entry (\d+)", lambda count: entry(int(count))), (r"bad (\d+)", lambda line: bad(int(line))),
    (r"prints((?: \d+)*)", lambda numbers: prints(*numbers.split())),
    (r"status (\d+): (.+)", lambda status, lines: told(int(status), *lines.split("; "))),
]


def answer_of(text):
    """The answer that is stated so."""
    for form, made in FORMS:
        match = re.fullmatch(form, text)
        if match:
            return made(*match.groups())
    raise ValueError("no answer: " + text)


# Files of stated rows

PART = re.compile(
    r"\\\((?P<times>\d+):|(?P<close>\\\))|(?P<count>\\#)|\\x(?P<byte>[0-9a-f]{2})|\\(?P<escape>[ntr\\])|(?P<plain>[^\\]+)")
ESCAPES = {"n": b"\n", "t": b"\t", "r": b"\r", "\\": b"\\"}
COUNT = None


def parts_of(text):
    """The parts of a text with escapes: bytes, COUNT where the count of the turn stands, and repetitions: parts, and how often."""
    open, times, at = [[]], [], 0
    while at < len(text):
        match = PART.match(text, at)
        if match is None:
            raise ValueError("no such escape: " + text[at:])
        at, kind = match.end(), match.lastgroup
        part = match.group(kind)
        if kind == "times":
            open.append([])
            times.append(int(part))
        elif kind == "close" and times:
            inner = open.pop()
            open[-1].append((inner, times.pop()))
        elif kind == "close":
            raise ValueError("a repetition ends that has not begun: " + text)
        elif kind == "count":
            open[-1].append(COUNT)
        else:
            open[-1].append({"byte": bytes.fromhex, "escape": ESCAPES.get, "plain": str.encode}[kind](part))
    if times:
        raise ValueError("a repetition without end: " + text)
    return open[0]


def flat(parts, turn=0):
    """The bytes of the parts, in the turn with this count."""
    found = b""
    for part in parts:
        if part is COUNT:
            found += str(turn).encode()
        elif isinstance(part, tuple):
            found += b"".join(flat(part[0], count) for count in range(part[1]))
        else:
            found += part
    return found


def counts(parts):
    """Whether the parts differ from turn to turn."""
    return any(part is COUNT for part in parts)


def pieces_of(text):
    """The pieces of a text with escapes: a repetition is a piece of its own."""
    found = []
    for part in parts_of(text):
        repeated = isinstance(part, tuple) and not counts(part[0])
        piece = (flat(part[0]), part[1]) if repeated else (flat([part]), 1)
        if found and piece[1] == found[-1][1] == 1:
            piece = (found.pop()[0] + piece[0], 1)
        found.append(piece)
    return found


def words_of(text):
    return tuple(json.loads(text)) if text.startswith("[") else tuple(text.split())


def stated(path, root):
    """The rows of a file of stated rows."""
    group, given, front = None, (), ()
    for count, line in enumerate(path.read_text(encoding="utf-8").split("\n"), 1):
        place = "%s line %d" % (path.relative_to(root), count)
        key, _, rest = line.partition(" ")
        if not line or key == "#":
            continue
        if key == "==":
            group, front = rest, ()
        elif key == "words":
            given = words_of(rest)
        elif key == "front":
            front = tuple(pieces_of(rest))
        else:
            yield stated_row(line, group, given, front, place, root)


def stated_row(line, group, given, front, place, root):
    match = re.match(r"(.*?) ([|<>])(?: (.*))?$", line)
    try:
        if match is None:
            raise ValueError("neither a row nor what holds for rows: " + line)
        due, source = answer_of(match.group(1)), match.group(3) or ""
        if match.group(2) == ">":
            return Row(group, words_of(source), front, due, place)
        text = [((root / source).read_bytes(), 1)] if match.group(2) == "<" else pieces_of(source)
        return Row(group, given, front + tuple(text), due, place)
    except (ValueError, OSError) as error:
        raise SystemExit("%s: %s" % (place, error))


# The table

def line_of(row, due):
    """The line of the table for a row."""
    if row.words is None:
        return json.dumps({"group": row.group, "program": row.source.decode()}) + "\n"
    made = {"group": row.group, "words": list(row.words)}
    if row.devices is not None:
        made.update((name, value) for name, value in row.devices._asdict().items() if value is not None)
    if sum(len(text) * times for text, times in row.pieces) > LONG:
        made["pieces"] = [[text.decode(), times] for text, times in row.pieces]
    else:
        source = row.source
        try:
            made["text"] = source.decode()
        except UnicodeDecodeError:
            made["hex"] = source.hex()
    return json.dumps({**made, "status": due.status, "output": due.output}) + "\n"


def row_of(line, place):
    """The row that a line of the table is."""
    made = json.loads(line)
    if "program" in made:
        return Row(made["group"], None, ((made["program"].encode(), 1),), None, place)
    if "pieces" in made:
        pieces = tuple((text.encode(), times) for text, times in made["pieces"])
    else:
        pieces = ((made["text"].encode() if "text" in made else bytes.fromhex(made["hex"]), 1),)
    devices = Devices(made["piece"], made.get("read"), made.get("write")) if "piece" in made else None
    return Row(made["group"], tuple(made["words"]), pieces, Answer(made["status"], made["output"]), place, devices)


def judged(row):
    """What the reading answers to a row. A program that is to be read back has to be in the grammar."""
    if row.words is not None:
        return answers.answer(row.words, row.source) if row.devices is None else answers.over(row.words, row.source, *row.devices)
    try:
        program_of(tokens(row.source))
        return None
    except Refused as refusal:
        return answers.refusal(refusal.cause, refusal.place)
