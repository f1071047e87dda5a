"""Terms of the definitions, as far as worked runs have them: applications, lists, records and numbers.

A term is a number; a list; a dict, for a record; or a tuple of a name and its arguments."""
import re

SIGN = re.compile(r"\s+|(?P<sign>∷|\+\+|\[\]|[(){};=])|(?P<word>[A-Za-z0-9_.]+)")


def definitions(text):
    """The bodies of the definitions of a file without parameters, by their names."""
    found = {}
    for block in re.split(r"\n\s*\n", text):
        block = "\n".join(line for line in block.split("\n") if not line.startswith("--"))
        match = re.match(r"abbrev pub (\w+) : .*\n\1 =\s", block)
        if match:
            found[match.group(1)] = block[match.end():]
    return found


def signs_of(text):
    at, found = 0, []
    while at < len(text):
        match = SIGN.match(text, at)
        if match is None:
            raise ValueError("no term: " + text[at:at + 40])
        at = match.end()
        if match.lastgroup:
            found.append(match.group(match.lastgroup))
    return found


class Reader:
    """Reads a term from signs. A name that is defined stands for its term."""
    def __init__(self, signs, defined):
        self.signs, self.at, self.defined = signs, 0, defined

    def peek(self):
        return self.signs[self.at] if self.at < len(self.signs) else None

    def next(self):
        self.at += 1
        return self.signs[self.at - 1]

    def expect(self, sign):
        if self.next() != sign:
            raise ValueError("no %s at %s" % (sign, self.signs[self.at - 3:self.at + 3]))

    def term(self):
        """A list is built from the right by ∷, and lists are joined by ++."""
        first = self.application()
        if self.peek() == "∷":
            self.next()
            return [first] + self.term()
        if self.peek() == "++":
            self.next()
            return first + self.term()
        return first

    def application(self):
        if self.peek() == "record":
            self.next()
            return self.fields()
        head, args = self.atom(), []
        while self.peek() is not None and (self.peek() in ("(", "[]") or self.peek()[0].isalnum()):
            args.append(self.fields() if self.peek() == "record" and self.next() else self.atom())
        return applied(head, args)

    def fields(self):
        self.expect("{")
        found = {}
        while self.peek() != "}":
            name = self.next()
            self.expect("=")
            found[name] = self.term()
            self.expect(";") if self.peek() == ";" else None
        self.expect("}")
        return found

    def atom(self):
        sign = self.next()
        if sign == "(":
            inner = self.term()
            self.expect(")")
            return inner
        if sign == "[]":
            return []
        if sign.isdigit():
            return int(sign)
        if sign in self.defined:
            return term_of(self.defined[sign], self.defined)
        return (sign,)


def applied(head, args):
    """A name with its arguments; any other term takes none. An entry that is marked is the list of that mark."""
    if not args:
        return head
    if head == ("marked",):
        return [("mark.Entry", *args)]
    if not isinstance(head, tuple):
        raise ValueError("no name: %r" % (head,))
    return head + tuple(args)


def term_of(text, defined):
    reader = Reader(signs_of(text), defined)
    found = reader.term()
    if reader.peek() is not None:
        raise ValueError("no end of a term: %s" % reader.signs[reader.at:reader.at + 5])
    return found
