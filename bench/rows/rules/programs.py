"""Programs that are checked."""
from reading.checker import OPERATIONS, REDUCERS
from reading.tokens import KEYWORDS
from table import ACCEPTED, refused, row

CHECK = ("check",)
EVERY_RULE = "bench/rows/every_rule.grappa"

# How an object of each kind is declared, and how a call names it.
DECLARED = {"array": ("array o[1];", "o"), "set": ("set o;", "o"), "map": ("map o;", "o"), "vector": ("vector o;", "o"),
            "heap": ("heap 1;", "heap")}

# A fault of each kind but a missing main. `@` marks its place, here and in all that is marked below.
FAULTS = [
    ("main has parameters", "task main(@x) { }"), ("duplicate name", "array d[1]; array @d[1];"),
    ("unknown name", "task tu() { print @x; }"), ("wrong kind", "array k[1]; task tk() { k.@push(1); }"),
    ("wrong number", "array n[1]; task tn() { n.@read(); }"), ("too many", "task tm(a, b, c, d, e, f, g, h, @i) { }"),
    ("heap too large", "array l[@16777217];"), ("input too long for its array", "array i[1]; input i = 1, @2;"),
    ("input of no array", "input @q = 1;")]


def rows(root):
    yield from operations()
    yield from reducers()
    yield from pairs()
    yield from keywords()
    yield from prefixes((root / EVERY_RULE).read_text())


def marked(group, text, cause):
    """A program of one line that is refused at the mark."""
    return row(group, CHECK, text.replace("@", ""), refused(1, text.index("@") + 1, cause))


def operations():
    """Each operation on each kind of object that has it, with every number of arguments, reducers and targets that is next
    to the right one."""
    for name, operation in OPERATIONS.items():
        for kind in operation.kinds:
            declared, object = DECLARED[kind]
            text = "%s task t() { %%s } task main() { }" % declared
            args = ", ".join(map(str, range(operation.args)))
            more = ", ".join(map(str, range(operation.args + 1)))
            fewer = ", ".join(map(str, range(operation.args - 1)))
            head = "%s.@%s%s(" % (object, name, " max" if operation.reduces else "")
            right = head.replace("@", "") + args + ")"
            yield row("wrong number", CHECK, text % (right + ";"), ACCEPTED)
            wrong = [head + more] + [head + fewer] * (operation.args > 0)
            wrong.append("%s.@%s%s(" % (object, name, "" if operation.reduces else " min") + args)
            for call in wrong:
                yield marked("wrong number", text % (call + ");"), "wrong number")
            for count, targets in ((1, "x"), (2, "x, y")):
                if count == operation.results:
                    yield row("wrong number", CHECK, text % ("let %s = %s;" % (targets, right)), ACCEPTED)
                else:
                    yield marked("wrong number", text % ("let @%s = %s;" % (targets, right)), "wrong number")


def reducers():
    for reducer in REDUCERS:
        text = "array a[1]; map m; task main() { a.reduce %s (0, 1); let x = m.merge %s (0, 1); }"
        yield row("wrong number", CHECK, text % (reducer, reducer), ACCEPTED)


def pairs():
    """Two faults in one program: the first in the text is told."""
    for cause, first in FAULTS:
        for _, second in FAULTS:
            if first != second:
                second = second.replace("@", "")
                end = "" if "main" in first + second else " task main() { }"
                yield marked("pairs", first + " " + second + end, cause)
        if "main" not in first:
            yield marked("pairs with no main", first, cause)


def keywords():
    for keyword in sorted(KEYWORDS):
        yield marked("keywords are no names", "task @%s() { }" % keyword, "unexpected")


def prefixes(text):
    """Each prefix of a program in which every rule of the grammar is used."""
    for length in range(len(text) + 1):
        yield row("prefixes", CHECK, text[:length], ACCEPTED if length == len(text) else None)
