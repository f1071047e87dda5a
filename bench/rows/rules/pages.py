"""What the repository shows elsewhere: the programs of examples/, and the programs and histories of its pages."""
import re

from reading.answers import divided
from reading.checker import CAUSES
from table import ACCEPTED, COMPLETE, OPEN, entry, refused, row

LANGUAGE, HISTORY = "docs/LANGUAGE.md", "docs/HISTORY.md"


def rows(root):
    yield from examples(root)
    yield from refusals((root / LANGUAGE).read_text())
    yield from replays((root / HISTORY).read_text())


def examples(root):
    """Each program of examples/ is accepted, and printed and read back. What runs of them print is stated by hand."""
    programs = {path.name: path.read_bytes() for path in sorted((root / "examples").glob("*.grappa"))}
    for text in programs.values():
        yield row("examples", ("check",), text, ACCEPTED)
    for path in sorted((root / "examples").glob("*.replay")):
        programs[path.name] = divided(path.read_bytes())[0]
    for text in programs.values():
        yield row("printed and read back", (), text)._replace(words=None)


def part(page, heading, name):
    """What stands under a heading of a page."""
    found = re.search(r"^#+ %s\n(.*?)(?=^#|\Z)" % re.escape(heading), page, re.M | re.S)
    if not found:
        raise SystemExit("%s: nothing stands under the heading '%s'" % (name, heading))
    return found.group(1)


def refusals(page):
    """The table of the page on the language that has a program for each refusal."""
    heading = "A program for each refusal"
    found = re.findall(r"^\| .* \| `(.*)` \| `refused line (\d+) column (\d+): (.*)` \|$", part(page, heading, LANGUAGE), re.M)
    if len(found) < len(CAUSES):
        raise SystemExit("%s: the table under '%s' has only %d programs" % (LANGUAGE, heading, len(found)))
    for program, line, column, cause in found:
        due = refused(int(line), int(column), cause)
        yield row("a program for each refusal", ("check",), program, due)


def replays(page):
    """The worked example of the page on histories, and what the page says of it with one line changed."""
    group, text = "the worked example of the page on histories", part(page, "A first look", HISTORY)
    found = re.search(r"^```replay\n(.*?)^```", text, re.M | re.S)
    if not found:
        raise SystemExit("%s: there is no replay under 'A first look'" % HISTORY)
    source = found.group(1)
    add, other, passed = "0.2 sum add 0 10 = 0\n", "0.1 sum add 0 1 = 10\n", "0.0 pass\n"
    before = source[:source.index(passed)].splitlines(keepends=True)
    for changed, due in (
            (source, COMPLETE), (source.replace(add + other, other + add), entry(4)),
            (source.replace(before[-1] + passed, passed + before[-1]), entry(7)), (source.replace("over\n", ""), OPEN)):
        yield row(group, ("replay",), changed, due)
