#!/usr/bin/env python3
"""Measures the program: measure.py PROGRAM [NAME..]. PROGRAM is the built grappa, a NAME one of generate.py's, none: all.
Prints a table with a row for each text and each command; bench/README.md tells what its columns are."""
import os, subprocess, sys, tempfile, time
from generate import texts

TURNS = 3
GENERATE = os.path.join(os.path.dirname(os.path.abspath(__file__)), "generate.py")
COLUMNS = ["text", "words", "bytes", "entries", "seconds", "MB", "bytes an entry", "times the tenth", "status", "lines", "first line"]


def once(words, path):
    """Seconds, peak bytes, status, output of one turn."""
    with open(path, "rb") as source, tempfile.TemporaryFile() as sink:
        begun = time.monotonic()
        child = subprocess.Popen(words, stdin=source, stdout=sink)
        _, status, used = os.wait4(child.pid, 0)
        seconds = time.monotonic() - begun
        child.returncode = os.waitstatus_to_exitcode(status)
        sink.seek(0)
        return seconds, used.ru_maxrss * 1024, child.returncode, sink.read().decode().splitlines()


def measured(words, path):
    """The least seconds and the greatest peak of all turns, and the first's status and output."""
    turns = [once(words, path) for _ in range(TURNS)]
    return min(t[0] for t in turns), max(t[1] for t in turns), turns[0][2], turns[0][3]


def entries_of(path):
    """How many entries the history of a text has; None where it has none."""
    lines = None
    with open(path, "rb") as text:
        for line in text:
            if lines is not None:
                lines += 1
            elif line == b"---\n":
                lines = -1  # the first line of a history is no entry
    return lines


def made(name, file):
    """Writes the text of that name, in a process of its own, so that this one stays small."""
    subprocess.run([sys.executable, GENERATE, name], stdout=file, check=True)
    file.flush()


def least(program):
    """The peak of a replay of no entries."""
    with tempfile.NamedTemporaryFile() as file:
        file.write(b"task main() { }\n---\nhistory 1 cores 1 steps 1\n")
        file.flush()
        return measured([program, "replay"], file.name)[1]


def row(name, words, path, found, base, before):
    """The row of one text and one command; `before` has the seconds of the rows so far."""
    seconds, peak, status, lines = found
    entries = entries_of(path)
    each = "%.0f" % ((peak - base) / entries) if entries else ""
    kind, _, size = name.rpartition("-")
    tenth = before.get(("%s-%d" % (kind, int(size) // 10), words)) if kind else None
    times = "%.1f" % (seconds / tenth) if tenth else ""
    before[name, words] = seconds
    return [name, "`%s`" % " ".join(words), os.path.getsize(path), entries or "", "%.3f" % seconds, "%.0f" % (peak / 2 ** 20), each, times, status, len(lines),
            lines[0] if lines else ""]


def main():
    known = texts()
    if len(sys.argv) < 2 or any(name not in known for name in sys.argv[2:]):
        sys.exit(__doc__)
    program, names = sys.argv[1], sys.argv[2:] or list(known)
    base, before = least(program), {}
    print("| %s |\n|%s" % (" | ".join(COLUMNS), "---|" * len(COLUMNS)), flush=True)
    for name in names:
        with tempfile.NamedTemporaryFile() as file:
            made(name, file)
            for words in known[name][1]:
                cells = row(name, words, file.name, measured([program, *words], file.name), base, before)
                print("| %s |" % " | ".join(map(str, cells)), flush=True)


main()
