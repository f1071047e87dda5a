#!/usr/bin/env python3
"""Measures the parts of a core: parts.py PROGRAM [LOAD..]. PROGRAM is the built gr_load, a LOAD the name of one of its
loads, none: all. Prints a table with a row for each load and size; bench/README.md tells what its columns are."""
import os, subprocess, sys

TURNS = 3
LOADS = [  # the load, how often in its greater size, and its second number
    ("steps", 3333333, ""), ("units", 1000000, ""), ("indices", 1000000, ""),
    ("calls", 1000000, 1), ("calls", 1000000, 10), ("calls", 1000000, 10000), ("keys", 1000000, 10000),
    ("packets", 1000000, 1), ("packets", 1000000, 32), ("packets", 1000000, 256), ("words", 10000000, ""),
    ("positions", 1000000, ""), ("turns", 1000000, ""), ("groups", 1000000, ""), ("scopes", 1000000, ""),
    ("enrolments", 1000000, ""),
]
COLUMNS = ["load", "how often", "seconds of processor", "nanoseconds each", "times the tenth", "what came of it"]


def once(program, line):
    """The seconds of processor time of one turn, and what it wrote."""
    child = subprocess.Popen([program], stdin=subprocess.PIPE, stdout=subprocess.PIPE, text=True)
    child.stdin.write(line + "\n")
    child.stdin.close()
    written = child.stdout.read()
    _, status, used = os.wait4(child.pid, 0)
    child.returncode = os.waitstatus_to_exitcode(status)
    if child.returncode:
        sys.exit("%s: status %d" % (line, child.returncode))
    return used.ru_utime + used.ru_stime, written.strip().rpartition(": ")[2]


def main():
    known = {load for load, _, _ in LOADS}
    if len(sys.argv) < 2 or any(name not in known for name in sys.argv[2:]):
        sys.exit(__doc__)
    program, names = sys.argv[1], sys.argv[2:] or known
    print("| %s |\n|%s" % (" | ".join(COLUMNS), "---|" * len(COLUMNS)), flush=True)
    for load, most, size in LOADS:
        if load not in names:
            continue
        tenth = None
        for count in (most // 10, most):
            turns = [once(program, ("%s %d %s" % (load, count, size)).strip()) for _ in range(TURNS)]
            seconds = min(turn[0] for turn in turns)
            times = "%.1f" % (seconds / tenth) if tenth else ""
            tenth = seconds
            cells = [("`%s %s`" % (load, size)).replace(" `", "`"), count, "%.3f" % seconds, "%.0f" % (seconds * 1e9 / count), times, turns[0][1]]
            print("| %s |" % " | ".join(map(str, cells)), flush=True)


main()
