#!/usr/bin/env python3
"""Measures a core in which many tasks wait: core.py PROGRAM [EVENTS]. PROGRAM is the built gr_cores, EVENTS how many
events are timed, by default a million. Prints a table; bench/README.md tells what its columns are."""
import json, os, subprocess, sys
from pathlib import Path

sys.dont_write_bytecode = True
sys.path.insert(0, str(Path(__file__).resolve().parent / "rows"))

from worked.loads import row

TURNS = 3
WAITING = (1000, 10000, 100000)
COLUMNS = ["tasks that wait", "events", "seconds of processor", "nanoseconds each", "MB", "what came of it"]


def once(program, load):
    """The seconds of processor time of one turn, its peak of memory in megabytes, and what it wrote of it."""
    child = subprocess.Popen([program], stdin=subprocess.PIPE, stdout=subprocess.PIPE, text=True)
    child.stdin.write(json.dumps(load) + "\n")
    child.stdin.close()
    written = child.stdout.read()
    _, status, used = os.wait4(child.pid, 0)
    child.returncode = os.waitstatus_to_exitcode(status)
    if child.returncode:
        sys.exit("%s: status %d" % (load["name"], child.returncode))
    return used.ru_utime + used.ru_stime, used.ru_maxrss // 1024, written.splitlines()[1:]


def least(program, load):
    """The turn of least time of three."""
    return min((once(program, load) for _ in range(TURNS)), key=lambda turn: turn[0])


def main():
    if len(sys.argv) not in (2, 3):
        sys.exit(__doc__)
    program = sys.argv[1]
    events = int(sys.argv[2]) if sys.argv[2:] else 1000000
    print("| %s |\n|%s" % (" | ".join(COLUMNS), "---|" * len(COLUMNS)), flush=True)
    for waiting in WAITING:
        before, _, _ = least(program, row(waiting, 0))
        after, memory, lines = least(program, row(waiting, events))
        seconds = after - before
        cells = [waiting, events, "%.3f" % seconds, "%.0f" % (seconds * 1e9 / events), memory, "; ".join(lines)]
        print("| %s |" % " | ".join(map(str, cells)), flush=True)


main()
