"""Sources and sinks of which one call fails."""
from reading.answers import Answer
from table import USAGE, Devices, prints, row, shows

# Programs, and what they answer.
ALONE = "array a[1]; task main() { print 7; let x = a.add(0, 5); print x; }"
SEVEN = "task main() { print 7; }"
LOOP = "map m; task one(i) { m.merge max (5, i); } task main() { forall 0 .. 9 grain 1 one(); print 1; } show m;"
RUN = ("run", "--cores", "1")


def over(program, devices, due, words=RUN):
    return row("devices that fail", words, program, due)._replace(devices=devices)


def pieces(program, words, due, piece):
    """The program is read in pieces of so many bytes, the last read finding the end, and printed in pieces of one byte."""
    reads = -(-len(program) // piece) + 1
    for read in range(reads + 2):
        yield over(program, Devices(piece, read=read), Answer(4, "") if read < reads else due, words)
    for write in range(len(due.output) + 2):
        failed = Answer(5, due.output[:write])
        yield over(program, Devices(1, write=write), failed if write < len(due.output) else due, words)


def rows():
    yield from pieces(ALONE, RUN, prints(7, 0), 8)
    yield from pieces(SEVEN, ("run",), prints(7), 1)
    yield from pieces(SEVEN, ("run",), prints(7), 8)
    yield from pieces(LOOP, ("run",), shows("1", "map m: 5=8"), 64)
    yield over(SEVEN, Devices(1, write=0), Answer(5, ""), ("bench", "--size", "3"))
    yield over(ALONE, Devices(8, read=0, write=0), Answer(4, ""))
    yield over(ALONE, Devices(8, read=0), USAGE, ("runs",))
    yield over(SEVEN, Devices(8, read=0), shows("array a: 3"), ("bench", "--size", "3", "--kind", "sets"))
