"""Loads of one core: tasks that wait, so many of them, and a task that calls again and again."""

TEXT = """array a[1];
set s;
task waits(i) { s.insert(i); }
task main() {
  let i = 0;
  while i < %d { spawn waits(i); i = i + 1; }
  while 1 { a.add(0, 1); }
}
"""


def first(waiting):
    """How many events are made until main has made its first call and all others wait: each of them is spawned, begins and
    makes its call."""
    return 3 * waiting + 1


def row(waiting, events):
    """The row of a load of so many tasks that wait, and so many events behind that. A call of main takes three: its
    request and the reply are served, and main makes the next."""
    return {"name": "a load of %d events beside %d tasks that wait" % (events, waiting), "cores": 1, "block": 8, "limit": 32,
            "steps": 1000000, "events": 1 << 40, "text": TEXT % waiting, "load": first(waiting) + events}


def rows():
    """Small loads, of whole calls of main, with what is due."""
    for waiting, calls in ((0, 4), (5, 10), (100, 1)):
        due = ["object 0: words %d" % calls, "object 1: keys"]
        due += ["core 0: clock %d calls %d messages 0 packets 0 short 0 batches 0 asks 0 gives 0 going"
                % (first(waiting) + 3 * calls, waiting + 1 + calls)]
        yield row(waiting, 3 * calls), due
