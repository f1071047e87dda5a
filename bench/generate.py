#!/usr/bin/env python3
"""Writes the texts that are measured: generate.py NAME > FILE. Without a name it lists the names.
The same name gives the same bytes each time."""
import sys

CHECK, RUN, REPLAY = ("check",), ("run", "--cores", "1"), ("replay",)


def straight(statements):
    """A program of one task: `statements` statements in a row, of six kinds in turn."""
    kinds = [
        "x = x * 6364136223846793005 + {k};",
        "y = a.add({place}, x);",
        "a.write({place}, y ^ {k});",
        "y = a.read({place});",
        "x = x - y + ({k} & 255);",
        "print x;",
    ]
    lines = ["array a[64];", "task main() {", "  let x = 1;", "  let y = 0;"]
    for k in range(statements - 2):
        lines.append("  " + kinds[k % len(kinds)].format(k=k, place=k % 64))
    return "\n".join(lines + ["}"]) + "\n"


ORDINARY = """
# task {k}: looks at a key, and adds to the sums of its group
task step{k}(i, s) {{
  let key = from.read((i + s) % 1000);
  let fresh = seen.insert(key);
  if fresh == 1 {{
    let n = sums.add(key % 1000, i * 3 + {k});
    if (n > 4000000000) | (n == 0) {{ later.push(n); }} else {{ best.merge max (key, n - i); }}
  }} else {{
    while i > 0 {{
      i = i / 2;
      sums.reduce xor (i % 1000, (key & 255) ^ s);
    }}
  }}
}}
"""


def ordinary(size):
    """A text of about `size` bytes, like those that people write: as many tasks as are allowed, then longer bodies."""
    head = "array from[1000]; array sums[1000];\nset seen; map best; vector later;\ninput from = 7, 5, 3, 2, 1;\n"
    main = "task main() {{\n  let t = 0;\n{body}}}\nshow sums;\nshow best;\n"
    turn = "  finish {{ forall 0 .. {k} grain 16 step{task}(t); }}\n  t = (t + {k}) % 65536; # goes on\n"
    tasks = min(255, max(1, size // (2 * len(ORDINARY))))
    parts = [head] + [ORDINARY.format(k=k) for k in range(tasks)]
    left = size - sum(map(len, parts)) - len(main)
    body = []
    while left > 0:
        body.append(turn.format(k=len(body) + 1, task=len(body) % tasks))
        left -= len(body[-1])
    return "".join(parts) + main.format(body="".join(body))


def nested():
    """64 nestings: the block of main, 31 blocks within it, and 32 brackets in the innermost."""
    return "task main() { " + "if 1 { " * 31 + "print " + "(" * 32 + "7" + ")" * 32 + "; " + "} " * 31 + "}\n"


def signs():
    """255 binary signs in one expression."""
    return "task main() { let x = 1; print " + " + ".join(["x"] * 256) + "; }\n"


def names():
    """256 tasks, 64 objects and 64 locals in each task, with names as long as fit into one text."""
    objects = ["object_%09d" % k for k in range(64)]
    own = ["local_%06d" % k for k in range(64)]
    text = ["array %s[4];" % n for n in objects]
    for t in range(256):
        text.append("task %s() {" % ("main" if t == 255 else "t" * 29 + "%03d" % t))
        text += ["let %s=%s.add(%d,%s);" % (n, objects[k], k % 4, own[k - 1] if k else "1") for k, n in enumerate(own)]
        text.append("}")
    return "\n".join(text) + "\n"


def spaces():
    """The longest text: 2^20 spaces."""
    return " " * (1 << 20)


def brackets():
    """The longest text of opening brackets, of which the 64th is refused."""
    front = "task main() { print "
    return front + "(" * ((1 << 20) - len(front))


def replay(program, entries):
    """A program, the dividing line and a history of these entries, which main and the run end."""
    yield program + "---\nhistory 1 cores 4 steps 1000000\n"
    for entry in entries:
        yield entry + "\n"
    yield "0.0 end\nover\n"


def adds(entries):
    """One task that adds in a loop."""
    turns = entries - 2
    program = "array a[1];\ntask main() {\n  let i = 0;\n  while i < %d { a.add(0, 1); i = i + 1; }\n}\n" % turns
    return replay(program, ("0.0 a add 0 1 = %d" % i for i in range(turns)))


def loop(entries):
    """A loop of which each index begins before the first of its tasks goes on; three entries an index."""
    count = (entries - 4) // 3
    ids = ["%d.%d" % (k % 4, k // 4 + 1) for k in range(count)]

    def lines():
        yield "0.0 forall 0 %d grain 16 one" % count
        yield from ("0.0 begin %d as %s" % (k * 7919 % count, who) for k, who in enumerate(ids))
        yield from ("%s a add 0 1 = %d\n%s end" % (who, k, who) for k, who in enumerate(ids))
        yield "0.0 pass"
    return replay("array a[1];\ntask one(i) { a.add(0, 1); }\ntask main() { forall 0 .. %d grain 16 one(); }\n" % count, lines())


def finishes(entries, depth=60):
    """Waits in waits, so deep, again and again, with one task in the innermost."""
    turns = (entries - 2) // (2 * depth + 2)
    body = "finish { " * depth + "spawn leaf(); " + "} " * depth
    program = "task leaf() { }\ntask main() {\n  let i = 0;\n  while i < %d {\n    %s\n    i = i + 1;\n  }\n}\n" % (turns, body)
    turn = "0.0 finish\n" * depth + "0.0 spawn leaf as 1.{0}\n1.{0} end" + "\n0.0 pass" * depth
    return replay(program, (turn.format(k) for k in range(turns)))


def keys(entries):
    """A map of which half the entries put a key, far from the one before, and the other half get it."""
    count, factor = (entries - 2) // 2, 6364136223846793005
    calls = ("m.put(i * %d, i);" % factor, "let f, x = m.get(i * %d);" % factor)
    loops = ["  while i < %d { %s i = i + 1; }\n" % (count, call) for call in calls]

    def lines():
        yield from ("0.0 m put %d %d = 1" % (k * factor % 2 ** 64, k) for k in range(count))
        yield from ("0.0 m get %d = 1 %d" % (k * factor % 2 ** 64, k) for k in range(count))
    return replay("map m;\ntask main() {\n  let i = 0;\n" + "  i = 0;\n".join(loops) + "}\n", lines())


def words(entries):
    """A vector that is filled by half the entries, and emptied from both ends in turn by the other half."""
    half = (entries - 2) // 4
    program = ("vector v;\ntask main() {\n  let i = 0;\n  while i < %d { v.push(i); i = i + 1; }\n"
               "  i = 0;\n  while i < %d { v.pop(); v.dequeue(); i = i + 1; }\n}\n") % (2 * half, half)

    def lines():
        yield from ("0.0 v push %d" % k for k in range(2 * half))
        yield from ("0.0 v pop = 1 %d\n0.0 v dequeue = 1 %d" % (2 * half - 1 - k, k) for k in range(half))
    return replay(program, lines())


def blocks(entries, most=10 ** 4):
    """A heap of at most so many blocks of two words: all are allocated, every other one is freed and allocated again, all are freed."""
    half = min(most, (entries - 2) // 3) // 2
    turns = (entries - 2) // (6 * half)
    parts = [(2 * half, "heap.alloc(2);"), (half, "heap.free(i * 4);"), (half, "heap.alloc(2);"), (2 * half, "heap.free(i * 2);")]
    body = "".join("    i = 0;\n    while i < %d { %s i = i + 1; }\n" % part for part in parts)
    program = "heap %d;\ntask main() {\n  let turn = 0;\n  let i = 0;\n  while turn < %d {\n%s    turn = turn + 1;\n  }\n}\n" % (4 * half, turns, body)

    def lines():
        for _ in range(turns):
            yield from ("0.0 heap alloc 2 = %d" % (2 * k) for k in range(2 * half))
            yield from ("0.0 heap free %d = 1" % (4 * k) for k in range(half))
            yield from ("0.0 heap alloc 2 = %d" % (4 * k) for k in range(half))
            yield from ("0.0 heap free %d = 1" % (2 * k) for k in range(2 * half))
    return replay(program, lines())


# Of each kind of text: how it is made, its sizes, the words that it is measured with.
SIZED = {
    "straight": (straight, (1000, 10000, 40000), (CHECK, RUN)),
    "ordinary": (ordinary, (10 ** 4, 10 ** 5, 10 ** 6), (CHECK,)),
    **{make.__name__: (make, (10 ** 4, 10 ** 5, 10 ** 6), (REPLAY,)) for make in (adds, loop, finishes, keys, words, blocks)},
}
SINGLE = {make.__name__: (make, (CHECK,)) for make in (nested, signs, names, spaces, brackets)}


def texts():
    """Of each name: how its text is made, as pieces, and the words that it is measured with."""
    found = {}
    for kind, (make, sizes, commands) in SIZED.items():
        for size in sizes:
            found["%s-%d" % (kind, size)] = (lambda make=make, size=size: make(size), commands)
    return {**found, **SINGLE}


if __name__ == "__main__":
    TEXTS = texts()
    if len(sys.argv) != 2 or sys.argv[1] not in TEXTS:
        print("\n".join(TEXTS))
        sys.exit(0 if len(sys.argv) == 1 else 2)
    made = TEXTS[sys.argv[1]][0]()
    sys.stdout.writelines([made] if isinstance(made, str) else made)
