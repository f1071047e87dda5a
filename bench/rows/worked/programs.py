"""Programs for rows of cores. What each prints and leaves is the same whatever the schedule, and so is the number of its entries."""

PROGRAMS = {
    # Calls on words, asked of their homes.
    "adds over all words": """
        array a[20]; array sum[1];
        task one(i) { let old = a.add(i % 20, i); sum.add(0, i - old + old); }
        task main() { forall 0 .. 200 grain 3 one(); let x = sum.read(0); print x; }""",
    "writes, reads and swaps": """
        array a[9]; array won[1];
        task claim(i) { let old = a.cas(i % 9, 0, 7); if old == 0 { won.add(0, 1); } }
        task fill(i) { a.write(i, i * i); }
        task main() {
          forall 0 .. 90 grain 1 claim(); let n = won.read(0); print n;
          forall 0 .. 9 grain 2 fill(); let i = 0;
          while i < 9 { let x = a.read(i); print x; i = i + 1; } }""",
    # Scopes: enrolments, nested finishes and loops at several cores.
    "a tree of offers": """
        array a[1];
        task node(d) { a.add(0, 1); if d > 1 { offer node(d - 1); offer node(d - 1); } }
        task main() { finish { offer node(7); } let x = a.read(0); print x; }""",
    "a tree of offers without a finish": """
        array a[4];
        task node(d, w) { a.add(w % 4, 1); if d > 1 { offer node(d - 1, w * 2); spawn node(d - 1, w * 2 + 1); } }
        task main() { offer node(6, 1); spawn node(5, 1); }""",
    "tasks that wait in tasks": """
        array a[3];
        task leaf(w) { a.add(0, w); }
        task inner(i) { finish { spawn leaf(1); offer leaf(2); spawn leaf(3); } let x = a.add(1, 1); forall 0 .. 4 grain 1 leaf(); a.add(2, 1); }
        task main() { let x = 0; finish { forall 0 .. 6 grain 1 inner(); x = a.read(2); print x; spawn inner(9); } x = a.read(0); print x; }""",
    "loops over nothing and of one": """
        array a[1];
        task one(i) { a.add(0, i); }
        task main() { forall 5 .. 5 grain 1 one(); print 1; forall 9 .. 3 grain 2 one(); forall 4 .. 5 grain 9 one(); forall 0 .. 3 grain 0 one(); }""",
    "finishes in a row": """
        array a[1];
        task t(w) { a.add(0, w); }
        task main() { let i = 0; while i < 8 { finish { spawn t(i); offer t(i); } finish { } let x = a.read(0); print x; i = i + 1; } }""",
    "spawns at each core": """
        array a[2];
        task hop(n, core) { a.add(0, 1); if n { finish { spawn at 1 - core hop(n - 1, 1 - core); } a.add(1, 1); } }
        task main() { finish { spawn at 1 hop(9, 1); spawn at 0 hop(8, 0); } let x = a.read(1); print x; }""",
    "spawns that wait for one enrolment": """
        array a[1];
        task k(w) { a.add(0, w); }
        task t(w) { spawn k(w); offer k(w); spawn at 0 k(w); spawn at 1 k(w); }
        task main() { finish { spawn at 1 t(1); spawn at 1 t(2); spawn at 1 t(3); finish { spawn at 1 t(4); spawn at 1 t(5); } } let x = a.read(0); print x; }""",
    # Batches on sets, maps and words.
    "inserts of few keys": """
        array a[1]; set s;
        task one(i) { let n = s.insert(i % 13); a.add(0, n); }
        task main() { forall 0 .. 100 grain 4 one(); let x = a.read(0); print x; let h = s.has(12); print h; h = s.has(13); print h; }""",
    "inserts and removes by one task": """
        set s; array a[2];
        task own(i) { let x = s.insert(i); let y = s.insert(i); let z = s.remove(i); let w = s.has(i); a.add(0, x * 8 + y * 4 + z * 2 + w); let v = s.remove(i); a.add(1, v); if i % 3 == 0 { s.insert(i); } }
        task main() { forall 0 .. 30 grain 1 own(); }""",
    "merges by each reducer": """
        map m; map n;
        task one(i) { m.merge add (0, i); m.merge min (1, i + 5); m.merge max (2, i); m.merge or (3, i); m.merge and (4, i | 8); m.merge xor (5, i); n.merge add (i % 7, 1); }
        task main() { forall 1 .. 40 grain 2 one(); let f, x = m.get(0); print f; print x; f, x = m.get(9); print f; print x; }""",
    "puts, gets and erases": """
        map m; array a[3];
        task own(i) { let n = m.put(i, i * i); let k = m.put(i, i + 1); let f, x = m.get(i); a.add(0, n * 2 + k); a.add(1, f * x); if i % 2 { let e = m.erase(i); a.add(2, e); e = m.erase(i); a.add(2, e); } }
        task main() { forall 0 .. 25 grain 1 own(); }""",
    "calls that don't fold": """
        map m; array a[2];
        task one(i) { m.merge add (3, 1); m.merge add (3, 2); let f, x = m.get(4); a.add(0, f + x); }
        task other(i) { m.merge add (5, 1); a.reduce max (1, i); a.reduce add (0, 1); a.reduce add (0, 1); }
        task main() { finish { spawn one(1); spawn other(1); forall 0 .. 20 grain 1 one(); forall 0 .. 20 grain 1 other(); } }""",
    "keys of several reducers at once": """
        map m; array a[1];
        task one(i) { m.merge add (i % 3, 1); let f, x = m.get(i % 3); if f == 0 { a.add(0, 1); } }
        task main() { forall 0 .. 60 grain 5 one(); let x = a.read(0); print x; }""",
    "reduces of words": """
        array a[6]; heap 4;
        task one(i) { a.reduce add (0, i); a.reduce min (1, i); a.reduce max (2, i); a.reduce or (3, i); a.reduce xor (4, i); heap.reduce add (6 + i % 4, i); heap.reduce max (9, i * 100); }
        task main() { a.write(1, 1000); forall 0 .. 32 grain 4 one(); let x = heap.read(6); print x; x = heap.read(9); print x > 2999; }""",
    # The heap.
    "blocks at several cores": """
        heap 64; array a[2]; set s;
        task own(i) { let p = heap.alloc(2); heap.write(p, i); heap.write(p + 1, i * 2); let x = heap.read(p); let y = heap.read(p + 1); a.add(0, x + y); let f = heap.free(p); a.add(1, f); let g = heap.alloc(0); if g + 1 { a.add(1, 1000); } }
        task main() { forall 0 .. 12 grain 1 own(); let p = heap.alloc(64); print p; let q = heap.alloc(1); print q; let f = heap.free(p); print f; f = heap.free(p); print f; }""",
    # Vectors.
    "pushes and then dequeues": """
        vector v; array a[2];
        task give(i) { v.push(i * i); }
        task get(i) { let f, x = v.dequeue(); a.add(0, f); a.add(1, x); }
        task main() { forall 0 .. 30 grain 2 give(); forall 0 .. 40 grain 3 get(); let x = a.read(1); print x; }""",
    "pushes and pops of one task": """
        vector v; vector w;
        task main() { v.push(1); v.push(2); v.push(3); w.push(9); let f, x = v.dequeue(); print x; f, x = v.pop(); print x; f, x = v.pop(); print x; f, x = v.pop(); print f; print x; f, x = w.dequeue(); print x; f, x = w.dequeue(); print f; }""",
    "a stack of each core": """
        vector v; array a[2];
        task both(i) { v.push(i); let f, x = v.pop(); a.add(0, f); a.add(1, x); }
        task main() { forall 0 .. 24 grain 1 both(); let x = a.read(0); print x; x = a.read(1); print x; }""",
    "three vectors": """
        vector u; vector v; vector w; array a[4];
        task give(i) { u.push(i); v.push(i); w.push(i); }
        task get(i) { let f, x = u.pop(); a.add(0, x); f, x = v.dequeue(); a.add(1, x); f, x = w.pop(); a.add(2, x); a.add(3, f); f, x = w.dequeue(); a.add(2, x); a.add(3, f); }
        task main() { forall 0 .. 12 grain 1 give(); forall 0 .. 12 grain 1 get(); }""",
    # All at once.
    "all kinds of calls": """
        array a[9]; set s; map m; vector v; heap 32;
        task one(i) {
          a.add(i % 8, 1); let n = s.insert(i % 5); m.merge add (i % 5, i); v.push(i); a.reduce max (8, i + 100);
          let p = heap.alloc(1); heap.write(p, i); let w = heap.read(p); a.add(0, w); let f = heap.free(p);
          finish { offer two(i); spawn two(i); } }
        task two(i) { let f, x = v.pop(); a.add(1, f); m.merge xor (100, i); }
        task main() { finish { forall 0 .. 16 grain 1 one(); spawn one(77); } let x = a.read(1); print x; }""",
    "eight parameters": """
        array a[8];
        task eight(p, q, r, s, t, u, v, w) { a.add(0, p); a.add(1, q); a.add(2, r); a.add(3, s); a.add(4, t); a.add(5, u); a.add(6, v); a.add(7, w); }
        task main() { offer eight(1, 2, 3, 4, 5, 6, 7, 8); forall 0 .. 5 grain 2 eight(1, 2, 3, 4, 5, 6, 18446744073709551615); }""",
    "pure steps": """
        array a[1];
        task gcd(x, y) { while y { let r = x % y; x = y; y = r; } a.add(0, x); }
        task main() { finish { spawn gcd(1071, 462); offer gcd(462, 1071); spawn gcd(0, 5); spawn gcd(5, 0); } }""",
    "nothing": "task main() { }",
}

# Messages of all seventeen kinds.
KINDS = """
    array a[4]; set s; map m; vector v;
    task leaf(w) { a.add(w % 4, 1); }
    task one(i) { spawn leaf(i); offer leaf(i); spawn at 0 leaf(1); s.insert(i); m.merge add (i % 5, 1); v.push(i); let f, x = v.pop(); a.add(0, f); }
    task main() { finish { forall 0 .. 12 grain 1 one(); spawn at 1 one(50); } let x = a.read(0); print x; }"""

# As many objects as there may be.
MANY = "".join("set s%d; " % number for number in range(61)) + """map m; vector v; array a[1];
    task one(i) { s0.insert(i); s60.insert(i * 7); m.merge max (i % 3, i); v.push(i); let f, x = v.dequeue(); a.add(0, x); }
    task main() { forall 0 .. 9 grain 1 one(); }"""

# Three thousand indices: a run of more than ten thousand events.
LONG = "array a[3]; task one(i) { a.add(i % 3, i); } task main() { forall 0 .. 3000 grain 4 one(); }"

# The programs that need so many cores.
ON_CORES = {"spawns at each core": 2, "spawns that wait for one enrolment": 2, "spawn_at": 4}

# Programs that are trapped.
TRAPS = {
    "a zero divisor": "task main() { print 1; let x = 1 / 0; }",
    "a place": "array a[3]; task main() { let x = a.read(3); }",
    "a core": "task t() { } task main() { spawn at 16 t(); }",
    "a zero divisor elsewhere": "array a[2]; task t(w) { let x = a.read(0); print 5 / x; } task main() { finish { spawn at 0 t(1); } }",
}

# Programs on one core, with the calls, batches, events and entries that an independent model of the machine has counted.
STATED = {
    "one print": ("task main() { print 7; }", 1, 0, 6, 3),
    "a thousand indices": ("array a[1]; task one(i) { a.add(0, 1); } task main() { forall 0 .. 1000 grain 1 one(); } show a;", 1000, 0, 6517, 3004),
    "seven nodes": ("array a[1]; task node(d) { a.add(0, 1); if d > 1 { offer node(d - 1); offer node(d - 1); } } "
                    "task main() { finish { offer node(3); } let x = a.read(0); print x; }", 9, 0, 61, 27),
    "inserts of one key": ("array a[1]; set s; task one(i) { let n = s.insert(9); a.add(0, n); } task main() { forall 0 .. 100 grain 4 one(); } "
                           "show a; show s;", 200, 1, 724, 404),
    "merges of one key": ("map m; task one(i) { m.merge max (5, i); } task main() { forall 0 .. 100 grain 4 one(); } show m;", 100, 1, 424, 304),
    "a vector": ("vector v; task main() { v.push(1); v.push(2); v.push(3); let f, x = v.dequeue(); print x; f, x = v.pop(); print x; "
                 "f, x = v.pop(); print x; f, x = v.pop(); print f; print x; } show v;", 12, 0, 65, 14),
    "a heap": ("heap 4; task main() { let p = heap.alloc(3); print p; let q = heap.alloc(2); print q; let r = heap.free(p); print r; "
               "let s = heap.free(p); print s; let t = heap.alloc(4); print t; }", 10, 0, 33, 12),
}
