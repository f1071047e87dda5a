"""The programs that `bench` makes."""

WORDS = """array hist[16];
task one(i, s) { hist.reduce add (((i + s) * 6364136223846793005 + 1442695040888963407) / 4294967296 % 16, 1); }
task main() { forall 0 .. SIZE grain 64 one(SEED); }
show hist;
"""
SETS = """set keys;
array a[1];
task one(i, s) { let n = keys.insert(((i + s) * 6364136223846793005 + 1442695040888963407) / 4294967296 % 1000); a.add(0, n); }
task main() { forall 0 .. SIZE grain 64 one(SEED); }
show a;
"""
QUEUE = """vector v;
array a[2];
task give(i, s) { v.push(i + s); }
task grab(i) { let f, x = v.dequeue(); a.add(0, f); a.reduce xor (1, x); }
task main() { forall 0 .. SIZE grain 64 give(SEED); forall 0 .. SIZE grain 64 grab(); }
show a;
"""
TEXTS = {"words": WORDS, "sets": SETS, "queue": QUEUE}


def text(kind, size, seed):
    return TEXTS[kind].replace("SIZE", str(size)).replace("SEED", str(seed)).encode()
