"""The plain memory: arrays, sets, maps, vectors and the heap."""
from .checker import REDUCERS, meanings
from .tokens import WIDEST

REDUCED = dict(zip(REDUCERS, (
    lambda a, b: (a + b) & WIDEST, min, max, lambda a, b: a | b, lambda a, b: a & b, lambda a, b: a ^ b,
    lambda a, b: a, lambda a, b: b)))


class Memory:
    """All objects of a program. Words that were never written are 0."""

    def __init__(self, program):
        self.meanings = meanings(program)
        self.words, self.bases, self.live = {}, {}, {}
        self.sets, self.maps, self.vectors = {}, {}, {}
        at, heap = 0, 0
        for item in program.items:
            if item.kind == "array":
                self.bases[item.name.text] = at
                at += item.words.value
            elif item.kind == "set":
                self.sets[item.name.text] = set()
            elif item.kind == "map":
                self.maps[item.name.text] = {}
            elif item.kind == "vector":
                self.vectors[item.name.text] = []
            elif item.kind == "heap":
                heap = item.words.value
        self.heap = range(at, at + heap)
        for item in program.items:
            if item.kind == "input":
                base = self.bases[item.name.text]
                self.words.update((base + k, number.value) for k, number in enumerate(item.values))

    def address(self, name, index):
        """The address of a word, None where the object has none there. An index into the heap is an address already."""
        if name == "heap":
            return index if index in self.heap else None
        return self.bases[name] + index if index < self.meanings[name].words.value else None

    def call(self, name, operation, reducer, numbers):
        """Makes the call, and gives its result words."""
        kind = self.meanings[name].kind
        if operation in ("alloc", "free"):
            return [self.alloc(*numbers) if operation == "alloc" else self.free(*numbers)]
        if kind in ("array", "heap"):
            return self.on_words(self.address(name, numbers[0]), operation, reducer, numbers[1:])
        if kind == "set":
            return self.on_set(self.sets[name], operation, *numbers)
        if kind == "map":
            return self.on_map(self.maps[name], operation, reducer, *numbers)
        return self.on_vector(self.vectors[name], operation, *numbers)

    def on_words(self, at, operation, reducer, numbers):
        before = self.words.get(at, 0)
        if operation == "write":
            self.words[at] = numbers[0]
            return []
        if operation == "add":
            self.words[at] = REDUCED["add"](before, numbers[0])
        elif operation == "cas" and before == numbers[0]:
            self.words[at] = numbers[1]
        elif operation == "reduce":
            self.words[at] = REDUCED[reducer](before, numbers[0])
        return [before]

    @staticmethod
    def on_set(held, operation, key):
        present = key in held
        if operation == "insert":
            held.add(key)
        elif operation == "remove":
            held.discard(key)
        return [int(not present if operation == "insert" else present)]

    @staticmethod
    def on_map(held, operation, reducer, key, word=None):
        before = held.get(key)
        if operation == "get":
            return [0, 0] if before is None else [1, before]
        if operation == "erase":
            held.pop(key, None)
            return [int(before is not None)]
        held[key] = word if operation == "put" or before is None else REDUCED[reducer](before, word)
        return [int(before is None)]

    @staticmethod
    def on_vector(held, operation, word=None):
        if operation == "push":
            held.append(word)
            return []
        return [1, held.pop(-1 if operation == "pop" else 0)] if held else [0, 0]

    def alloc(self, count):
        """A live block at the least start where it fits."""
        starts = [self.heap.start] + sorted(start + words for start, words in self.live.items())
        for start in starts if count else []:
            free = all(start + count <= other or other + words <= start for other, words in self.live.items())
            if free and start + count <= self.heap.stop:
                self.live[start] = count
                return start
        return WIDEST

    def free(self, start):
        return int(self.live.pop(start, None) is not None)
