"""Terms of worked runs in the words of the history text, and of messages in the words of the rows of cores."""
REDUCERS = ["add", "min", "max", "or", "and", "xor", "first", "last"]
# The results of each operation, 0 to 2.
RESULTS = {"Read": 1, "Write": 0, "Add": 1, "Cas": 1, "Reduce": 1, "Insert": 1, "Remove": 1, "Has": 1, "Put": 1, "Get": 2,
           "Erase": 1, "Merge": 1, "Push": 0, "Pop": 2, "Dequeue": 2, "Alloc": 1, "Free": 1}


def spaced(*words):
    return " ".join(str(word) for word in words)


def dotted(term):
    """An id or a scope: `id 0 1`."""
    _, core, number = term
    return "%d.%d" % (core, number)


class Names:
    """The names of a program's objects and tasks, by their numbers."""
    def __init__(self, objects, tasks):
        self.objects, self.tasks = objects, tasks

    def object(self, number):
        return "heap" if number == 255 else self.objects[number]

    def operation(self, op):
        """A call without its reply."""
        kind, args = op[0].split(".")[1], list(op[1:])
        if kind == "Print":
            return spaced("print", *args)
        object = "heap" if kind in ("Alloc", "Free") else self.object(args.pop(0))
        if kind in ("Reduce", "Merge"):
            args[0] = REDUCERS[args[0]]
        return spaced(object, kind.lower(), *args)

    def call(self, id, op, reply):
        kind, text = op[0].split(".")[1], spaced(dotted(id), self.operation(op))
        words = [0, 0] if reply == ("nothing",) else [reply[1], 0] if reply[0] == "one" else list(reply[1:])
        count = RESULTS.get(kind, 0)
        return spaced(text, "=", *words[:count]) if count else text

    def start(self, how, target, args):
        front = {"how.Here": "spawn", "how.Offer": "offer", "how.At": "spawn at"}[how[0]]
        return spaced(front, *how[1:], self.tasks[target], *args)

    def entry(self, term):
        kind, args = term[0].split(".")[1], term[1:]
        if kind == "Call":
            return self.call(*args)
        if kind == "Over":
            return "over"
        if kind == "Spawn":
            id, how, target, words, child = args
            return spaced(dotted(id), self.start(how, target, words), "as", dotted(child))
        if kind == "Loop":
            id, lo, hi, grain, target, words = args
            return spaced(dotted(id), "forall", lo, hi, "grain", grain, self.tasks[target], *words)
        if kind == "Begin":
            owner, index, child = args
            return spaced(dotted(owner), "begin", index, "as", dotted(child))
        if kind == "Trap":
            return spaced(dotted(args[0]), "trap", args[1][0].split(".")[1].lower())
        return spaced(dotted(args[0]), kind.lower())

    def waiting(self, call):
        return spaced("slot", call["slot"], dotted(call["id"]), self.operation(call["op"]))

    def mark(self, term):
        kind, args = term[0].split(".")[1], term[1:]
        if kind == "Entry":
            return self.entry(*args)
        if kind == "Closed":
            return "closed %d calls %s" % (args[0], ", ".join(map(self.waiting, args[1])))
        return spaced("applied", args[0], args[1], "before", option(args[2]))


def option(term):
    return "none" if term == ("None",) else str(term[1])


def unit(term):
    kind, args = term[0].split(".")[1], term[1:]
    target, words, scope, origin, id = args[:5]
    front = spaced(kind.lower(), target, *words, "in", dotted(scope), "origin", origin)
    if kind == "Single":
        return spaced(front, "as", dotted(id))
    return spaced(front, "of", dotted(id), args[5], args[6], "grain", args[7])


def effect(term):
    return spaced(term[0].split(".")[1].lower(), *term[1:])


MESSAGES = {
    "Request": lambda slot, id, *words: spaced("request", slot, dotted(id), *words),
    "Reply": lambda slot, id, *words: spaced("reply", slot, dotted(id), *words),
    "Spawn": lambda work: spaced("spawn", unit(work)),
    "StealGive": lambda work: spaced("give", unit(work)),
    "StealAsk": lambda: "ask",
    "Enrol": lambda scope: spaced("enrol", dotted(scope)),
    "EnrolAck": lambda scope: spaced("enrolled", dotted(scope)),
    "Complete": lambda scope, count: spaced("complete", dotted(scope), count),
    "Leave": lambda scope: spaced("leave", dotted(scope)),
    "Batch": lambda object, key, what, number: spaced("batch", object, key, effect(what), "as", number),
    "BatchReply": lambda number, before: spaced("batched", number, "before", option(before)),
    "Turn": lambda vector: spaced("turn", vector),
    "Grant": lambda *words: spaced("grant", *words),
    "Done": lambda *words: spaced("done", *words),
    "ElemPut": lambda *words: spaced("put", *words),
    "ElemGet": lambda *words: spaced("get", *words),
    "ElemAck": lambda vector, position, got: spaced("got", vector, position, option(got)),
}


def message(term):
    return MESSAGES[term[0].split(".")[1]](*term[1:])
