"""A reading of the rules of the task language in Python.

It was written from docs/LANGUAGE.md, docs/HISTORY.md and docs/MACHINE.md, and not from the Rattle code, so that the two can
be held against each other. It is made to be read and not to be fast: each module is one section of those pages.

    tokens.py     tokens and their places, and the three faults of tokens
    grammar.py    the program that the tokens spell, or the first token that continues no program
    checker.py    the ten conditions under which a program is refused
    memory.py     arrays, sets, maps, vectors, heap: what each call does and replies
    tasks.py      what a task does next
    lines.py      the text of a history
    steps.py      which entries are steps, when a history is complete
    schedules.py  runs on the plain memory, whose order a schedule picks
    machine.py    the events of one core, whose order is always the same
    benches.py    the programs that `bench` makes
    words.py      the words of the command line
    answers.py    the status and the text that a call of the program owes
"""
