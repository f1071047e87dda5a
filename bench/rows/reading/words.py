"""The words of the command line."""
import re
from typing import Dict, NamedTuple

COMMANDS = ("run", "check", "replay", "bench")
KINDS = ("words", "sets", "queue")
FLAGS = ("history", "counts")


class Numbers(NamedTuple):
    """The values of an option, from the least to the greatest."""
    least: int
    greatest: int


OPTIONS: Dict[str, object] = {
    "cores": Numbers(1, 16), "block": Numbers(1, 4096), "limit": Numbers(1, 256), "steps": Numbers(1, 2 ** 40),
    "slice": Numbers(1, 65536), "events": Numbers(1, 2 ** 40), "kind": KINDS, "size": Numbers(1, 100000),
    "seed": Numbers(0, 2 ** 64 - 1)}
DEFAULTS = {
    "cores": 4, "block": 8, "limit": 32, "steps": 1000000, "slice": 1024, "events": 2 ** 40, "kind": "words", "size": 1000,
    "seed": 1, "history": False, "counts": False}
USAGE = ("usage: grappa run|check|replay|bench [--cores N] [--block N] [--limit N] [--steps N] [--slice N] [--events N] "
         "[--history] [--counts] [--kind WORD] [--size N] [--seed N]")


class Usage(Exception):
    """The words are no command line."""


def value(option, word):
    """The value of an option."""
    allowed = OPTIONS[option]
    if allowed is KINDS:
        if word in KINDS:
            return word
        raise Usage
    if re.fullmatch("[0-9]{1,20}", word) and allowed.least <= int(word) <= allowed.greatest:
        return int(word)
    raise Usage


def options(words):
    """The command and the options of the words. Behind `--` stand no options."""
    given, commands, words = {}, [], list(words)
    while words:
        word = words.pop(0)
        if word == "--":
            commands += words
            break
        if not word.startswith("-"):
            commands.append(word)
            continue
        name, equals, rest = word[2:].partition("=")
        if not word.startswith("--") or name in given or name not in OPTIONS and (name not in FLAGS or equals):
            raise Usage
        if name in FLAGS:
            given[name] = True
        elif equals or words:
            given[name] = value(name, rest if equals else words.pop(0))
        else:
            raise Usage
    if len(commands) != 1 or commands[0] not in COMMANDS:
        raise Usage
    return {**DEFAULTS, **given, "command": commands[0]}
