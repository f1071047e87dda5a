"""The row of a ring that has no room: of 18 packets the last two come back, and one goes once one was taken."""
from .lines import CARRIED, flight

TEXT = "task t() { } task main() { let i = 0; while i < 20 { spawn at 1 t(); i = i + 1; } }"
PACKETS, SPAWNS = 16, 18


def shipped(number):
    return "spawn single 0 in 0.0 origin 0 as 0.%d" % number


def rows():
    spawns = ["0.0 spawn at 1 t as 0.%d" % number for number in range(1, SPAWNS + 1)]
    events = ["0 run"] * SPAWNS + ["0 ship 1"] * (PACKETS + 1) + ["0 take 1", "0 take 0", "0 serve", "1 take 0", "0 ship 1", "0 ship 1", "2 run"]
    due = ["0 %d run | %s" % (clock, spawn) for clock, spawn in enumerate(spawns, 1)]
    due += ["0 %d ship 1 | %s" % (SPAWNS + number, shipped(number)) for number in range(1, PACKETS + 1)]
    due += ["0 ship 1: not done", "0 take 1: not done", "0 take 0: not enabled", "0 serve: not enabled", "1 %d take 0" % (SPAWNS + 2)]
    due += ["0 %d ship 1 | %s" % (SPAWNS + PACKETS + 1, shipped(PACKETS + 1)), "0 ship 1: not done", "2 run: not enabled"]
    due += ["core 0: clock 35 calls 0 messages 17 packets 17 short 0 batches 0 asks 0 gives 0 going",
            "core 1: clock 20 calls 0 messages 0 packets 0 short 0 batches 0 asks 0 gives 0 going"]
    yield {"name": "a ring without room", "cores": 2, "block": 8, "limit": 1, "steps": 1000000, "events": 2 ** 40, "text": TEXT,
           "schedule": events}, due + spawns + ["legal open, entries %d" % SPAWNS, flight(0, 1, PACKETS), CARRIED]
