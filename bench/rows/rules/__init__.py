"""Rows that come by a rule. Each function here gives the rows of one group or of a few; `table.row` says what a row is.

Where the rule itself says the answer it is stated with the row, and held against the reading as for rows that are stated by
hand; elsewhere (each prefix of a program, changed histories) only the reading says it."""
from . import changed, devices, histories, options, pages, programs, runs


def rows(root):
    """All rows that come by a rule. `root` is the repository."""
    yield from programs.rows(root)
    yield from options.rows()
    yield from devices.rows()
    yield from histories.rows()
    yield from changed.rows()
    yield from pages.rows(root)
    yield from runs.rows(root)
