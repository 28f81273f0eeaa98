"""A book that lives through calls."""

import coarse_model
import model
import row_model
import salvage_model
from calls import call


class Life:
    """Each line carries the record and the ring that the last one left."""

    def __init__(self, L, n, D, ring, items=()):
        self.lines = [call("open", L, n, D, ring)]
        _, self.record, self.ring = model.open_book(L, n, D, ring)
        for x in items:
            self.add(x)

    def add(self, x):
        self.lines.append(self.ask("add", x))
        _, self.record, self.ring = model.add(self.record, self.ring, x)

    def run(self, counts):
        self.lines.append(self.ask("run", counts))
        _, _, self.record, self.ring = model.run(self.record, self.ring, counts)

    def rest(self):
        self.lines.append(call("rest", self.record))
        _, self.record = model.rest(self.record)

    def wake(self):
        self.lines.append(call("wake", self.record))
        _, self.record = model.wake(self.record)

    def coarsen(self, m, second):
        """Goes on with the second ring, if the book is not refused."""
        self.lines.append(self.ask("coarsen", m, second))
        refusal, record, _, second = coarse_model.coarsen(self.record, self.ring, m, second)
        if not refusal:
            self.record, self.ring = record, second

    def brown_out(self, ring):
        """The ring has these bytes, and no call wrote them."""
        self.ring = ring

    def salvage(self, numbers):
        self.lines.append(self.ask("salvage", numbers))
        _, _, self.record, self.ring, _ = salvage_model.salvage(self.record, self.ring, numbers)

    def ask(self, name, *arguments):
        return call(name, self.record, self.ring, *arguments)


class RowLife(Life):
    """A life with a row: each line carries it too as the last one left it, and no item is taken without it."""

    def __init__(self, L, n, D, ring, row):
        self.lines = [call("open_row", L, n, D, ring, row)]
        _, self.record, self.ring, self.row = row_model.open_row(L, n, D, ring, row)

    def add(self, x):
        self.lines.append(self.ask_row("add_row", x))
        _, self.record, self.ring, self.row = row_model.add_row(self.record, self.ring, self.row, x)

    def run(self, counts):
        self.lines.append(self.ask_row("run_row", counts))
        _, _, self.record, self.ring, self.row = row_model.run_row(self.record, self.ring, self.row, counts)

    def coarsen(self, m, second, row):
        """Goes on with the second ring and the other row."""
        self.lines.append(self.ask("coarsen_row", m, second, row))
        refusal, record, _, second, row = coarse_model.coarsen_row(self.record, self.ring, m, second, row)
        if not refusal:
            self.record, self.ring, self.row = record, second, row

    def salvage(self, numbers):
        """The row is rebuilt too."""
        self.lines.append(self.ask("salvage_row", numbers, self.row))
        _, _, self.record, self.ring, _, self.row = salvage_model.salvage_row(self.record, self.ring, numbers, self.row)

    def ask_row(self, name, *arguments):
        return call(name, self.record, self.ring, self.row, *arguments)
