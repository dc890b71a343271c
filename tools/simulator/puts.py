"""What a put and a delete do: at the row of their key, and in its list."""

from simulator.calls import Caller
from simulator.rebalance import Rebalance
from simulator.words import (
    CLOCK,
    IDLE,
    TIDY_SHARE,
    Count,
    Entry,
    Kind,
    Operation,
    Stage,
    exchange,
    link_word,
    load,
    store,
)
from simulator.world import CHOOSE


class Put(Caller):
    """A put, or a delete, which puts a tombstone. Its cell, once it has one, and its version."""

    cell = version = attempt = None

    def value(self):
        return self.call[2] if self.call[0] == "put" else None

    def visit(self):
        yield from self.walk()
        if not (yield from self.write()):
            return (yield from Rebalance(self, tidies=False).events())
        yield from self.insert()
        guess = yield CHOOSE
        yield store(Kind.clear_pend, ("entry", self.row, self.seat), IDLE)
        if guess == self.row and self.world.rows < TIDY_SHARE * self.epoch:
            yield from Rebalance(self, tidies=True).events()
        return "ok"

    def write(self):
        """Gets a cell, writes it, and gets its version; whether it could be done, else the row is
        to be rebalanced."""
        if not (yield load(Kind.load_count, ("count", self.row))).has_room():
            return False
        count = yield Operation(Kind.add_count, ("count", self.row), Count.one_more)
        if not count.has_room():
            return False
        self.cell = count.given
        self.attempt = self.history.add(self.log, self.first_key, self.value())
        self.world.origins[self.row, self.cell] = self.attempt
        yield store(Kind.store_key, ("key", self.row, self.cell), self.first_key)
        yield store(Kind.store_value, ("value", self.row, self.cell), self.value())
        if not (yield from self.stamp()):
            return False
        yield store(Kind.store_version, ("version", self.row, self.cell), self.version)
        return True

    def stamp(self):
        """Announces the cell and gets its version; whether it could be done."""
        word, pending = ("entry", self.row, self.seat), Entry(Stage.PENDING, self.cell)
        if (yield exchange(Kind.announce, word, IDLE, pending)) != IDLE:
            return False
        self.version = yield load(Kind.load_clock, CLOCK)
        loaded = self.history.now
        stamped = Entry(Stage.STAMPED, self.cell, self.version)
        found = yield exchange(Kind.stamp, word, pending, stamped)
        if found == pending:
            self.history.stamp(self.attempt, self.version, loaded)
            return True
        self.version = found.version
        return found.stage is Stage.STAMPED

    def insert(self):
        """Links the cell in the row's list; where another put was first, it begins anew."""
        while True:
            behind, held = yield from self.place_in_list()
            yield store(Kind.store_after, ("after", self.row, self.cell), held)
            word = link_word(self.row, behind)
            if (yield exchange(Kind.insert, word, held, self.cell)) == held:
                return

    def place_in_list(self):
        """The cell behind which the own one belongs, and the one to which its link leads."""
        behind = yield from self.guess_cell()
        while True:
            held = yield load(Kind.load_after, link_word(self.row, behind))
            if held is None:
                return behind, held
            key = yield load(Kind.load_key, ("key", self.row, held))
            if key > self.first_key:
                return behind, held
            if key == self.first_key:
                version = yield load(Kind.load_version, ("version", self.row, held))
                if (version or 0, held) < (self.version, self.cell):
                    return behind, held
            behind = held
