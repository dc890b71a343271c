"""The second half of a rebalance: free rows are sought and written, linked in the place of the
group, and its rows are retired."""

from enum import Enum

from simulator.words import (
    CELLS,
    EPOCH,
    FREE,
    HEAD,
    IDLE,
    NORMAL,
    SEATS,
    Count,
    Kind,
    Least,
    Link,
    State,
    Status,
    add_one,
    exchange,
    load,
    store,
)
from simulator.world import CHOOSE

End = Enum("End", "AGAIN NO_ROWS SPENT LEFT")
End.__doc__ = "How a round ends: a new try, a refusal, or with the row before as the full one."
Found = Enum("Found", "LINK MARKED GONE")
Found.__doc__ = "What a walk to the full row comes to: the link to it, that marked, or neither."


class Builder:
    """Builds new rows for a rebalance. Before the full row stands the row `before`, or none where
    that is the first, with the least key `least`."""

    def __init__(self, rebalance, kept, starts):
        self.rebalance, self.world = rebalance, rebalance.world
        self.seat, self.row, self.lower = rebalance.put.seat, rebalance.row, rebalance.lower
        ends = [*starts[1:], len(kept)]
        self.parts = [kept[start:end] for start, end in zip(starts, ends)]
        self.taken = []
        self.before, self.least = None, 0

    def events(self):
        """The operations; how the round ends."""
        if not (yield from self.take_rows()):
            yield from self.give_back()
            return End.NO_ROWS
        for number, cells in enumerate(self.parts):
            yield from self.write_row(number, cells)
        found = yield from self.walk()
        if found is Found.LINK:
            found = yield from self.link_rows()
        if found is Found.LINK:
            yield from self.finish()
            return End.AGAIN
        yield from self.give_back()
        return End.AGAIN if found is Found.GONE else self.rebalance.go_left(self.before, self.least)

    def take_rows(self):
        """Goes round the table once; whether there was a row for each part."""
        guess = yield CHOOSE
        first = guess if isinstance(guess, int) else 0
        for asked in range(self.world.rows):
            row = (first + asked) % self.world.rows
            if (yield from self.take(row)):
                self.taken.append(row)
                if len(self.taken) == len(self.parts):
                    return True
        return False

    def take(self, row):
        """Takes a row that is free, or retired and named by nobody; whether it is taken."""
        word = ("state", row)
        state = yield load(Kind.load_state, word)
        if state.status is Status.RETIRED:
            for seat in range(SEATS):
                epoch = yield load(Kind.load_pass, ("pass", seat))
                if epoch is not None and epoch <= state.number:
                    return False
            yield exchange(Kind.reclaim, word, state, FREE)
        elif state != FREE:
            return False
        return (yield exchange(Kind.take_row, word, FREE, State(Status.INFANT, self.seat))) == FREE

    def give_back(self):
        """Gives back what was taken."""
        for row in self.taken:
            yield store(Kind.give_back, ("state", row), FREE)

    def write_row(self, number, cells):
        """Writes a new row, word by word but for its state: its head, and then its cells. These
        stand by rising version of a key, and are listed by falling one."""
        row, least = self.taken[number], cells[0].key if number else self.lower
        behind = [*self.taken[number + 1 :], self.rebalance.after][0]
        listed = sorted(range(len(cells)), key=lambda it: (cells[it].key, -it))
        yield store(Kind.store_infant, ("count", row), Count(len(cells)))
        yield store(Kind.store_infant, ("least", row), Least(least, len(cells)))
        yield store(Kind.store_infant, ("next", row), Link(behind))
        yield store(Kind.store_infant, ("first", row), listed[0] if listed else None)
        for seat in range(SEATS):
            yield store(Kind.store_infant, ("entry", row, seat), IDLE)
        yield from self.write_cells(row, cells, dict(zip(listed, [*listed[1:], None])))

    def write_cells(self, row, cells, after):
        """Writes the cells of a new row, each with the one after it; a place without one gets no
        version."""
        for place in range(CELLS):
            if place < len(cells):
                yield from self.write_cell(row, place, cells[place], after[place])
            else:
                yield store(Kind.store_infant, ("version", row, place), None)
                self.world.origins[row, place] = None

    def write_cell(self, row, place, cell, after):
        """Writes a copy, which stands for the same attempt."""
        yield store(Kind.store_infant, ("key", row, place), cell.key)
        yield store(Kind.store_infant, ("value", row, place), cell.value)
        yield store(Kind.store_infant, ("version", row, place), cell.version)
        self.world.origins[row, place] = cell.origin
        yield store(Kind.store_infant, ("after", row, place), after)

    def walk(self):
        """To the link that leads to the full row, from a guessed row or the first one."""
        guess = yield CHOOSE
        if isinstance(guess, int):
            state = yield load(Kind.load_state, ("state", guess))
            if state == NORMAL:
                least = yield load(Kind.load_min, ("least", guess))
                if least.key < self.lower:
                    self.before, self.least = guess, least.key
                    return (yield from self.walk_on())
        head = yield load(Kind.load_head, HEAD)
        if head.row == self.row:
            return Found.LINK
        self.before = head.row
        return (yield from self.walk_on())

    def walk_on(self):
        """From the row before on."""
        while True:
            link = yield load(Kind.load_link, ("next", self.before))
            if link.row == self.row:
                return Found.MARKED if link.marked else Found.LINK
            if link.row is None:
                return Found.GONE
            least = yield load(Kind.load_min, ("least", link.row))
            if least.key >= self.lower:
                return Found.GONE
            self.before, self.least = link.row, least.key

    def link_rows(self):
        """The exchange that puts the new rows in the place of the group; what it found."""
        word = HEAD if self.before is None else ("next", self.before)
        found = yield exchange(Kind.replace, word, Link(self.row), Link(self.taken[0]))
        if found.row != self.row:
            return Found.GONE
        return Found.MARKED if found.marked else Found.LINK

    def finish(self):
        """Makes the new rows normal, and retires those of the group."""
        infant = State(Status.INFANT, self.seat)
        for row in self.taken:
            yield exchange(Kind.normalise, ("state", row), infant, NORMAL)
        for row in self.rebalance.group:
            number = yield add_one(Kind.number, EPOCH)
            retired = State(Status.RETIRED, number)
            yield store(Kind.store_retired, ("state", row), retired)
