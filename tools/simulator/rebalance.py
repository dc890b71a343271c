"""How a full row is replaced, alone or with the row after it; the search for free rows and what
becomes of the new ones is in `building`."""

from simulator.building import Builder, End
from simulator.cells import Cell, kept_of, starts_of
from simulator.words import (
    CELLS,
    CLOCK,
    EPOCH,
    FROZEN,
    HEAD,
    NORMAL,
    SEATS,
    SPENT,
    TAKE_ALONG,
    UNDECIDED,
    Count,
    Kind,
    Link,
    Operation,
    ScanWord,
    Stage,
    State,
    Status,
    Waits,
    add_one,
    exchange,
    link_word,
    load,
)
from simulator.world import CHOOSE

REPLIES = {End.AGAIN: None, End.NO_ROWS: "no rows", End.SPENT: "spent"}


class Rebalance:
    """The rebalance of a put's row. Its group are the rows that go; after these stands the row
    `after`, if any."""

    def __init__(self, put, tidies):
        self.put, self.world, self.history, self.tidies = put, put.world, put.history, tidies
        self.row, self.lower = put.row, put.lower
        self.group, self.after = [], None

    def events(self):
        """The operations, round after round; the put's reply, or none for a new try."""
        end = End.LEFT
        while end is End.LEFT:
            end = yield from self.round()
        return REPLIES[end]

    def go_left(self, row, least):
        """The full row is now this one, with this least key."""
        self.row, self.lower = row, least
        return End.LEFT

    def round(self):
        """One try at the row; how it ends."""
        if (yield load(Kind.load_clock, CLOCK)) >= SPENT:
            return End.SPENT
        if (yield load(Kind.load_epoch, EPOCH)) >= SPENT:
            return End.SPENT
        state = yield from self.engage()
        if state.status is Status.FOLLOWER:
            return (yield from self.to_leader(state.number))
        if state.status is not Status.LEADER:
            return End.AGAIN
        if not (yield from self.choose_group(state.number)):
            return End.AGAIN
        marks = yield from self.freeze()
        needed = yield from self.ask_scans()
        kept = kept_of((yield from self.gather(marks)), needed)
        return (yield from Builder(self, kept, starts_of(kept)).events())

    def engage(self):
        """Makes a normal row a leader; the state that it has then."""
        word = ("state", self.row)
        while True:
            state = yield load(Kind.load_state, word)
            if state.status is Status.INFANT:
                yield exchange(Kind.normalise, word, state, NORMAL)
            elif state != NORMAL:
                return state
            elif (yield exchange(Kind.engage, word, NORMAL, UNDECIDED)) == NORMAL:
                return UNDECIDED

    def to_leader(self, leader):
        """From a follower to its leader."""
        guess = yield CHOOSE
        if isinstance(guess, int):
            least = yield load(Kind.load_min, ("least", leader))
            return self.go_left(leader, least.key)
        row, least = (yield load(Kind.load_head, HEAD)).row, 0
        if row == self.row:
            return End.AGAIN
        while True:
            link = yield load(Kind.load_link, ("next", row))
            if link.row == self.row:
                return self.go_left(row, least)
            if link.row is None:
                return End.AGAIN
            row, least = link.row, (yield load(Kind.load_min, ("least", link.row))).key
            if least >= self.lower:
                return End.AGAIN

    def choose_group(self, count):
        """Marks the leader's link, decides how many rows go where nobody has, and claims the
        second. Whether the rows are known, else the row was replaced."""
        self.group = [self.row]
        self.after = (yield Operation(Kind.mark_link, ("next", self.row), Link.with_mark)).row
        if count == 0:
            count = yield from self.decide()
        if count is None:
            return False
        if count == 2 and self.after is not None:
            return (yield from self.claim(self.after))
        return True

    def decide(self):
        """How many rows go, as was decided first; none where the row leads no more."""
        count = 1
        if self.after is not None:
            given = yield load(Kind.load_next_count, ("count", self.after))
            if not given.frozen and (self.tidies or given.given <= TAKE_ALONG):
                count = 2
        decided = State(Status.LEADER, count)
        found = yield exchange(Kind.decide, ("state", self.row), UNDECIDED, decided)
        if found.status is not Status.LEADER:
            return None
        return found.number or count

    def claim(self, second):
        """Makes the second row a follower, or finds that it leads a group of its own. Whether the
        rows are known."""
        word, own = ("state", second), State(Status.FOLLOWER, self.row)
        while True:
            found = yield exchange(Kind.engage_next, word, NORMAL, own)
            if found.status is Status.LEADER:
                return True
            if found in (NORMAL, own):
                self.group.append(second)
                self.after = (yield Operation(Kind.mark_link, ("next", second), Link.with_mark)).row
                return True
            if found.status is not Status.INFANT:
                return False
            yield exchange(Kind.normalise, word, found, NORMAL)

    def freeze(self):
        """Freezes the rows of the group; of each its stamped cells with their versions."""
        marks = []
        for row in self.group:
            marks.append((yield from self.freeze_row(row)))
        return marks

    def freeze_row(self, row):
        """Freezes a row; the versions of its stamped cells."""
        marked = {}
        yield Operation(Kind.freeze_count, ("count", row), Count.with_freeze)
        for seat in range(SEATS):
            entry = yield from self.freeze_entry(("entry", row, seat))
            if entry.stage is Stage.STAMPED:
                marked.setdefault(entry.cell, entry.version)
        return marked

    def freeze_entry(self, word):
        """Freezes an entry that is not stamped; what stood there at last."""
        while True:
            entry = yield load(Kind.load_pend, word)
            if entry.stage in (Stage.STAMPED, Stage.FROZEN):
                return entry
            if (yield exchange(Kind.freeze_pend, word, entry, FROZEN)) == entry:
                return entry

    def ask_scans(self):
        """The versions that scans have; one that waits is helped to one."""
        needed = []
        for seat in range(SEATS):
            word = ("scan", seat)
            found = yield load(Kind.load_scan, word)
            if found.waits is Waits.WAITING:
                found = yield from self.settle(word, found)
            if found.waits is Waits.DRAWN:
                needed.append(found.number)
        return needed

    def settle(self, word, waiting):
        """Draws a version for a scan that waits; what stands in its word then."""
        drawn = ScanWord(Waits.DRAWN, (yield add_one(Kind.help_draw, CLOCK)))
        at = self.history.now
        found = yield exchange(Kind.help_settle, word, waiting, drawn)
        if found != waiting:
            return found
        self.world.drawn_at[word[1]] = at
        return drawn

    def gather(self, marks):
        """All cells of the group, each at its place there."""
        cells = []
        for index, marked in enumerate(marks):
            cells += yield from self.gather_list(index, marked)
            cells += yield from self.gather_left_over(index, marked)
        return cells

    def gather_list(self, index, marked):
        """The cells along the list of a row of the group. What is reached needs no mark."""
        row, cells, behind = self.group[index], [], None
        while True:
            place = yield load(Kind.load_after, link_word(row, behind))
            if place is None:
                return cells
            marked.pop(place, None)
            key = yield load(Kind.load_key, ("key", row, place))
            version = yield load(Kind.load_version, ("version", row, place))
            cells.append((yield from self.cell(index, place, key, version or 1)))
            behind = place

    def gather_left_over(self, index, marked):
        """The marked cells of a row of the group that were not reached."""
        cells = []
        for place in sorted(marked):
            key = yield load(Kind.load_key, ("key", self.group[index], place))
            cells.append((yield from self.cell(index, place, key, marked[place])))
        return cells

    def cell(self, index, place, key, version):
        """The cell at hand, once its value is loaded."""
        row = self.group[index]
        value = yield load(Kind.load_value, ("value", row, place))
        origin = self.world.origins.get((row, place))
        return Cell(key, version, index * CELLS + place, value, origin)
