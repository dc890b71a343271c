"""The calls: what each seat does from the first event of a call to its last. A get and a scan are
here; a put and a delete, which are made alike, are in `puts`."""

from kiwi_map import listed
from simulator.cells import Cell, best_of, pairs_of
from simulator.words import (
    CLOCK,
    EPOCH,
    HEAD,
    NORMAL,
    QUIET,
    SEATS,
    SPENT,
    Entry,
    Kind,
    ScanWord,
    Stage,
    Waits,
    add_one,
    exchange,
    link_word,
    load,
    store,
)
from simulator.world import CHOOSE, STOP


class Caller:
    """A seat that makes one call, and what it knows on its way: the row at hand with its least key
    and the number of its built cells, and the next row with its least key, as far as they are
    known. The key that it wants is the least that it still looks for."""

    def __init__(self, world, seat, call):
        self.world, self.history, self.seat, self.call = world, world.history, seat, call
        self.first_key, self.last_key = call[1], call[2] if call[0] == "scan" else call[1]
        self.wanted = self.first_key
        self.log = None
        self.epoch = None
        self.row = self.lower = self.built = 0
        self.next = self.upper = None

    def events(self, number):
        """The operations of the whole call."""
        epoch = yield load(Kind.load_epoch, EPOCH)
        self.log = self.history.begin(self.seat, number, self.call)
        reply = None
        while reply is None:
            self.epoch = epoch
            yield store(Kind.store_pass, ("pass", self.seat), epoch)
            reply = yield from self.visit()
            yield store(Kind.clear_pass, ("pass", self.seat), None)
            if reply is None:
                epoch = yield load(Kind.load_epoch, EPOCH)
        self.history.end(self.log, reply)

    def visit(self):
        """What the call does inside; its reply as it is printed, or none to enter anew."""
        raise NotImplementedError

    def origin(self, row, cell):
        """The attempt for which a cell stands."""
        return self.world.origins.get((row, cell))

    def may_stop(self):
        """Whether the call can be stopped on its walk."""
        return False

    def walk(self):
        """To the row of the wanted key, from a guessed row or from the first one."""
        guess = yield CHOOSE
        if isinstance(guess, int):
            state = yield load(Kind.load_state, ("state", guess))
            if state == NORMAL:
                least = yield load(Kind.load_min, ("least", guess))
                if least.key <= self.wanted:
                    self.row, self.lower, self.built = guess, least.key, least.built
                    return (yield from self.walk_on())
        head = yield load(Kind.load_head, HEAD)
        self.row, self.lower, self.built = head.row, 0, 0
        return (yield from self.walk_on())

    def walk_on(self):
        """From the row at hand on. True where the call was stopped."""
        while True:
            if self.may_stop() and (yield CHOOSE) == STOP:
                yield store(Kind.clear_scan, ("scan", self.seat), QUIET)
                return True
            link = yield load(Kind.load_link, ("next", self.row))
            self.next, self.upper = link.row, None
            if link.row is None:
                return False
            least = yield load(Kind.load_min, ("least", link.row))
            if least.key > self.wanted:
                self.upper = least.key
                return False
            self.row, self.lower, self.built = link.row, least.key, least.built

    def guess_cell(self):
        """Where a walk along the row's list begins: behind a guessed cell with a lesser key, or at
        the first link. None where nothing was guessed, and no event made."""
        guess = yield CHOOSE
        if not isinstance(guess, int) or guess >= self.built:
            return None
        key = yield load(Kind.load_key, ("key", self.row, guess))
        return guess if key < self.first_key else None


class Reader(Caller):
    """A get or a scan."""

    def read_row(self):
        """Reads the row at hand; the cells of its range."""
        remembered = yield from self.look()
        cells = yield from self.read_list(remembered)
        while remembered:
            place = min(remembered)
            version = remembered.pop(place)
            key = yield load(Kind.load_key, ("key", self.row, place))
            if self.first_key <= key <= self.last_key:
                value = yield load(Kind.load_value, ("value", self.row, place))
                cells.append(Cell(key, version, place, value, self.origin(self.row, place)))
        return cells

    def look(self):
        """Looks at each entry of the row, and helps the pending ones of its range; the versions of
        the stamped cells."""
        remembered = {}
        for seat in range(SEATS):
            entry = yield load(Kind.load_pend, ("entry", self.row, seat))
            if entry.stage is Stage.PENDING:
                key = yield load(Kind.load_key, ("key", self.row, entry.cell))
                if not self.first_key <= key <= self.last_key:
                    continue
                entry = yield from self.help(seat, entry)
            if entry.stage is Stage.STAMPED:
                remembered.setdefault(entry.cell, entry.version)
        return remembered

    def help(self, seat, pending):
        """Stamps a pending entry; what stands there then."""
        clock = yield load(Kind.load_clock, CLOCK)
        loaded = self.history.now
        stamped = Entry(Stage.STAMPED, pending.cell, clock)
        found = yield exchange(Kind.help_stamp, ("entry", self.row, seat), pending, stamped)
        if found != pending:
            return found
        self.history.stamp(self.origin(self.row, pending.cell), clock, loaded)
        return stamped

    def read_list(self, remembered):
        """Walks along the row's list; the cells of its range. What it reaches is remembered no
        more."""
        cells = []
        behind = yield from self.guess_cell()
        while True:
            place = yield load(Kind.load_after, link_word(self.row, behind))
            if place is None:
                return cells
            remembered.pop(place, None)
            key = yield load(Kind.load_key, ("key", self.row, place))
            if key > self.last_key:
                return cells
            if key >= self.first_key:
                version = yield load(Kind.load_version, ("version", self.row, place))
                value = yield load(Kind.load_value, ("value", self.row, place))
                cells.append(Cell(key, version or 1, place, value, self.origin(self.row, place)))
            behind = place


class Get(Reader):
    """A get."""

    def visit(self):
        yield from self.walk()
        cells = yield from self.read_row()
        best = best_of(cells, self.first_key)
        if best is None or best.value is None:
            return "none"
        self.log.answer = best.origin
        return str(best.value)


class Scan(Reader):
    """A scan. It has read a row once its pairs are there, even if none."""

    pairs = None
    version = None

    def may_stop(self):
        return self.pairs is not None

    def visit(self):
        self.version = yield from self.draw()
        if self.version is None:
            return "spent"
        if self.first_key <= self.last_key:
            yield from self.walk()
            if (yield from self.read_rows()):
                return "stopped"
        choice = yield CHOOSE
        yield store(Kind.clear_scan, ("scan", self.seat), QUIET)
        if choice == STOP:
            return "stopped"
        self.log.draw = self.world.drawn_at[self.seat]
        return listed(self.pairs or [])

    def draw(self):
        """The scan's version, its own or one that another seat drew for it; none where the clock is
        spent."""
        clock = yield load(Kind.load_clock, CLOCK)
        if clock >= SPENT:
            return None
        word, waiting = ("scan", self.seat), ScanWord(Waits.WAITING, clock)
        yield store(Kind.store_waiting, word, waiting)
        version = yield add_one(Kind.draw, CLOCK)
        drawn = self.history.now
        found = yield exchange(Kind.settle, word, waiting, ScanWord(Waits.DRAWN, version))
        if found.waits is Waits.DRAWN:
            return found.number
        self.world.drawn_at[self.seat] = drawn
        return version

    def read_rows(self):
        """Reads row after row. True where the scan was stopped between two of them."""
        self.pairs = None
        pairs = []
        while True:
            cells = yield from self.read_row()
            pairs += pairs_of(cells, self.wanted, self.last_key, self.version)
            self.pairs = pairs
            if self.next is None or self.upper > self.last_key:
                return False
            self.row, self.lower, self.built, self.wanted = self.next, self.upper, 0, self.upper
            if (yield from self.walk_on()):
                return True
