"""What stands in the shared memory: the sizes, the kinds of event, the values of words, and the
operations on a word. A word is named by a tuple: its sort, and which one of that sort it is."""

from dataclasses import dataclass
from enum import Enum
from typing import Callable, NamedTuple, Optional

# How many seats there are, how many cells a row has, and how many of a new row are filled.
SEATS, CELLS, BUILT = 16, 128, 64
# From this clock or epoch on nothing begins that would raise it.
SPENT = 2**48
# A full row takes the row after it along where that has given no more cells than this.
TAKE_ALONG = 8
# Tidying is offered in a table that has fewer rows than this for each number of the put's epoch.
TIDY_SHARE = 32

Kind = Enum(
    "Kind",
    "load_epoch store_pass clear_pass load_count add_count store_key store_value announce"
    " load_clock stamp store_version clear_pend load_pend load_key load_value load_version"
    " help_stamp store_waiting draw settle clear_scan load_head load_link load_min load_state"
    " engage freeze_count freeze_pend load_scan help_draw help_settle take_row store_infant"
    " replace normalise give_back number store_retired load_pass reclaim mark_link"
    " load_next_count decide engage_next load_after store_after insert store_pin load_pin"
    " clear_pin",
)
Kind.__doc__ = "The kinds of event, by the names that scripts have for them."

Status = Enum("Status", "FREE INFANT NORMAL LEADER FOLLOWER RETIRED")
Stage = Enum("Stage", "IDLE PENDING STAMPED FROZEN")
Waits = Enum("Waits", "QUIET WAITING DRAWN")


@dataclass(frozen=True)
class State:
    """The state of a row: with an infant goes its seat, with a leader how many rows it leads, with
    a follower its leader, and with a retired row its number."""

    status: Status
    number: int = 0


@dataclass(frozen=True)
class Entry:
    """The entry of a seat in a row: what it says of the put that the seat makes there."""

    stage: Stage
    cell: int = 0
    version: int = 0


@dataclass(frozen=True)
class ScanWord:
    """What a seat says of its scan: that it waits since a clock, or its version."""

    waits: Waits
    number: int = 0


@dataclass(frozen=True)
class Link:
    """A link to a row, or to none."""

    row: Optional[int]
    marked: bool = False

    def with_mark(self):
        return Link(self.row, True)


@dataclass(frozen=True)
class Count:
    """How many cells of a row were asked for, and whether it gives no more."""

    given: int
    frozen: bool = False

    def one_more(self):
        return Count(self.given + 1, self.frozen)

    def with_freeze(self):
        return Count(self.given, True)

    def has_room(self):
        return not self.frozen and self.given < CELLS


@dataclass(frozen=True)
class Least:
    """The least key of a row, and with how many cells the row was built."""

    key: int
    built: int


FREE, NORMAL, UNDECIDED = State(Status.FREE), State(Status.NORMAL), State(Status.LEADER)
IDLE, FROZEN = Entry(Stage.IDLE), Entry(Stage.FROZEN)
QUIET = ScanWord(Waits.QUIET)

# What a word of each sort holds as a run begins.
OPENING = {
    "clock": 1,
    "epoch": 1,
    "head": Link(0),
    "pass": None,
    "scan": QUIET,
    "state": FREE,
    "count": Count(0),
    "least": Least(0, 0),
    "next": Link(None),
    "first": None,
    "entry": IDLE,
    "key": 0,
    "value": None,
    "version": None,
    "after": None,
}
CLOCK, EPOCH, HEAD = ("clock",), ("epoch",), ("head",)


def link_word(row, cell):
    """The link after a cell of a row, or with none the row's first one."""
    return ("first", row) if cell is None else ("after", row, cell)


class Operation(NamedTuple):
    """One operation on one word: its kind as an event, the word, and what it leaves there of the
    value that it finds; a load leaves that."""

    kind: Kind
    word: tuple
    leaves: Optional[Callable] = None


def load(kind, word):
    return Operation(kind, word)


def store(kind, word, value):
    return Operation(kind, word, lambda found: value)


def add_one(kind, word):
    return Operation(kind, word, lambda found: found + 1)


def exchange(kind, word, expected, value):
    """The value is stored where the expected one is found."""
    return Operation(kind, word, lambda found: value if found == expected else found)
