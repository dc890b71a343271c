"""The shared memory and its seats: one event after the other, each one operation on one word."""

from simulator.history import History
from simulator.words import NORMAL, OPENING, SEATS

# A call asks so what it is to choose, where its next event leaves that open.
CHOOSE = object()
# The choices beside a guess, which is a number.
GO, STOP = "go", "stop"


class World:
    """The words, the seats and what happened."""

    def __init__(self, rows):
        self.rows = rows
        self.words = {("state", 0): NORMAL}
        # For which attempt each cell stands, by row and cell; of each seat where the version in its
        # scan word was drawn.
        self.origins = {}
        self.drawn_at = {}
        self.history = History()
        self.running = [None] * SEATS
        self.calls_begun = [0] * SEATS

    def is_idle(self, seat):
        return self.running[seat] is None

    def step(self, seat, choice=GO):
        """One event of a seat that makes a call; its kind."""
        call, operation = self.running[seat]
        if operation is CHOOSE:
            operation = call.send(choice)
        found = self.words.get(operation.word)
        if found is None:
            found = OPENING[operation.word[0]]
        if operation.leaves:
            self.words[operation.word] = operation.leaves(found)
        try:
            self.running[seat] = call, call.send(found)
        except StopIteration:
            self.running[seat] = None
        self.history.now += 1
        return operation.kind

    def begin(self, seat, caller):
        """The first event of an idle seat's next call; its kind."""
        self.calls_begun[seat] += 1
        call = caller.events(self.calls_begun[seat])
        self.running[seat] = call, next(call)
        return self.step(seat)
