"""The record of what happened: the calls, and the attempts, which are puts and deletes that were
given a cell. A position is the number of events that were made before."""

from dataclasses import dataclass
from typing import Dict, List, Optional, Tuple


@dataclass(eq=False)
class Attempt:
    """A put or delete that was given a cell. It is stamped once its version is known, which was
    loaded at the position of its load."""

    call: "CallLog"
    key: int
    value: Optional[int]
    add: int
    version: Optional[int] = None
    load: int = 0


@dataclass(eq=False)
class CallLog:
    """A call: its name, what it was, its first position, and once it ended its last one and its
    reply. Its put is the attempt that was stamped, its answer that whose value a get answered, and
    its draw where a scan's version was drawn."""

    seat: int
    number: int
    call: Tuple
    first: int
    last: Optional[int] = None
    reply: Optional[str] = None
    put: Optional[Attempt] = None
    answer: Optional[Attempt] = None
    draw: Optional[int] = None

    def name(self):
        return f"{self.seat}.{self.number}"

    def has_place(self):
        """Whether the call stands in the order."""
        return self.last is not None or self.put is not None


class History:
    """All that happened."""

    def __init__(self):
        self.now = 0
        self.calls: List[CallLog] = []
        self.attempts: List[Attempt] = []
        # Of each seat the call that it began last.
        self.latest: Dict[int, CallLog] = {}

    def begin(self, seat, number, call):
        """A call begins."""
        self.latest[seat] = CallLog(seat, number, call, self.now)
        self.calls.append(self.latest[seat])
        return self.latest[seat]

    def add(self, call, key, value):
        """A put or delete gets a cell."""
        self.attempts.append(Attempt(call, key, value, self.now))
        return self.attempts[-1]

    def stamp(self, attempt, version, load):
        """An attempt gets a version, which was loaded at this position."""
        attempt.version, attempt.load, attempt.call.put = version, load, attempt

    def end(self, call, reply):
        """A call ends, with this reply as it is printed."""
        call.last, call.reply = self.now, reply
