"""Records: their lines are read, and it is judged whether they are good."""

from dataclasses import dataclass
from typing import Optional, Tuple

from kiwi_map import KEY_MOST, answered
from simulator.texts import BadLine, lines_of, number_of, record_call_of

MOST_SEAT, MOST_NUMBER, MOST_CALLS = 15, 100_000, 100_000
PLAIN_REPLIES = (b"ok", b"none", b"empty", b"no rows", b"spent", b"stopped", b"held", b"not pinned")
REFUSALS = {
    "put": ("no rows", "spent"),
    "del": ("no rows", "spent"),
    "scan": ("spent", "stopped"),
    "get": (),
    "pin": ("spent",),
    "scan_at": ("stopped",),
    "unpin": (),
}


@dataclass(frozen=True)
class Line:
    """A call of a record. One that was not answered has no last position, and counts as done."""

    name: str
    call: Tuple
    first: int
    last: Optional[int] = None
    reply: str = "ok"


def name_of(word):
    """The name that a word is, or none."""
    seat, _, number = word.partition(b".")
    is_name = number_of(seat, 0, MOST_SEAT) is not None and number_of(number, 1, MOST_NUMBER)
    return word.decode() if is_name else None


def is_pair(word):
    key, _, value = word.partition(b"=")
    return number_of(key, 0, KEY_MOST) is not None and number_of(value) is not None


def is_reply(text):
    """Whether this is the text of some call's reply."""
    if text in PLAIN_REPLIES or number_of(text) is not None:
        return True
    return all(is_pair(word) for word in text.split(b" "))


def done_of(line):
    """The answered call of a line, or none."""
    head, colon, reply = line.partition(b": ")
    words = head.split(b" ")
    if not colon or len(words) < 4 or words[0] != b"done" or not is_reply(reply):
        return None
    name, first, last = name_of(words[1]), number_of(words[2]), number_of(words[3])
    call = record_call_of(words[4:])
    if name is None or first is None or last is None or first > last or call is None:
        return None
    return Line(name, call, first, last, reply.decode())


def open_of(line):
    """The call of a line that was not answered, or none."""
    words = line.split(b" ")
    if len(words) < 3 or words[0] != b"open":
        return None
    name, first, call = name_of(words[1]), number_of(words[2]), record_call_of(words[3:])
    if name is None or first is None or call is None or call[0] not in ("put", "del"):
        return None
    return Line(name, call, first)


def order_of(line):
    """The names of an order's line, or none."""
    verb, *words = line.split(b" ")
    if verb != b"order" or not words:
        return None
    names = [] if words == [b"none"] else [name_of(word) for word in words]
    return None if None in names else names


def record_of(text):
    """The calls of a record, by their names, and the order that is claimed: answered calls, then
    the others, then the order, and nothing behind it."""
    calls, order, lines = {}, None, lines_of(text)
    is_open = False
    for number, line in enumerate(lines, 1):
        found = None if is_open else done_of(line)
        if found is None:
            found = open_of(line)
            is_open = is_open or found is not None
        if found is None and order is None:
            order = order_of(line)
            if order is not None:
                continue
        if found is None or order is not None or found.name in calls or len(calls) == MOST_CALLS:
            raise BadLine(number)
        calls[found.name] = found
    if order is None:
        raise BadLine(len(lines) + 1)
    return calls, order


def name_fault(calls, order):
    """What is wrong with the names of an order first, or none."""
    seen = set()
    for name in order:
        if name in seen:
            return f"twice {name}"
        seen.add(name)
    unknown = next((name for name in order if name not in calls), None)
    missing = next((name for name in calls if name not in seen), None)
    if unknown:
        return f"unknown {unknown}"
    return f"missing {missing}" if missing else None


def late_fault(calls):
    """The first of these calls that stands behind one that began after it had ended, and the first
    such one, or none."""
    began = -1
    for number, call in enumerate(calls):
        if call.last is not None and call.last < began:
            front = next(it for it in calls[:number] if call.last < it.first)
            return f"late {call.name} {front.name}"
        began = max(began, call.first)
    return None


def answered_at(pairs, pins, seat, form, numbers):
    """The reply of a map of one thread to a call of this seat. Of each seat that holds a snapshot
    the pins have the pairs as they stood when it was taken."""
    if form == "pin":
        reply = "held" if seat in pins else "ok"
        pins.setdefault(seat, dict(pairs))
        return reply
    if form == "unpin":
        return "not pinned" if pins.pop(seat, None) is None else "ok"
    if form == "scan_at" and seat not in pins:
        return "not pinned"
    asked = b"list" if form in ("scan", "scan_at") else form.encode()
    return str(answered(pins[seat] if form == "scan_at" else pairs, asked, numbers))


def wrong_fault(calls):
    """The first of these calls whose reply is not that of a map of one thread, or none."""
    pairs, pins = {}, {}
    for call in calls:
        form, *numbers = call.call
        seat = call.name.partition(".")[0]
        if call.reply not in REFUSALS[form] and answered_at(pairs, pins, seat, form, numbers) != call.reply:
            return f"wrong {call.name}"
    return None


def verdict_on(text):
    """The verdict on the record that these bytes are."""
    calls, order = record_of(text)
    fault = name_fault(calls, order)
    if fault is None:
        in_order = [calls[name] for name in order]
        fault = late_fault(in_order) or wrong_fault(in_order)
    return f"no: {fault}" if fault else "yes"
