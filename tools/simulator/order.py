"""The one order of the calls of a history: by their ranks, as docs/ORDER.md has them."""

from collections import defaultdict


def puts_by_key(history):
    """The stamped attempts of each key in their order, and the point of each."""
    puts, points = defaultdict(list), {}
    for attempt in history.attempts:
        if attempt.version is not None:
            puts[attempt.key].append(attempt)
    for found in puts.values():
        found.sort(key=lambda it: (it.version, it.add))
        later = None
        for attempt in reversed(found):
            mates = later is not None and later.version == attempt.version
            points[attempt] = min(attempt.load, points[later]) if mates else attempt.load
            later = attempt
    return puts, points


def gap_of(call, puts, points):
    """The put behind which a get stands, or none before the first one: that which it answered, or
    of one that found nothing that before the first gap that shows nothing and whose next put has
    its point after the get began."""
    if call.answer is not None:
        return call.answer
    before = None
    for put in puts:
        if points[put] > call.first and (before is None or before.value is None):
            return before
        before = put
    return before


def rank_of(call, puts, points):
    """The rank of a call: its point, the add of its put or of that behind which it stands, and one
    more than its first position, but 0 for a put."""
    at_first = call.first, 0, call.first + 1
    if call.put is not None:
        return points[call.put], call.put.add, 0
    if call.reply in ("no rows", "spent", "stopped"):
        return at_first
    if call.call[0] == "scan":
        return call.draw, 0, call.first + 1
    gap = gap_of(call, puts[call.call[1]], points)
    if gap is None or points[gap] <= call.first:
        return at_first
    return points[gap], gap.add, call.first + 1


def names_in_order(history):
    """The names of the calls that ended or were stamped, in their order."""
    puts, points = puts_by_key(history)
    placed = [call for call in history.calls if call.has_place()]
    return [call.name() for call in sorted(placed, key=lambda it: rank_of(it, puts, points))]
