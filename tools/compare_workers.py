#!/usr/bin/env python3
"""Checks each reply of `./kiwi replay --workers W` on random inputs, for several numbers of
workers.

  tools/compare_workers.py                      1,000 inputs with 1, 2, 4, 8 and 16 workers
  tools/compare_workers.py 200 --seed 7
  tools/compare_workers.py 200 --workers 3,8
  tools/compare_workers.py 200 --shape rows     inputs of another shape than `few`
  tools/compare_workers.py .. --program './kiwi replay'
      another command; the options of the shape and --workers W are put after it

The shape says what the rows of the map go through. Of each, blocks are of all lengths, and some are
empty.

  few      up to 16 keys and 600 updates: rows are rebuilt, with few new ones
  many     up to 1,200 keys and 1,200 updates: rows are split
  rows     thousands of keys on a map of 64 rows: rows run out, and puts and deletes are refused
  crowded  16 keys, and 500 updates for each worker, many range lines among them: one row is
           rebuilt all the time
  neighbours
           most keys of a part of the map are deleted, some of it put again, and then keys below it:
           full rows stand beside small ones, and take them along
  window   rising keys, and with each put the oldest key is deleted
  series   so several series of minutes, all of a minute after those of the minute before
  disorder rising keys in disorder, and with each put the least key is deleted

The last four have 64 rows, 12,288 updates and a few hundred keys at a time: rows of deleted keys
have to come back.

One worker must answer as a map of one thread. With more workers each put, del and get line must
still, and each range line of a block without put and del lines. Any other range line may come
before or after updates of other workers. Its reply must be that of the map after the own worker's
earlier updates and, for each other worker, after some first ones of its updates in the block, no
fewer than at an earlier line of the own worker. And of two range lines of a block, one must have
seen all updates that the other saw: the calls fit one order. Where a reply leaves open how many
updates the line saw, each worker's number is taken by itself, so that a few wrong runs pass; no
right one fails. Range lines stand in blocks of 64 updates at most (of 32 for more than eight
workers), or of none, since what one of them may have seen takes long to look through.

In the shape `rows` a put or del line may be refused with `no rows`; it is no update then, and
changes nothing. So it is in the last four with several workers, as a row is not used again while
one of them stands still that had come before it went. Nowhere else is a line refused. The status
must be 8 exactly where one was, and else 0.

Before the last line stands, for each number of workers, how many runs did not answer as one thread,
in how many a range line saw a part of another worker's updates in its block, and in how many a line
was refused. In the second ones workers ran beside each other, and not one after another. The last
line says how many runs passed; the status is 1 where one did not."""

import argparse
import bisect
import itertools
import operator
import random
import re
import shlex
import sys
from collections import Counter, deque, namedtuple

from kiwi_map import KEY_MOST, KIWI, NUMBER, RANGES, VALUE_MOST, answered, ended, inside, is_range, items_of, line_of, listed
from simulator.words import BUILT, CELLS

PAIR = re.compile(r"(\d+)=(\d+)")
UPDATES = (b"put", b"del")
LIST, SUM, COUNT = b"list", b"sum", b"count"
REFUSAL = "no rows"
MANY = 160  # with so many lines for each worker they are at work beside each other, and with few not
NEVER = 17  # more workers than there are
FILL = 64 * BUILT  # so many rising keys fill a map of 64 rows
PUTS = 7 * FILL // 4  # so many puts, and a delete for most of them, are more updates than a shape has
READERS = ("sum", "count", "least", "greatest", "list", "list")



def window_updates(rng):
    """Rising keys, of which so many stay."""
    kept, step = rng.randrange(2, 5 * BUILT), rng.choice((1, 1, 3, 1000))
    return windows(((0, number * step) for number in itertools.count()), kept)


def series_updates(rng):
    """Series of minutes, of each of which so many stay."""
    series, kept = rng.randrange(2, 8), rng.randrange(40, 121)
    minutes = [[(one, (one << 20) + minute) for one in range(series)] for minute in range(PUTS // series)]
    for points in minutes if rng.random() < 0.5 else ():
        rng.shuffle(points)
    return windows(itertools.chain.from_iterable(minutes), kept)


def disorder_updates(rng):
    """Rising keys in disorder by some distance, of which so many stay that each was put before it
    goes."""
    far, more = rng.randrange(2, 2 * BUILT), rng.randrange(2, 3 * BUILT)
    oldest = itertools.count()
    for count, key in enumerate(sorted(range(PUTS), key=lambda number: number + rng.random() * far)):
        yield "put", key
        if count >= far + more:
            yield "del", next(oldest)


def windows(keys, kept):
    """Puts each key, and then deletes the oldest of its series, of which so many are to stay."""
    stay = {}
    for series, key in keys:
        yield "put", key
        mine = stay.setdefault(series, deque())
        mine.append(key)
        if len(mine) > kept:
            yield "del", mine.popleft()


def neighbour_updates(rng):
    """Puts keys until rows are split; then again and again empties a part of them but for a few
    keys, updates these until their row is rebuilt, and then one or two keys below them, until the
    row of those is full beside it; at last puts the part again."""
    keys = sorted(rng.sample(range(rng.choice((800, KEY_MOST + 1))), rng.randrange(120, 600)))
    yield from (("put", key) for key in rng.choice((keys, keys[::-1], rng.sample(keys, len(keys)))))
    while True:
        first = rng.randrange(1, len(keys) - 20)
        part = keys[first : first + rng.randrange(BUILT // 2, 2 * BUILT)]
        few = rng.sample(part, rng.randrange(1, 8))
        below = keys[max(0, first - rng.randrange(1, 20)) : first]
        yield from (("del", key) for key in part if key not in few)
        yield from (("put", rng.choice(few)) for _ in range(rng.randrange(CELLS)))
        yield from (("put", rng.choice(below)) for _ in range(rng.randrange(CELLS + BUILT // 2)))
        yield from (("put", key) for key in rng.sample(part, rng.randrange(len(part) + 1)))


# How many keys and updates an input has at most; how many puts for each delete; how many range
# lines a block has at most, and how often a block may have some; whether each such block has as
# many updates as it may; the options of the command; from how many workers on a line may be
# refused; and what gives the updates, where they are not drawn one by one.
Shape = namedtuple("Shape", "keys updates puts ranges narrow full options refused_from stream", defaults=(None,))
ROWS = ("--rows", "64")
SHAPES = {
    "few": Shape(16, 600, 3, 60, 0.6, False, (), NEVER),
    "many": Shape(1200, 1200, 3, 60, 0.6, False, (), NEVER),
    "rows": Shape(5 * FILL // 3, 2 * FILL, 12, 6, 0.4, False, ROWS, 1),
    "crowded": Shape(16, 500, 3, 40, 1.0, True, (), NEVER),
    "neighbours": Shape(600, 3 * FILL, 3, 12, 0.6, False, ROWS, 2, neighbour_updates),
    "window": Shape(320, 3 * FILL, 1, 12, 0.6, False, ROWS, 2, window_updates),
    "series": Shape(840, 3 * FILL, 1, 12, 0.6, False, ROWS, 2, series_updates),
    "disorder": Shape(320, 3 * FILL, 1, 12, 0.6, False, ROWS, 2, disorder_updates),
}

Line = namedtuple("Line", "number form numbers reply")
# A worker's updates in a block: their line numbers, and the worker's pairs before the first of them
# and after each. What range lines find in these pairs is kept, as many lines ask the same.
History = namedtuple("History", "numbers states found")
# How many of each worker's updates a range line saw, at the least and at the most.
View = namedtuple("View", "least most")


class Wrong(Exception):
    """A run that no map could give."""


def random_block(rng, shape, left, workers):
    """The forms of a block of at most so many updates, and how many updates it has. Half of the
    blocks have so many get lines that all workers are at work beside each other."""
    if left and rng.random() >= shape.narrow:
        updates, ranges = rng.randrange(1, left + 1), 0
    elif left and (shape.full or rng.random() < 0.8):
        # (what a range line may have seen of more workers takes longer to look through)
        narrow = 64 if workers <= 8 else 32
        updates = min(left, narrow if shape.full else rng.randrange(1, narrow + 1))
        ranges = rng.randrange(shape.ranges + 1)
    else:
        updates, ranges = 0, rng.randrange(shape.ranges + 1)
    forms = rng.choices(("put",) * shape.puts + ("del",), k=updates) + rng.choices(READERS, k=ranges)
    forms += ["get"] * rng.choice((rng.randrange(1 + updates // 4), MANY * workers))
    rng.shuffle(forms)
    return forms, updates


def random_forms(rng, shape, workers):
    """The forms of an input's lines. Few updates leave long blocks, and many blocks without any."""
    left = shape.updates * workers if shape.full else shape.updates if shape.options else rng.randrange(shape.updates + 1)
    forms, blocks = [], rng.choice((1, 3, 10))
    while left or blocks > 0:
        block, updates = random_block(rng, shape, left, workers)
        forms += block + ["wait"]
        left, blocks = left - updates, blocks - 1
    return forms if rng.random() < 0.3 else forms[:-1]


def random_keys(rng, shape):
    """The keys of an input: random ones, or neighbours that rise or fall."""
    if not shape.options:
        return [rng.randrange(rng.choice((2 * shape.keys, KEY_MOST + 1))) for _ in range(rng.choice((shape.keys, rng.randrange(1, shape.keys + 1))))]
    order, first = rng.choice((None, 1, -1)), rng.randrange(KEY_MOST - shape.keys)
    if order is None:
        return rng.sample(range(KEY_MOST + 1), shape.keys)
    return list(range(first, first + shape.keys))[::order]


class Keys:
    """Hands out the keys of an input: each in its turn, or one of those that were handed out."""

    def __init__(self, rng, shape):
        self.rng, self.keys, self.at, self.in_turn = rng, random_keys(rng, shape), 0, bool(shape.options)

    def update(self, form):
        if self.in_turn and form == "put" and self.at < len(self.keys) and self.rng.random() < 0.95:
            self.at += 1
            return form, self.keys[self.at - 1]
        return form, self.asked()

    def asked(self):
        return self.keys[self.rng.randrange(max(1, self.at))] if self.in_turn else self.rng.choice(self.keys)


class Stream:
    """Hands out the updates of an input in their turn, and to other lines the keys of late ones."""

    def __init__(self, rng, shape):
        self.rng, self.updates, self.last = rng, shape.stream(rng), deque([0], maxlen=2 * shape.keys)

    def update(self, _form):
        form, key = next(self.updates)
        self.last.append(key)
        return form, key

    def asked(self):
        return self.rng.choice(self.last)


def random_input(rng, shape, workers):
    keys = Stream(rng, shape) if shape.stream else Keys(rng, shape)
    most = rng.choice((3, 1000, VALUE_MOST))
    lines = []
    for form in random_forms(rng, shape, workers):
        is_whole = is_range(form.encode()) and rng.random() < 0.5
        form, key = keys.update(form) if form.encode() in UPDATES else (form, 0 if is_whole else keys.asked())
        lines.append(line_of(form, key, KEY_MOST if is_whole else keys.asked(), rng.randrange(most + 1)))
    text = "\n".join(lines)
    return (text + rng.choice(("", "\n")) if text else text).encode()


def blocks_of(items, replies):
    """The lines of each block. A wait line has a number and no reply."""
    blocks, replies = [[]], iter(replies)
    for number, (form, numbers) in enumerate(items, 1):
        if form == b"wait":
            blocks.append([])
        else:
            blocks[-1].append(Line(number, form, numbers, next(replies)))
    return blocks


def is_update(line):
    """Whether the line has changed the map, or taken away a key that had no value: it was not
    refused."""
    return line.form in UPDATES and line.reply != REFUSAL


def history_of(block, start, worker, workers):
    own = {key: value for key, value in start.items() if key % workers == worker}
    history = History([], [dict(own)], {})
    for line in block:
        if is_update(line) and line.numbers[0] % workers == worker:
            answered(own, line.form, line.numbers)
            history.numbers.append(line.number)
            history.states.append(dict(own))
    return history


def found_in(pairs, line):
    """What a range line finds in these pairs: a number, none, or the pairs themselves."""
    found = inside(pairs, line.numbers)
    return tuple(found) if line.form == LIST else RANGES[line.form]([value for _, value in found])


def joined(form, one, other):
    """What a range line finds in two maps without a common key, by what it finds in each."""
    if form == LIST:
        return tuple(sorted(one + other))
    if form in (SUM, COUNT):
        return one + other
    return RANGES[form]([value for value in (one, other) if value != "none"])


def found_by(line):
    """What the reply says that the line found, or None where it says nothing that such a line can
    find."""
    if line.form == LIST:
        pairs = tuple((int(key), int(value)) for key, value in PAIR.findall(line.reply))
        return pairs if line.reply == listed(pairs) else None
    if NUMBER.fullmatch(line.reply.encode()):
        return int(line.reply)
    return line.reply if line.reply == "none" and line.form not in (SUM, COUNT) else None


def choices_of(line, history, first, last):
    """What the line can find in a worker's pairs after `first` to `last` of its updates: the least
    and greatest number for each."""
    asked = (line.form, *line.numbers)
    if asked not in history.found:
        history.found[asked] = [found_in(pairs, line) for pairs in history.states]
    choices = {}
    for count, found in enumerate(history.found[asked][first : last + 1], first):
        least, _ = choices.get(found, (count, count))
        choices[found] = (least, count)
    return choices


def joins_of(form, parts):
    """What a line can find in the pairs of several workers together: the least and greatest number
    of each one's updates."""
    joins = {() if form == LIST else 0 if form in (SUM, COUNT) else "none": View((), ())}
    for part in parts:
        further = {}
        for found, view in joins.items():
            for more, (least, most) in part.items():
                keep_wider(further, joined(form, found, more), View((*view.least, least), (*view.most, most)))
        joins = further
    return joins


def keep_wider(views, found, view):
    if found in views:
        view = View(tuple(map(min, views[found].least, view.least)), tuple(map(max, views[found].most, view.most)))
    views[found] = view


def parts_of(line, found, histories, bounds):
    """The choices of each worker. For a list they are those alone which give just the worker's
    pairs of what was found."""
    workers = len(histories)
    parts = []
    for worker, history in enumerate(histories):
        before = bisect.bisect(history.numbers, line.number)
        is_own = worker == line.number % workers
        part = choices_of(line, history, *((before, before) if is_own else (bounds[worker], len(history.numbers))))
        if line.form == LIST:
            mine = tuple(pair for pair in found if pair[0] % workers == worker)
            part = {mine: part[mine]} if mine in part else {}
        parts.append(part)
    return parts


def view_of(line, histories, bounds):
    """What a range line has seen if it saw at least `bounds` of each worker's updates, or None
    where nothing gives its reply."""
    found = found_by(line)
    if found is None:
        return None
    parts = parts_of(line, found, histories, bounds)
    # Halves that are joined at the end: all sums of many workers would be too many.
    half = len(parts) // 2
    ones, others = joins_of(line.form, parts[:half]), joins_of(line.form, parts[half:])
    views = {}
    for one, view in ones.items():
        for other in [found - one] if line.form in (SUM, COUNT) else others:
            if other in others and joined(line.form, one, other) == found:
                keep_wider(views, found, View(view.least + others[other].least, view.most + others[other].most))
    return views.get(found)


def may_precede(one, other):
    return all(map(operator.le, one.least, other.most))


def saw_a_part(line, view, histories):
    """Whether a range line saw an update of another worker and did not see a later one: that worker
    was then at work beside it."""
    workers = len(histories)
    others = [worker for worker in range(workers) if worker != line.number % workers]
    return any(0 < view.least[worker] and view.most[worker] < len(histories[worker].numbers) for worker in others)


def check_ranges(block, start, workers):
    """Raises Wrong where a range line of a block with updates is, and says whether one saw a part
    of another worker's updates."""
    histories = [history_of(block, start, worker, workers) for worker in range(workers)]
    bounds = [(0,) * workers for _ in range(workers)]
    views, met = {}, False
    for line in filter(lambda line: is_range(line.form), block):
        worker = line.number % workers
        view = view_of(line, histories, bounds[worker])
        if view is None:
            raise Wrong(f"line {line.number}: nothing that it may have seen gives {line.reply!r}")
        for other, number in views.items():
            if not may_precede(view, other) and not may_precede(other, view):
                raise Wrong(f"lines {number} and {line.number}: each saw an update that the other did not see")
        bounds[worker] = view.least
        views.setdefault(view, line.number)
        met = met or saw_a_part(line, view, histories)
    return met


def check_block(block, pairs, workers):
    """Checks a block that begins with these pairs, as `check_ranges` does. Afterwards the pairs are
    those at its end."""
    start = dict(pairs)
    among_updates = any(map(is_update, block))
    for line in block:
        if line.form in UPDATES and line.reply == REFUSAL:
            continue
        wanted = str(answered(pairs, line.form, line.numbers))
        is_quiet = not among_updates or not is_range(line.form)
        if is_quiet and line.reply != wanted:
            raise Wrong(f"line {line.number}: got {line.reply!r}, wanted {wanted!r}")
    return among_updates and any(is_range(line.form) for line in block) and check_ranges(block, start, workers)


def replies_alone(items, replies):
    """What one thread replies, where the lines are refused that were refused here."""
    pairs, lines = {}, (item for item in items if item[0] != b"wait")
    return [reply if form in UPDATES and reply == REFUSAL else str(answered(pairs, form, numbers)) for (form, numbers), reply in zip(lines, replies)]


# How a run went: whether a line was refused; whether it answered as one thread; and whether a range
# line saw a part of another worker's updates in its block.
Run = namedtuple("Run", "refused alone met")


def check(text, output, status, workers, refuses):
    """Raises Wrong where such a run is, and says how it went."""
    items = items_of(text)
    *replies, rest = output.decode(errors="replace").split("\n")
    wanted = sum(form != b"wait" for form, _ in items)
    if rest or len(replies) != wanted:
        raise Wrong(f"{len(replies)} lines and {len(rest)} bytes after them, wanted {wanted} lines")
    refused = REFUSAL in replies
    if status != (8 if refused else 0):
        raise Wrong(f"status {status}, where {'a' if refused else 'no'} line was refused")
    if refused and not refuses:
        raise Wrong("a line was refused, and rows were left")
    pairs = {}
    met = [check_block(block, pairs, workers) for block in blocks_of(items, replies)]
    alone = replies == replies_alone(items, replies)
    if workers == 1 and not alone:
        raise Wrong("not the replies of one thread")
    return Run(refused, alone, any(met))


def main():
    options = argparse.ArgumentParser(description=__doc__, formatter_class=argparse.RawDescriptionHelpFormatter)
    options.add_argument("inputs", nargs="?", type=int, default=1000)
    options.add_argument("--seed", type=int, default=1)
    options.add_argument("--workers", default="1,2,4,8,16", help="the numbers of workers, with commas between them")
    options.add_argument("--shape", choices=sorted(SHAPES), default="few")
    options.add_argument("--program", help="the command that is checked, if not ./kiwi replay")
    options = options.parse_args()
    shape = SHAPES[options.shape]
    program = [*(shlex.split(options.program) if options.program else [KIWI, "replay"]), *shape.options]
    every = [int(workers) for workers in options.workers.split(",")]
    apart, beside, refused = Counter(), Counter(), Counter()
    rng = random.Random(options.seed)
    failed = 0
    for number in range(options.inputs):
        text = random_input(rng, shape, max(every))
        for workers in every:
            output, _, status = ended([*program, "--workers", str(workers)], text)
            try:
                run = check(text, output, status, workers, shape.refused_from <= workers)
            except Wrong as wrong:
                failed += 1
                print(f"input {number} with {workers} workers: {wrong}\n  input  {text!r}\n  output {output!r}")
                continue
            apart[workers] += not run.alone
            beside[workers] += run.met
            refused[workers] += run.refused
    for workers in every:
        told = f"{apart[workers]} not as one thread, {beside[workers]} with a part seen, {refused[workers]} with a refusal"
        print(f"{workers} workers: of {options.inputs} runs {told}")
    passed = options.inputs * len(every) - failed
    print(f"{passed} passed, {failed} failed")
    return 1 if failed or not passed else 0


if __name__ == "__main__":
    sys.exit(main())
