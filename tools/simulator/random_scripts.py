"""Random scripts, for comparisons: each shape in turn leads to rows of another sort, and then a few
seats make calls there, by steps and kinds of steps that are random. One script in five has a byte
that was put in, left out or changed."""

import random

from kiwi_map import joined
from simulator.scripts import MOST_LINES
from simulator.words import BUILT, CELLS, SEATS, Kind

# What a seat with a call is mostly made to wait for: the steps that others' steps may meet.
MEETING = (
    "add_count announce load_clock stamp store_version insert clear_pend store_waiting draw settle"
    " help_stamp load_after engage mark_link load_next_count decide engage_next freeze_count"
    " freeze_pend load_scan help_draw help_settle take_row load_pass reclaim store_infant load_min"
    " replace normalise give_back number store_retired clear_pass store_pass"
).split()
KINDS = list(Kind.__members__)
# Steps behind which something may begin at which a guess counts, or a stop.
BEGINNING = "store_pass settle load_pend store_version insert load_value load_state".split()


def called(rng, seat, keys):
    """A line by which a seat is to make a call on some of these keys."""
    key, other, value = rng.choice(keys), rng.choice(keys), rng.randrange(100)
    made = f"put {key} {value}", f"del {key}", f"get {key}", f"scan {key} {other}"
    return [f"call {seat} {rng.choices(made, (5, 2, 2, 3))[0]}"]


def stepped(rng, seat):
    """A line by which a seat makes steps."""
    steps = int((8 * CELLS) ** rng.random())
    kind = rng.choice(MEETING if rng.random() < 0.9 else KINDS)
    return [rng.choice((f"go {seat} {steps}", f"go {seat} {steps}", f"until {seat} {kind}"))]


def chosen(rng, seat):
    """Lines by which a seat comes to where a choice may count, and makes some."""
    guess = rng.randrange(64) if rng.random() < 0.1 else rng.randrange(6)
    choice = f"guess {seat} {guess}" if rng.random() < 0.8 else f"stop {seat}"
    # So many words are written of a new row of few cells: four, an entry for each seat, a version
    # for each cell, and three more for each of those that it is built with.
    words = 4 + SEATS + CELLS + 3 * rng.randrange(1, 8)
    before = (
        [f"until {seat} {rng.choice(BEGINNING)}"],
        [f"until {seat} take_row", f"go {seat} {words}"],
        [f"go {seat} {rng.randrange(1, 2 * SEATS + 24)}"],
    )
    return [*rng.choice(before), *rng.randrange(1, 6) * [choice]]


def mixed(rng, seats, keys, lines_wanted):
    """So many lines of these seats and keys."""
    lines = [line for seat in seats for line in called(rng, seat, keys)]
    while len(lines) < lines_wanted:
        seat = rng.choice(seats)
        how = rng.random()
        if how < 0.2:
            lines += called(rng, seat, keys)
        elif how < 0.23:
            lines.append(f"puts {seat} {rng.randrange(1, CELLS + 6)} {rng.choice(keys)} 1")
        else:
            lines += chosen(rng, seat) if how < 0.35 else stepped(rng, seat)
    return lines[:lines_wanted]


def again(seat, count, key):
    """A key that is put so often that rows are rebuilt, one for each CELLS - 1 puts or so."""
    return [f"puts {seat} {count} {key} 1", f"go {seat} 100000"]


def few(rng):
    """One row that is nearly empty."""
    return [], list(range(rng.randrange(1, 6)))


def full(rng):
    """One row that is full, or nearly so."""
    keys = list(range(rng.randrange(1, 6)))
    return again(0, rng.randrange(CELLS - 8, CELLS + 2), rng.choice(keys)), keys


def split(rng):
    """Rows that were split, of which the first is nearly full."""
    keys = list(range(0, 3 * rng.randrange(BUILT - 2, CELLS + 6), 3))
    first = [f"call 0 put {key} {key}" for key in rng.sample(keys, len(keys))]
    first += again(0, rng.randrange(BUILT - 12, BUILT + 3), keys[0])
    return first, [*keys[:3], *keys[-3:], *keys[BUILT - 2 : BUILT + 1]]


def neighbour(rng):
    """A row that is full, or nearly so, before one of few cells: keys are split in two rows, all
    but four of the second are deleted, that is rebuilt, and then the first is filled."""
    keys, half = list(range(BUILT + 1)), BUILT // 2 + 1
    first = [f"call 0 put {key} {key}" for key in keys] + again(0, CELLS - BUILT, 1)
    gone = keys[half + 4 :]
    first += [f"call 0 del {key}" for key in gone]
    first += again(0, CELLS + 1 - len(keys[half:]) - len(gone), half)
    first += again(0, CELLS - half - 1 - rng.randrange(3), 1)
    return first, [0, 1, 2, half - 1, half, half + 1, half + 3, BUILT + 8]


def offered(rng, keys):
    """Lines by which a seat puts or deletes a key, and is then offered to tidy one of the first
    rows: it does where its key stands there."""
    seat, key = rng.randrange(SEATS), rng.choice(keys)
    made = rng.choice((f"put {key} 2", f"del {key}"))
    return [f"call {seat} {made}", f"until {seat} insert", f"guess {seat} {rng.randrange(3)}"]


def tidied(rng):
    """Rows of which so many were retired that tidying is offered, and seats that are offered it,
    of which a few are made to end before others meet them."""
    keys = list(range(rng.randrange(1, 40)))
    first = again(0, 2 * CELLS + rng.randrange(CELLS + 6), rng.choice(keys))
    first += [*(f"call 1 put {key} 1" for key in keys), "go 1 100000"]
    for _ in range(8):
        first += offered(rng, keys)
        if rng.random() < 0.5:
            first.append(f"go {first[-1].split()[1]} 100000")
    return first, keys[:4]


def scarce(rng):
    """Rows that ran out, or nearly so, since a call stands still: so many puts take all cells of 64
    rows."""
    last, puts = SEATS - 1, CELLS + 63 * (CELLS - 1)
    first = [f"call {last} get 5"]
    first += [f"until {last} {rng.choice(('load_head', 'load_link', 'load_pend'))}"]
    first += again(0, puts - 53 + rng.randrange(60), 5)
    return [*first, "go 0 100000", "go 0 100000"], [4, 5, 6]


# The rare ones take long.
SHAPES = 5 * (few, full, split, neighbour, tidied, full, neighbour, split) + (scarce,)


def random_lines(seed):
    """The lines of a script."""
    rng = random.Random(seed)
    first, keys = SHAPES[seed % len(SHAPES)](rng)
    seats = rng.sample(range(SEATS), rng.randrange(1, 5))
    count = rng.randrange(min(150, MOST_LINES - len(first)))
    ends = [f"go {seat} 100000" for seat in range(SEATS)] if rng.random() < 0.3 else []
    return [*first, *mixed(rng, seats, keys, max(0, count - len(ends))), *ends]


def random_script(seed):
    """The bytes of a script."""
    lines, rng = random_lines(seed), random.Random(f"bytes of {seed}")
    return joined(rng, lines) if rng.random() < 0.2 else "".join(f"{it}\n" for it in lines).encode()
