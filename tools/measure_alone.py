#!/usr/bin/env python3
"""Measures how many events a seat makes that goes on alone, while the others stand still wherever
they are: to its next mark, and to the end of its call.

  tools/measure_alone.py
      `./kiwi simulate`, at moments of 200 random scripts, of the seeds from 1 on
  tools/measure_alone.py --runs 50 --seed 7 --rows 64 100 --seats 3
      the scripts have tables of so many rows in turn, and so many seats make calls in them
  tools/measure_alone.py --simulator --rows 1 2 3 4 5 6 7 8
      the simulator of this folder, which takes tables of fewer rows too
  tools/measure_alone.py .. --program 'COMMAND'
      in place of `./kiwi simulate`
  tools/measure_alone.py .. --divide 10000
      bounds that are so many times too small: to see that these are told

A mark ends the call, replaces the seat's full row, or goes on from a rebalance to that of the row
before. Some of the seats of a script are stopped in the middle of calls: rows are full, frozen,
taken along or built by halves, and then one seat makes all events. It does so with no other choice,
and again with a guess or a stop here and there, by which puts that are done tidy their rows too.

A script shows no events, but when calls began and ended, and whether a kind of event comes. So
marks are found by these: a `replace` was won where `normalise` follows at once; `load_epoch` comes
at once after `load_clock` where a rebalance begins, and that is one of the row before where one of
`load_min`, `load_link` and `give_back` led there. A choice itself is never taken for a mark, so a
stretch may be told longer than it is.

For each number of rows the greatest stretches are printed beside the bounds, and how often which
mark came first (`tidied`: the row of a put that was done). The status is 0 if none is above its
bound, and else 1; so it is where a call has no end in sight, or where nothing was measured. No
proof rests on this: it shows how far from what happens a bound is, and would show a wrong one."""

import argparse
import random
import shlex
import sys
from collections import Counter

from kiwi_map import KIWI, ended
from simulator.random_scripts import (
    BEGINNING,
    MEETING,
    called,
    few,
    full,
    mixed,
    neighbour,
    scarce,
    split,
    tidied,
)
from simulator.scripts import MOST_LINES, MOST_STEPS, run_of
from simulator.words import SEATS

# A call that goes on for longer has no end in sight.
MOST_GOES = 5
# How many moments a script has, and with how many choices a seat goes on from one at most.
MOMENTS, MOST_TURNS = 6, 4
# So many lines of a script are left for what halts seats at a moment, and for what is asked there.
ASKING = 40
SHAPES = 4 * (few, full, split, neighbour, tidied)
# The events that lead from a rebalance to that of the row before.
LEADING_LEFT = "load_min", "load_link", "give_back"
UPDATES = "put", "del"


class NoAnswer(Exception):
    """A command did not run a script, or a call has no end in sight."""


def text_of(lines):
    return "".join(f"{line}\n" for line in lines).encode()


class Simulated:
    """What a seat makes alone after a script, by the simulator of this folder: the kinds of its
    events to the end of its call, and whether that is an update."""

    def __init__(self, rows, lines, seat):
        run = run_of(text_of(lines), rows)
        self.kinds = []
        while (kind := run.step(seat)) is not None:
            self.kinds.append(kind.name)
            if run.world.is_idle(seat):
                break
            if len(self.kinds) == MOST_GOES * MOST_STEPS:
                raise NoAnswer("a call has no end in sight")
        self.end = len(self.kinds)
        self.updates = self.end > 0 and run.world.history.latest[seat].call[0] in UPDATES

    def first(self, made, kind):
        """How many events the seat has made with the first one of a kind behind so many, or none
        where its call has no such event."""
        return self.kinds.index(kind, made) + 1 if kind in self.kinds[made:] else None


class Asked:
    """The same by a command. Two seats without calls tell how many events were made: each makes the
    first event of a get, which only loads a word."""

    def __init__(self, command, rows, lines, seat):
        self.command, self.lines, self.seat = [*command, "--rows", str(rows), "--record"], lines, seat
        named = {int(line.split()[1]) for line in lines}
        self.telling = [it for it in range(SEATS) if it not in named][:2]
        calls, before, after = self.answer(MOST_GOES * [f"go {seat} {MOST_STEPS}"])
        ends = sorted((last, words[0]) for it, last, words in calls if it == seat and last > before)
        if not ends and after > before + 1:
            raise NoAnswer("a call has no end in sight")
        self.end = ends[0][0] - before if ends else 0
        self.updates = self.end > 0 and ends[0][1] in UPDATES

    def answer(self, alone):
        """The calls that ended after these lines too, each with its seat, its last position and its
        words; and the positions before these lines and after them."""
        one, other = self.telling
        tell_one, tell_other = ([f"call {it} get 0", f"go {it} 1"] for it in self.telling)
        ends = [f"go {it} {MOST_STEPS}" for it in self.telling]
        script = text_of([*self.lines, *tell_one, *alone, *tell_other, *ends])
        record, fault, status = ended(self.command, script)
        if status:
            raise NoAnswer(f"status {status}: {fault.decode().strip()}")
        calls, begun = [], {}
        for line in record.decode().splitlines():
            words = line.split()
            if words[0] == "done":
                seat = int(words[1].split(".")[0])
                begun[seat] = int(words[2])
                calls.append((seat, int(words[3]), words[4:]))
        return calls, begun[one], begun[other]

    def first(self, made, kind):
        """As above."""
        goes = [f"go {self.seat} {made}"] if made else []
        _, before, after = self.answer([*goes, f"until {self.seat} {kind}"])
        # One that did not come is missed after the call has ended.
        return after - before - 1 if after - before - 1 < self.end else None


def follows(alone, made, kind):
    """Whether the next event after so many is of this kind."""
    return alone.first(made, kind) == made + 1


def is_left(alone, made):
    """Whether the last of so many events begins a rebalance of the row before."""
    led = made > 1 and any(follows(alone, made - 2, kind) for kind in LEADING_LEFT)
    return led and follows(alone, made, "load_epoch")


def first_so(alone, kind, is_so):
    """How many events the seat has made with the first one of this kind of which this is so."""
    made = alone.first(0, kind)
    while made and not is_so(alone, made):
        made = alone.first(made, kind)
    return made


def to_mark(alone):
    """How many events the seat makes to its first mark, that one too, and which mark it is."""
    marks = [(alone.end, "ended")]
    if alone.updates:
        replaced = first_so(alone, "replace", lambda it, made: follows(it, made, "normalise"))
        marks += [(replaced, "replaced")] if replaced else []
        # The mark is the event that led there.
        left = first_so(alone, "load_clock", is_left)
        marks += [(left - 1, "left")] if left else []
    return min(marks)


def stretches(alone_after, lines, seat, turns):
    """The stretches of a seat after these lines, with no choice, with the first that comes before a
    mark, and so on: to the mark and to the end, and which mark. A turn is a kind of event behind
    which a choice is made, or none, and the choice."""
    alone, made = alone_after(lines, seat), 0
    mark, which = to_mark(alone)
    yield mark, alone.end, which
    for kind, choice in turns:
        at = alone.first(0, kind) if kind else 0
        if at is None or at >= mark or at + 1 >= alone.end:
            continue
        lines = [*lines, *([f"until {seat} {kind}"] if kind else []), choice]
        made += at + 1
        alone = alone_after(lines, seat)
        mark, which = to_mark(alone)
        # Of a put that is done nothing but a guess begins a rebalance.
        tidies = kind == "insert" and follows(alone, 0, "load_clock") and follows(alone, 1, "load_epoch")
        yield made + mark, made + alone.end, "tidied" if tidies and which == "replaced" else which


def turned(rng, seat, rows):
    """A turn of a seat in a table of so many rows. Behind an insert it may tidy a row."""
    guess = rng.randrange(rows) if rng.random() < 0.3 else rng.randrange(min(rows, 6))
    kind = "insert" if rng.random() < 0.3 else rng.choice([None, *BEGINNING])
    return kind, f"guess {seat} {guess}" if rng.random() < 0.9 else f"stop {seat}"


def halted(rng, seat, keys):
    """Lines by which a seat is stopped in the middle of a call."""
    return [*called(rng, seat, keys), f"until {seat} {rng.choice(MEETING)}"]


def possible(line, rows):
    """The line, with a guess that such a table has."""
    words = line.split()
    return f"guess {words[1]} {int(words[2]) % rows}" if words[0] == "guess" else line


def moments(seed, rows, seats):
    """Moments of the random script of a seed: the lines up to there, a seat, and its turns."""
    rng = random.Random(seed)
    shapes = SHAPES + (scarce,) if rows == 64 else SHAPES
    first, keys = shapes[seed % len(shapes)](rng)
    those = rng.sample(range(seats), rng.randrange(1, seats + 1))
    lines = mixed(rng, those, keys, rng.randrange(len(those), MOST_LINES - len(first) - ASKING))
    for _ in range(MOMENTS):
        seat, cut = rng.choice(those), rng.randrange(len(those), len(lines) + 1)
        others = rng.sample(those, rng.randrange(len(those) + 1))
        more = [line for it in others for line in halted(rng, it, keys)]
        more += called(rng, seat, keys)
        turns = [turned(rng, seat, rows) for _ in range(rng.randrange(MOST_TURNS + 1))]
        yield [possible(line, rows) for line in [*first, *lines[:cut], *more]], seat, turns


class Greatest:
    """The greatest stretches in tables of so many rows, and the bounds that they are to keep."""

    def __init__(self, rows, divide):
        self.rows, self.marks, self.most = rows, Counter(), [0, 0]
        to_mark_bound = 32 * SEATS * SEATS * (rows + 1)
        to_end_bound = 64 * SEATS * SEATS * (rows + 1) ** 3
        self.bounds = [to_mark_bound // divide, to_end_bound // divide]

    def add(self, found, which):
        """Adds a stretch to a mark and to the end; whether both keep their bounds."""
        self.marks[which] += 1
        self.most = [max(pair) for pair in zip(self.most, found)]
        return all(stretch <= bound for stretch, bound in zip(found, self.bounds))

    def line(self):
        numbers = (self.rows, self.marks.total(), self.most[0], self.bounds[0], self.most[1], self.bounds[1])
        marks = ", ".join(f"{count} {which}" for which, count in sorted(self.marks.items()))
        return " ".join(f"{number:>11,}" for number in numbers) + f"  {marks}"


def words():
    """What the words of the command line ask for."""
    options = argparse.ArgumentParser(
        description=__doc__, formatter_class=argparse.RawDescriptionHelpFormatter
    )
    options.add_argument("--runs", type=int, default=200)
    options.add_argument("--seed", type=int, default=1)
    options.add_argument("--rows", type=int, nargs="+", default=[64], metavar="R")
    options.add_argument("--seats", type=int, default=4)
    options.add_argument("--divide", type=int, default=1)
    options.add_argument("--program", help="the command that is measured, if not that of ./kiwi")
    options.add_argument("--simulator", action="store_true", help="measures the simulator of this folder")
    asked = options.parse_args()
    least, seats = (1, SEATS) if asked.simulator else (64, SEATS - 3)
    if not all(least <= rows <= 65_536 for rows in asked.rows):
        options.error(f"R is from {least} to 65536")
    if not 1 <= asked.seats <= seats:
        options.error(f"from 1 to {seats} seats make calls")
    return asked


def main():
    options = words()
    command = shlex.split(options.program) if options.program else [KIWI, "simulate"]
    by_rows = {rows: Greatest(rows, options.divide) for rows in options.rows}
    faults = 0
    for number in range(options.runs):
        rows, seed = options.rows[number % len(options.rows)], options.seed + number
        alone_of = Simulated if options.simulator else lambda *asked: Asked(command, *asked)
        for place, (lines, seat, turns) in enumerate(moments(seed, rows, options.seats), 1):
            where = f"seed {seed}, {rows} rows, moment {place}, seat {seat}"
            try:
                for mark, end, which in stretches(lambda *at: alone_of(rows, *at), lines, seat, turns):
                    if not by_rows[rows].add((mark, end), which):
                        faults += 1
                        print(f"{where}: {mark} to a mark, {end} to the end, above a bound")
            except NoAnswer as reason:
                faults += 1
                print(f"{where}: {reason}")
    print("       rows   stretches   to a mark       bound  to the end       bound  first marks")
    for greatest in by_rows.values():
        print(greatest.line())
    return 1 if faults or not all(greatest.marks for greatest in by_rows.values()) else 0


if __name__ == "__main__":
    sys.exit(main())
