#!/usr/bin/env python3
"""Compares two builds of the program on keys that were put again and again: what a put, a get and a
sum of a thousand keys take.

  tools/compare_builds.py BEFORE AFTER
      nanoseconds, each program in turn, the median of five rounds
  tools/compare_builds.py BEFORE AFTER --count
      instructions, which do not depend on what else the machine does
  tools/compare_builds.py BEFORE AFTER --count --keys 4096 --lines 1000

BEFORE and AFTER are the built programs themselves (crates/kw_program/out/kw_program of two
checkouts, built alike). Each answers `replay` with one worker: puts of random keys until each was
put twenty times on average, then so many lines of one kind. A figure is the difference of that run
and one without the last lines, divided by their number, so what the program does for a line is in
it. Nothing is promised of the figures. --count takes valgrind, and is some fifty times as slow.

With --hot the updates are of few keys: of each two rows of rising keys the second has four left,
and the last eight keys of the first are put again and again. Puts and gets that are measured are
of such hot keys, so that full rows meet small ones, which go along once."""

import argparse
import random
import re
import statistics
import subprocess
import time

SUMMED = 1000
# With --hot: how many keys two rows of rising keys have, how many of the second row are left, and
# how many of the first one are hot.
STRETCH, LEFT, HOT = 128, 4, 8
KINDS = ("put", "get", "sum")
COUNTED = re.compile(rb"Collected : (\d+)")


def updated_lines(keys, updates, chance):
    """Puts of random keys, so that rows are split while some of their cells are older ones. The
    values have one digit, so that the input is no longer than it may be."""
    return [f"put {key} {number % 10}" for number, key in enumerate(chance.choices(range(keys), k=keys * updates))]


def hot_keys(keys):
    """The last keys of the first half of each stretch."""
    middles = range(STRETCH // 2, keys - STRETCH // 2 + 1, STRETCH)
    return [key for middle in middles for key in range(middle - HOT, middle)]


def hot_lines(keys, updates, chance):
    """Puts of all keys as they rise; in the second half of each stretch most are deleted, and those
    that are left are put twice, so that their row is built anew and has given few cells; then puts
    of hot keys alone."""
    lines = [f"put {key} 1" for key in range(keys)]
    seconds = [range(middle, middle + STRETCH // 2) for middle in range(STRETCH // 2, keys - STRETCH // 2 + 1, STRETCH)]
    lines += [f"del {key}" for half in seconds for key in half[LEFT:]]
    lines += [f"put {key} {time % 10}" for time in range(2) for half in seconds for key in half[:LEFT]]
    return lines + [f"put {key} {number % 10}" for number, key in enumerate(chance.choices(hot_keys(keys), k=keys * updates))]


def asked_line(kind, keys, asked, chance):
    """A line of this kind, of one of the keys that are asked for, or of a range of all."""
    if kind == "sum":
        least = chance.randrange(keys - SUMMED + 1)
        return f"sum {least} {least + SUMMED - 1}"
    key = chance.choice(asked)
    return f"put {key} 9" if kind == "put" else f"get {key}"


def nanoseconds(program, text):
    start = time.monotonic_ns()
    subprocess.run([program, "replay"], input=text, stdout=subprocess.DEVNULL, check=True)
    return time.monotonic_ns() - start


def instructions(program, text):
    words = ["valgrind", "--tool=callgrind", "--callgrind-out-file=/dev/null", program, "replay"]
    run = subprocess.run(words, input=text, stdout=subprocess.DEVNULL, stderr=subprocess.PIPE, check=True)
    return int(COUNTED.search(run.stderr)[1])


def figures(measure, program, texts, lines):
    """What a line of each kind takes, by one round."""
    without = measure(program, texts[None])
    return {kind: (measure(program, texts[kind]) - without) / lines for kind in KINDS}


def main():
    options = argparse.ArgumentParser(description=__doc__, formatter_class=argparse.RawDescriptionHelpFormatter)
    options.add_argument("before")
    options.add_argument("after")
    options.add_argument("--count", action="store_true", help="count instructions")
    options.add_argument("--hot", action="store_true", help="few hot keys, beside small rows")
    options.add_argument("--keys", type=int, default=65_536, help="how many keys, at least a thousand")
    options.add_argument("--updates", type=int, default=20, help="how often each is put, on average")
    options.add_argument("--lines", type=int, default=20_000, help="how many lines of a kind are measured")
    options.add_argument("--rounds", type=int, default=5, help="how many rounds are timed")
    options.add_argument("--seed", type=int, default=1)
    args = options.parse_args()
    chance = random.Random(args.seed)
    first = (hot_lines if args.hot else updated_lines)(args.keys, args.updates, chance)
    asked = hot_keys(args.keys) if args.hot else range(args.keys)
    texts = {kind: [asked_line(kind, args.keys, asked, chance) for _ in range(args.lines)] if kind else [] for kind in (None, *KINDS)}
    texts = {kind: "".join(f"{line}\n" for line in [*first, *lines]).encode() for kind, lines in texts.items()}
    measure, rounds = (instructions, 1) if args.count else (nanoseconds, args.rounds)
    told = {"before": [], "after": []}
    for _ in range(rounds):
        for name, program in (("before", args.before), ("after", args.after)):
            told[name].append(figures(measure, program, texts, args.lines))
    which = "hot ones put" if args.hot else "each put"
    print(f"{'instructions' if args.count else 'nanoseconds'} a line, {args.keys} keys, {which} {args.updates} times a key on average")
    for kind in KINDS:
        before, after = (statistics.median(it[kind] for it in told[name]) for name in told)
        print(f"{kind:<4}{before:>10.0f}{after:>10.0f}   {after / before:.2f} times")


if __name__ == "__main__":
    main()
