#!/usr/bin/env python3
"""Compares `./kiwi rollup` with a small model on random inputs, good and bad.

  tools/compare_rollup.py                       1,000 inputs, each with 1, 2, 4, 8 and 16 workers
  tools/compare_rollup.py 200 --seed 7
  tools/compare_rollup.py 200 --workers 3,16
  tools/compare_rollup.py .. --program './kiwi rollup'
      another command; --bucket G and --workers W are put after it

The model makes each table from nothing: of the points that the lines above it leave, it takes those
of each series and each stretch of minutes. What the program writes to standard output and standard
error and its status must all agree. One input in ten has up to 3,000 lines, whose updates split and
rebuild rows; the map has so many rows that none is refused. Three in ten have a byte that was put
in, left out or changed, and most of these have a bad line. The last line says how many runs agreed;
the status is 1 where one did not."""

import random
import shlex
import sys

from kiwi_map import KIWI, NUMBER, VALUE_MOST, compared, ended, joined, options_of

MINUTES, SERIES = 1_048_576, 4_096
LIMITS = {b"put": (SERIES - 1, MINUTES - 1, VALUE_MOST), b"del": (SERIES - 1, MINUTES - 1), b"table": ()}


def parsed(line):
    """The word and the numbers of a line, or None for a line outside the grammar."""
    word, *words = line.split(b" ")
    limits = LIMITS.get(word)
    if limits is None or len(words) != len(limits) or not all(NUMBER.fullmatch(it) for it in words):
        return None
    numbers = [int(it) for it in words]
    return (word, numbers) if all(number <= most for number, most in zip(numbers, limits)) else None


def table(points, width):
    """The table of these points: values by series and minute."""
    buckets = {}
    for (series, minute), value in points.items():
        buckets.setdefault((series, minute // width * width), []).append(value)
    for (series, start), values in sorted(buckets.items()):
        yield f"{series} {start} count {len(values)} sum {sum(values)} least {min(values)} greatest {max(values)}\n"
    yield "end 0\n"


def expected(text, width):
    """What the program must print, its fault line, and its status."""
    lines = text.split(b"\n")
    if not lines[-1]:
        lines.pop()
    items = [parsed(line) for line in lines]
    if None in items:
        return b"", b"bad line %d\n" % (items.index(None) + 1), 3
    points, printed = {}, []
    for word, numbers in items:
        if word == b"table":
            printed += table(points, width)
        elif word == b"put":
            points[tuple(numbers[:2])] = numbers[2]
        else:
            points.pop(tuple(numbers), None)
    return "".join(printed).encode(), b"", 0


def random_input(rng, width):
    """Lines on a few series, with minutes that lie close together, at the ends of buckets, or
    anywhere."""
    series = [rng.randrange(SERIES) for _ in range(rng.choice((1, 3, 20)))] + [0, SERIES - 1]
    near = rng.randrange(MINUTES - 200)
    lines = []
    tables = rng.choice((0.02, 0.1, 0.3))
    for _ in range(rng.randrange(3001 if rng.random() < 0.1 else 121)):
        if rng.random() < tables:
            lines.append("table")
            continue
        end = rng.randrange(1 + MINUTES // width) * width + rng.choice((-1, 0, 1))
        minute = rng.choice((near + rng.randrange(20), near + rng.randrange(200), end, rng.randrange(MINUTES)))
        minute = max(0, min(MINUTES - 1, minute))
        value = rng.choice((rng.randrange(5), rng.randrange(100), VALUE_MOST, rng.randrange(VALUE_MOST + 1)))
        point = f"{rng.choice(series)} {minute}"
        lines.append(f"put {point} {value}" if rng.random() < 0.7 else f"del {point}")
    return joined(rng, lines)


def runs(inputs, seed, workers, program):
    """The program on so many inputs with each number of workers, and what the model prints."""
    rng = random.Random(seed)
    for number in range(inputs):
        width = rng.choice((1, 2, 7, 10, 60, 1440, MINUTES - 1, MINUTES, rng.randrange(1, MINUTES + 1)))
        text = random_input(rng, width)
        wanted = expected(text, width)
        for count in workers:
            command = [*program, "--bucket", str(width), "--workers", count]
            yield f"input {number} with {count} workers, --bucket {width}", command, text, wanted


def main():
    options = options_of(__doc__)
    options.add_argument("--workers", default="1,2,4,8,16")
    options.add_argument("--program", help="a command to compare, if not ./kiwi rollup")
    options = options.parse_args()
    program = shlex.split(options.program) if options.program else [KIWI, "rollup"]
    ended([*program, "--bucket", "1"], b"")  # proves and builds the program, which the first run says on standard error
    return compared(runs(options.inputs, options.seed, options.workers.split(","), program))


if __name__ == "__main__":
    sys.exit(main())
