#!/usr/bin/env python3
"""Compares `./kiwi replay` with another program on random inputs, good and bad.

  tools/compare_replay.py                       1,000 inputs against the small map of kiwi_map.py
  tools/compare_replay.py 200 --seed 7
  tools/compare_replay.py 1000 --with 'COMMAND' the command gets the input on standard input

What the program writes to standard output and standard error and its status must all agree. Most
inputs have up to 200 lines, and one in ten has up to 3,000, whose updates fill rows. The last line
says how many agreed; the status is 1 where one did not."""

import random
import shlex
import sys

from kiwi_map import KEY_MOST, KIWI, VALUE_MOST, compared, ended, expected, joined, line_of, options_of


def random_input(rng):
    keys = [rng.randrange(rng.choice((4, 40, KEY_MOST + 1))) for _ in range(rng.choice((12, 12, 300)))]
    lines = []
    for _ in range(rng.randrange(3001 if rng.random() < 0.1 else 201)):
        form = rng.choice(("put", "put", "put", "get", "del", "sum", "count", "least", "greatest", "list", "wait"))
        key, other = rng.choice(keys), rng.choice(keys)
        value = rng.choice((rng.randrange(100), rng.randrange(VALUE_MOST + 1)))
        lines.append(line_of(form, key, other, value))
    return joined(rng, lines)


def runs(inputs, seed, other):
    """The program on so many inputs, and what another command makes of each, or the small map."""
    rng = random.Random(seed)
    for number in range(inputs):
        text = random_input(rng)
        wanted = ended(shlex.split(other), text) if other else expected(text)
        yield f"input {number}", [KIWI, "replay"], text, wanted


def main():
    options = options_of(__doc__)
    options.add_argument("--with", dest="other", help="a command to compare with")
    options = options.parse_args()
    ended([KIWI, "replay"], b"")  # proves and builds the program, which the first run says on standard error
    return compared(runs(options.inputs, options.seed, options.other))


if __name__ == "__main__":
    sys.exit(main())
