#!/usr/bin/env python3
"""A second implementation of `./kiwi simulate` and `./kiwi judge`, which was written from `docs/`
and the definitions that they cite (`crates/*/specs`), and from no function of the program.

  tools/simulator.py simulate [--rows R] [--record] < SCRIPT
  tools/simulator.py judge < RECORD
      print what the program's commands of these names print, and end with the same statuses
  tools/simulator.py script SEED
  tools/simulator.py record SEED
      print a random script, always the same of a seed, and the record of that script

`compare_simulate.py`, `compare_record.py` and `compare_judge.py` run it beside the program: each
difference is a fault of one of both, or of the pages. How it is made is told in the package
`simulator`."""

import argparse
import sys

from simulator.texts import BadLine

MOST_BYTES = 16_777_216


class TooLong(Exception):
    """There are too many bytes on standard input, or too many calls in the record of a script."""


def read_input():
    """The bytes of standard input, if they are not too many."""
    text = sys.stdin.buffer.read(MOST_BYTES + 1)
    if len(text) > MOST_BYTES:
        raise TooLong("input too long")
    return text


# Each command loads what it needs itself, since comparisons start this program again and again.
def simulate(options):
    from simulator.scripts import output_of, record_of

    lines = (record_of if options.record else output_of)(read_input(), options.rows)
    if lines is None:
        raise TooLong("input too long")
    return lines


def judge(_):
    from simulator.records import verdict_on

    return [verdict_on(read_input())]


def script(options):
    from simulator.random_scripts import random_script

    sys.stdout.buffer.write(random_script(options.seed))
    return []


def record(options):
    from simulator.random_scripts import random_lines
    from simulator.scripts import record_of

    return record_of("\n".join(random_lines(options.seed)).encode(), 64)


def words():
    """What the words of the command line ask for."""
    options = argparse.ArgumentParser(
        description=__doc__, formatter_class=argparse.RawDescriptionHelpFormatter
    )
    commands = options.add_subparsers(dest="command", required=True)
    for command in (simulate, judge, script, record):
        commands.add_parser(command.__name__).set_defaults(perform=command)
    own = commands.choices
    own["simulate"].add_argument("--rows", type=int, default=64, metavar="R")
    own["simulate"].add_argument("--record", action="store_true")
    own["script"].add_argument("seed", type=int)
    own["record"].add_argument("seed", type=int)
    asked = options.parse_args()
    if asked.command == "simulate" and not 64 <= asked.rows <= 65_536:
        options.error("R is from 64 to 65536")
    return asked


def main():
    options = words()
    try:
        lines = options.perform(options)
    except (BadLine, TooLong) as reason:
        print(reason, file=sys.stderr)
        return 3
    sys.stdout.write("".join(f"{line}\n" for line in lines))
    if lines and lines[0].startswith("no: "):
        print("not legal", file=sys.stderr)
        return 7
    return 0


if __name__ == "__main__":
    sys.exit(main())
