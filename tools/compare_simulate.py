#!/usr/bin/env python3
"""Compares `./kiwi simulate` with another program on scripts.

  tools/compare_simulate.py
      `tools/simulator.py`, on 500 of its random scripts, of the seeds from 1 on
  tools/compare_simulate.py 200 --seed 7
  tools/compare_simulate.py --with 'COMMAND' --scripts 'COMMAND {seed}'
      another program, and another maker of scripts
  tools/compare_simulate.py --folder FOLDER
      each file of a folder is a script
  tools/compare_simulate.py .. --without 'until [0-9]+ (KIND|KIND)'
      lines of scripts that are left out
  tools/compare_simulate.py .. --program 'COMMAND'
      in place of `./kiwi simulate`

The other program is a simulator of the same event table with the same sizes (16 seats, 128 cells
a row), written apart from this one: it reads a script on standard input, prints a line as each call
ends and then the order line, and ends with status 0, or with 3 at a bad script (docs/SCRIPTS.md).
Both programs get a script on standard input. Their outputs must be the same byte for byte, and
their statuses too. A command of --scripts writes a script to standard output, and {seed} in it is
the seed. The last line says how many agreed; the status is 1 where one did not, or where a script
could not be had."""

import argparse
import re
import shlex
import subprocess
import sys
from pathlib import Path

from kiwi_map import KIWI, SIMULATOR, ended


def generated(command, first, count):
    """The scripts of a command: a name and the bytes of each."""
    for seed in range(first, first + count):
        words = [word.replace("{seed}", str(seed)) for word in shlex.split(command)]
        yield f"seed {seed}", subprocess.run(words, capture_output=True, check=True).stdout


def stored(folder):
    """The scripts of a folder: a name and the bytes of each."""
    for path in sorted(Path(folder).iterdir()):
        if path.is_file():
            yield path.name, path.read_bytes()


def without_lines(text, pattern):
    """The script without the lines that the pattern matches whole."""
    lines = text.splitlines(keepends=True)
    return b"".join(line for line in lines if not pattern.fullmatch(line.rstrip(b"\n")))


def first_difference(got, wanted):
    """The first line, from 1 on, in which two outputs differ, and both lines."""
    ours, theirs = got.split(b"\n"), wanted.split(b"\n")
    for number, (one, other) in enumerate(zip(ours, theirs), 1):
        if one != other:
            return f"line {number}: got {one!r}, wanted {other!r}"
    return f"one ends after line {min(len(ours), len(theirs))}"


def script_options(description, words):
    """A parser with the options that say which scripts are run, and what with: without one of
    these, with the simulator of this folder by these words of it."""
    options = argparse.ArgumentParser(description=description, formatter_class=argparse.RawDescriptionHelpFormatter)
    options.add_argument("count", nargs="?", type=int, default=500)
    options.add_argument("--seed", type=int, default=1)
    options.add_argument("--with", dest="other", default=f"{SIMULATOR} {words}", help="the command to compare with")
    scripts = options.add_mutually_exclusive_group()
    scripts.add_argument("--scripts", default=f"{SIMULATOR} script {{seed}}", help="a command that writes the script of a {seed}")
    scripts.add_argument("--folder", help="a folder of scripts")
    options.add_argument("--without", help="a pattern of lines of scripts that are left out")
    options.add_argument("--program", help="the command that is compared, if not that of ./kiwi")
    return options


def scripts_of(options):
    """The scripts that the options ask for, without the lines that are left out: a name and the
    bytes of each."""
    left_out = re.compile(options.without.encode()) if options.without else None
    found = stored(options.folder) if options.folder else generated(options.scripts, options.seed, options.count)
    for name, text in found:
        yield name, without_lines(text, left_out) if left_out else text


def main():
    options = script_options(__doc__, "simulate")
    options = options.parse_args()
    program = shlex.split(options.program) if options.program else [KIWI, "simulate"]
    passed = differ = 0
    for name, text in scripts_of(options):
        wanted, _, status = ended(shlex.split(options.other), text)
        got, _, ended_with = ended(program, text)
        if (got, ended_with) == (wanted, status):
            passed += 1
        else:
            differ += 1
            print(f"{name} differs: statuses {ended_with} and {status}; {first_difference(got, wanted)}")
    print(f"{passed} passed, {differ} failed")
    return 1 if differ or not passed else 0


if __name__ == "__main__":
    sys.exit(main())
