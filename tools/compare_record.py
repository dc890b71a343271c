#!/usr/bin/env python3
"""Compares `./kiwi simulate --record` with another program on scripts, and has each record judged.

  tools/compare_record.py
      `tools/simulator.py`, on 500 of its random scripts, of the seeds from 1 on
  tools/compare_record.py 200 --seed 7
  tools/compare_record.py --with 'COMMAND' --scripts 'COMMAND {seed}'
      another program, and another maker of scripts
  tools/compare_record.py --folder FOLDER
      each file of a folder is a script
  tools/compare_record.py .. --without 'until [0-9]+ (KIND|KIND)'
      lines of scripts that are left out
  tools/compare_record.py .. --program 'COMMAND' --judge 'COMMAND'
      in place of `./kiwi simulate --record` and `./kiwi judge`

The other program writes the record of a script on standard input as `simulate --record` does
(docs/SCRIPTS.md), on the same event table with the same sizes (16 seats, 128 cells a row); it
is written apart from this one. Both records must be the same byte for byte, and the statuses too.
Each record that is written is then judged, and the verdict must be `yes`, with status 0. A command
of --scripts writes a script to standard output, and {seed} in it is the seed. The last line says
how many agreed; the status is 1 where one did not, or where a script could not be had."""

import shlex
import sys

from compare_simulate import first_difference, script_options, scripts_of
from kiwi_map import KIWI, ended


def main():
    options = script_options(__doc__, "simulate --record")
    options.add_argument("--judge", help="the command that judges, if not ./kiwi judge")
    options = options.parse_args()
    program = shlex.split(options.program) if options.program else [KIWI, "simulate", "--record"]
    judge = shlex.split(options.judge) if options.judge else [KIWI, "judge"]
    passed = differ = 0
    for name, text in scripts_of(options):
        wanted, _, status = ended(shlex.split(options.other), text)
        got, _, ended_with = ended(program, text)
        if (got, ended_with) != (wanted, status):
            differ += 1
            print(f"{name} differs: statuses {ended_with} and {status}; {first_difference(got, wanted)}")
            continue
        if status == 0:
            verdict, _, judged = ended(judge, got)
            if (verdict, judged) != (b"yes\n", 0):
                differ += 1
                print(f"{name}: its record is judged {verdict!r}, status {judged}")
                continue
        passed += 1
    print(f"{passed} passed, {differ} failed")
    return 1 if differ or not passed else 0


if __name__ == "__main__":
    sys.exit(main())
