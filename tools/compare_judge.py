#!/usr/bin/env python3
"""Compares `./kiwi judge` with another judge on records that were spoilt.

  tools/compare_judge.py
      the judge of `tools/simulator.py`, on 20 spoilt ones of each of 500 of its random records
  tools/compare_judge.py 200 --seed 7 --each 50
  tools/compare_judge.py --with 'COMMAND' --records 'COMMAND {seed}'
      another judge, and another maker of records
  tools/compare_judge.py --folder FOLDER
      each file of a folder is a record
  tools/compare_judge.py .. --program 'COMMAND'
      in place of `./kiwi judge`

The other judge is written apart from this one: it reads a record on standard input, prints the
verdict and ends with status 0, with 7 where the verdict is not `yes`, and then the line `not legal`
on standard error, or with 3 at bytes that are no record, with the line `bad line N` there
(docs/SCRIPTS.md). A command of --records writes a record to standard output, and {seed} in it is
the seed. Of each record some are made in which one thing is changed: a reply, a
position, a name, the order, a call, or some bytes. Verdict, status and bad line must be the same.
The last line says how many agreed, and of how many each verdict was; the status is 1 where one did
not agree, or where a record could not be had."""

import argparse
import random
import shlex
import sys
from collections import Counter

from compare_simulate import generated, stored
from kiwi_map import KIWI, SIMULATOR, ended

REPLIES = ["ok", "none", "empty", "no rows", "spent", "stopped", "held", "not pinned", "7", "5=1", "1=1 2=2", "2=2 1=1", "kept", "", "05", "5="]
CALLS = ["put 5 10", "del 5", "get 5", "scan 0 9", "scan 9 0", "pin", "scan_at 0 9", "unpin", "sum 0 9", "put 5", "get 4294967296"]
NAMES = ["0.1", "1.1", "7.7", "15.100000", "16.1", "0.0", "0.100001", "0", "0.01"]
NUMBERS = ["0", "1", "9223372036854775807", "9223372036854775808", "00", "x", ""]


def parts(line):
    """The words of a line before its colon, and the reply behind it."""
    head, colon, reply = line.partition(": ")
    return head.split(" "), reply if colon else None


def line_of(words, reply):
    return " ".join(words) + ("" if reply is None else ": " + reply)


def number_near(rng, text):
    """Another number, mostly not far from this one."""
    if rng.random() < 0.1 or not text.isdigit():
        return rng.choice(NUMBERS)
    return str(max(0, int(text) + rng.choice([-40, -10, -2, -1, 1, 2, 10, 40])))


def calls_at(lines):
    """The places of the lines of calls."""
    return [place for place, line in enumerate(lines) if line.startswith(("done ", "open "))]


def change_reply(rng, lines):
    for place in rng.sample(calls_at(lines), len(calls_at(lines))):
        words, reply = parts(lines[place])
        if reply is not None:
            other = parts(lines[rng.choice(calls_at(lines))])[1]
            lines[place] = line_of(words, rng.choice(REPLIES) if rng.random() < 0.6 or other is None else other)
            return


def change_position(rng, lines):
    place = rng.choice(calls_at(lines))
    words, reply = parts(lines[place])
    at = rng.choice([2, 3]) if words[0] == "done" and len(words) > 3 else 2
    words[at] = number_near(rng, words[at])
    lines[place] = line_of(words, reply)


def change_call(rng, lines):
    place = rng.choice(calls_at(lines))
    words, reply = parts(lines[place])
    first = 4 if words[0] == "done" else 3
    lines[place] = line_of(words[:first] + rng.choice(CALLS).split(" "), reply)


def change_name(rng, lines):
    place = rng.choice(calls_at(lines))
    words, reply = parts(lines[place])
    words[1] = rng.choice(NAMES) if rng.random() < 0.6 else parts(lines[rng.choice(calls_at(lines))])[0][1]
    lines[place] = line_of(words, reply)


def change_order(rng, lines):
    names = lines[-1].split(" ")[1:]
    how = rng.randrange(5)
    if how == 0 and len(names) > 1:
        at = rng.randrange(len(names) - 1)
        names[at], names[at + 1] = names[at + 1], names[at]
    elif how == 1 and len(names) > 1:
        one, other = rng.sample(range(len(names)), 2)
        names[one], names[other] = names[other], names[one]
    elif how == 2:
        names.pop(rng.randrange(len(names)))
    elif how == 3:
        names.insert(rng.randrange(len(names) + 1), rng.choice(names))
    else:
        names[rng.randrange(len(names))] = rng.choice(NAMES)
    lines[-1] = " ".join(["order"] + (names or ([] if rng.random() < 0.5 else ["none"])))


def change_lines(rng, lines):
    """A line is left out, made twice, moved, or another one is put in."""
    how, place = rng.randrange(4), rng.randrange(len(lines))
    if how == 0:
        lines.pop(place)
    elif how == 1:
        lines.insert(rng.randrange(len(lines) + 1), lines[place])
    elif how == 2:
        lines.insert(rng.randrange(len(lines)), lines.pop(place))
    else:
        lines.insert(place, rng.choice(["", " ", "order none", "open 3.9 0 put 5 1", "done 3.9 0 1 get 5: none", "end", "open 3.9 0 get 5"]))


CHANGES = [change_reply, change_position, change_call, change_name, change_order, change_lines]


def spoilt(rng, text):
    """The record with one thing changed; where it has no call, some of its bytes."""
    lines = text.decode("latin-1").splitlines()
    if calls_at(lines) and rng.random() < 0.95:
        rng.choice(CHANGES)(rng, lines)
        return "".join(line + "\n" for line in lines).encode("latin-1")
    spoilt_bytes = bytearray(text)
    if spoilt_bytes:
        spoilt_bytes[rng.randrange(len(spoilt_bytes))] = rng.choice(b"\n .:=0159az")
    return bytes(spoilt_bytes)


def main():
    options = argparse.ArgumentParser(description=__doc__, formatter_class=argparse.RawDescriptionHelpFormatter)
    options.add_argument("count", nargs="?", type=int, default=500)
    options.add_argument("--seed", type=int, default=1)
    options.add_argument("--each", type=int, default=20, help="how many spoilt ones of each record")
    options.add_argument("--with", dest="other", default=f"{SIMULATOR} judge", help="the command to compare with")
    records = options.add_mutually_exclusive_group()
    records.add_argument("--records", default=f"{SIMULATOR} record {{seed}}", help="a command that writes the record of a {seed}")
    records.add_argument("--folder", help="a folder of records")
    options.add_argument("--program", help="the command that is compared, if not ./kiwi judge")
    options = options.parse_args()
    program = shlex.split(options.program) if options.program else [KIWI, "judge"]
    found = stored(options.folder) if options.folder else generated(options.records, options.seed, options.count)
    passed = differ = 0
    verdicts = Counter()
    for name, text in found:
        rng = random.Random(f"{options.seed}/{name}")
        for number in range(options.each):
            bad = spoilt(rng, text)
            wanted, wanted_fault, status = ended(shlex.split(options.other), bad)
            got, fault, ended_with = ended(program, bad)
            if (got, fault, ended_with) == (wanted, wanted_fault, status):
                passed += 1
                told = wanted.split()[:2] if status != 3 else [b"bad"]
                verdicts[b" ".join(told).decode("latin-1")] += 1
            else:
                differ += 1
                print(f"{name}, spoilt {number}: got {got!r} {fault!r} {ended_with}, wanted {wanted!r} {wanted_fault!r} {status}, on {bad!r}")
    print(", ".join(f"{verdict}: {count}" for verdict, count in sorted(verdicts.items())))
    print(f"{passed} passed, {differ} failed")
    return 1 if differ or not passed else 0


if __name__ == "__main__":
    sys.exit(main())
