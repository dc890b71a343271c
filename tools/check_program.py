#!/usr/bin/env python3
"""Runs the built program as a process and checks what it prints, and what no clause can say: the
status with which `main` ends, and its fault line.

  tools/check_program.py                        the program that ./kiwi builds
  tools/check_program.py --program 'COMMAND'    another program, with the same words

Each case has its words, its standard input and output, and what the process must print, say on
standard error, and end with. It was worked out by hand, the summaries by a generator in Python, and
which lines are refused on a map of few rows by a simulator of the map's events that was written
apart from this program.

The tables of records and of scripts with a bad line are in `record_cases.py`. What the usage says
of the program's words and lines is compared with what the program takes (`usage_cases.py`); and the
launcher's own answers are checked, for which nothing is built.

Each script of `scripts/given` is run three times: it must print what `scripts/printed` has under
its name, its record must be that of `scripts/recorded`, and that must be judged good; and so those
of `scripts/neighbour`, in which a full row and the one after it meet. Its name says what it shows.
Many of its lines name the kind of the one step that they make, and the positions in the record
count all steps, so that together they tell how many steps each call makes. What is printed comes
from that simulator too; `simulator.py` prints the same, and was written apart from both.

The last line says how many cases passed; the status is 1 where one did not."""

import argparse
import random
import shlex
import subprocess
import sys
from collections import namedtuple
from pathlib import Path

from kiwi_map import KIWI
from record_cases import BAD_RECORDS, BAD_SCRIPTS, JUDGED
from usage_cases import help_cases, line_cases, word_cases

# What is wrong with a stream: standard input is a folder, which cannot be read; standard output is
# a device that is full.
FOLDER, FULL = "/", "/dev/full"
LONG = b"get 1\n" * 3_000_000
MOST_BYTES = 16_777_216
SCRIPTS = Path(__file__).resolve().parent / "scripts"

# A put that is stamped and goes on, and a get that finds it, and a record whose order has a call
# behind a later one.
RECORD = b"done 1.1 11 26 get 5: 10\nopen 0.1 0 put 5 10\norder 0.1 1.1\n"
TURNED = b"done 0.1 0 5 put 5 10: ok\ndone 1.1 6 9 get 5: 10\norder 1.1 0.1\n"

# A put that was refused, and a get that finds nothing of it.
REFUSED = b"done 0.1 0 5 put 5 10: no rows\ndone 0.2 6 9 get 5: none\norder 0.1 0.2"

# A get that has announced its epoch and stands still, beside puts of one key: each full row is
# replaced by another, and none that was retired is used again, so that rows run out. Once the get
# has left, one is, and the put is done. The first two `until` give up after 100,000 steps each, in
# the 4,019th put and in the 7,936th.
STILL = (
    b"call 0 get 5\nuntil 0 load_head\nputs 1 8130 5 9\nuntil 1 reclaim\nuntil 1 reclaim\nuntil 1 reclaim\n"
    b"go 0 1000\ncall 1 put 5 9\nuntil 1 reclaim\ngo 1 100000\n"
)
STILL_LINES = [b"1.%d put 5 9: ok" % number for number in range(1, 8130)]
for number in (7935, 4018):
    STILL_LINES[number:number] = [b"missed"]
STILL_LINES += [b"1.8130 put 5 9: no rows", b"missed", b"0.1 get 5: 9", b"1.8131 put 5 9: ok"]
STILL_NAMES = [b"1.%d" % number for number in range(1, 8132)]
STILL_NAMES[128:128] = [b"0.1"]
STILL_PRINTED = b"\n".join([*STILL_LINES, b" ".join([b"order", *STILL_NAMES]), b""])

# Lines of `replay`: each form of a range; three of the greatest values and their sum; keys put out
# of order, and lists of them; many puts of one key; and more keys than one row holds, with all
# pairs.
RANGES = b"sum 1 3\ncount 1 3\nleast 1 3\ngreatest 1 3\nlist 1 3\n"
GREATEST = b"".join(b"put %d 9223372036854775807\n" % key for key in (0, 7, 4294967295)) + b"sum 0 4294967295\n"
PAIRS = b"put 9 90\nput 4294967295 1\nput 3 30\nput 7 70\nput 0 5\nput 7 71\nlist 0 4294967295\nlist 3 7\nlist 9 3\n"
ONE = b"".join(b"put 7 %d\n" % value for value in range(1, 401)) + b"get 7\n"
# 200 puts by one worker, who is refused none of them on 632 rows or more.
NEVER_REFUSED = b"".join(b"put 7 %d\n" % value for value in range(1, 201)) + b"get 7\n"
MANY = b"".join(b"put %d %d\n" % (key, key) for key in range(1, 130)) + b"sum 1 129\nlist 1 129\n"
ALL = b" ".join(b"%d=%d" % (key, key) for key in range(1, 130))

# More puts of one key than all rows of a small map have cells. Rising keys, which fill half of each
# row but the last, on a map whose rows run out; and lines behind them, of which those are refused
# that would have to go into a row that is full.
AGAIN = b"".join(b"put 7 %d\n" % value for value in range(1, 10001)) + b"get 7\n"
RISING = b"".join(b"put %d %d\n" % (key, key) for key in range(1, 4098))
RISING_PRINTED = 4096 * b"ok\n" + b"no rows\n"
LATER = b"get 4097\nput 1 5\nget 1\nput 4097 1\ndel 4096\nget 4096\ncount 0 4294967295\n"
GONE, GONE_PRINTED = b"get 4096\nget 4097\ndel 7\nget 7\ncount 0 9999\n", b"4096\nnone\nok\nnone\n4095\n"
LATER_PRINTED = b"none\nok\n5\nno rows\nno rows\n4096\n4096\n"

# Many keys, which split rows, and few of them, of which rows are rebuilt: what is asked after all
# puts is the same for any workers.
KEYS = b"".join(b"put %d %d\n" % (key * 7919 % 20011, key) for key in range(1, 20001)) + b"wait\nsum 0 20010\ncount 0 20010\nleast 0 20010\n"
TWO_BAD = KEYS.splitlines(keepends=True)
TWO_BAD[14999] = TWO_BAD[18999] = b"put\n"
FEW = b"".join(b"put %d %d\n" % (number % 16, number) for number in range(8000)) + b"wait\nlist 0 15\nsum 0 15\n"
FEW_LIST = b" ".join(b"%d=%d" % (key, 7984 + key) for key in range(16))

# Each form, of keys that are there and that are not.
FORMS = b"get 7\nsum 3 2\nleast 0 9\nlist 0 9\nput 1 5\nput 2 3\nput 3 9\nleast 1 3\ngreatest 1 3\ncount 2 9\nsum 0 9\nlist 1 2\n" + (
    b"del 2\ndel 4\nget 2\nget 3\nlist 0 9\n"
)
FORMS_PRINTED = b"none\n0\nnone\nempty\nok\nok\nok\n3\n9\n2\n17\n1=5 2=3\nok\nok\nnone\n9\n1=5 3=9\n"

# Blocks that are empty, and blocks that ask for what those before them put: key k from 100 to 123
# has the value k - 90.
EMPTY = (
    (b"wait\n", b""),
    (b"wait\nwait\nwait", b""),
    (b"put 3 30\nget 3\nwait\n", b"ok\n30\n"),
    (b"wait\nwait\nput 3 30\nput 4 40\nput 5 50\nwait\nwait\nget 5\nget 4\nget 3\nwait\n", b"ok\nok\nok\n50\n40\n30\n"),
)
BLOCK = b"".join(b"put %d %d\n" % (key, key - 90) for key in range(100, 124)) + b"wait\nsum 100 123\ncount 100 123\nlist 100 101\n"
QUIET = b"".join(b"put %d %d\n" % (key, 10 * key) for key in range(1, 17)) + b"wait\n" + b"".join(b"del %d\n" % key for key in range(1, 9))
QUIET += b"wait\nget 1\nget 9\nsum 0 99\ncount 0 99\nleast 0 99\ngreatest 0 99\nlist 15 16\n"
QUIET_PRINTED = 24 * b"ok\n" + b"none\n90\n1000\n8\n90\n160\n15=150 16=160\n"

# Points of two series, and the tables of their buckets of ten minutes, before one point goes and
# after. As many points as the rows of a small map take, and one more, which no table has.
POINTS = b"put 1 0 5\nput 1 9 7\nput 1 10 1\nput 2 3 4\ntable\ndel 1 9\ntable\n"
BUCKETS = b"1 10 count 1 sum 1 least 1 greatest 1\n2 0 count 1 sum 4 least 4 greatest 4\nend 0\n"
POINTS_TABLES = b"1 0 count 2 sum 12 least 5 greatest 7\n" + BUCKETS + b"1 0 count 1 sum 5 least 5 greatest 5\n" + BUCKETS
MANY_POINTS = b"".join(b"put 0 %d 1\n" % minute for minute in range(1, 4098)) + b"table\n"
MANY_TABLE = b"0 0 count 4096 sum 4096 least 1 greatest 1\nend 1\n"

# What the examples print: sums of series of values as some expire, their buckets, and a put that is
# stamped by a scan whose version is below its own.
METRICS = 5 * b"ok\n" + b"310\n750\nok\nok\n295\n735\n2002=80\nnone\n4\n815\n"
EXPIRING = 6 * b"ok\n" + b"750\n245\n" + 4 * b"ok\n" + b"705\n230\n" + 4 * b"ok\n" + (
    b"690\n220\n10482=190 10483=205 10484=295\nnone\n" + 5 * b"ok\n" + b"0\nempty\n215\n3\n"
)
SERIES = b"7 480 count 3 sum 750 least 190 greatest 310\n7 540 count 1 sum 205 least 205 greatest 205\n"
SERIES += b"12 480 count 2 sum 155 least 75 greatest 80\nend 0\n7 480 count 3 sum 735 least 190 greatest 295\n"
SERIES += b"7 540 count 1 sum 205 least 205 greatest 205\n12 480 count 1 sum 80 least 80 greatest 80\n"
SERIES += b"12 540 count 1 sum 90 least 90 greatest 90\nend 0\n"
MEETING = b"1.1 scan 0 9: empty\n1.2 scan 0 9: 5=10\n0.1 put 5 10: ok\norder 1.1 0.1 1.2\n"
EXAMPLES = (
    ("replay", "metrics.txt", METRICS),
    ("replay --workers 4", "metrics.txt", METRICS),
    ("replay", "expiring.txt", EXPIRING),
    ("replay --workers 4", "expiring.txt", EXPIRING),
    ("rollup --bucket 60", "points.txt", SERIES),
    ("simulate", "meeting.txt", MEETING),
)

# What is said where a line was refused.
SOME = b"some calls were refused\n"

# The summaries of three lines, of forty, of eighty, of a thousand and of ten thousand, and of
# twenty thousand on a map of few rows, where 1,226 lines are refused.
THREE = b"puts 2\ndels 0\ngets 1\nfound 0\ncount 2\nsum 21839\nleast 5627\ngreatest 16212\n"
FORTY = b"puts 25\ndels 6\ngets 9\nfound 0\ncount 25\nsum 405429\nleast 985\ngreatest 32572\n"
EIGHTY = b"puts 48\ndels 9\ngets 23\nfound 0\ncount 47\nsum 827435\nleast 1414\ngreatest 32434\n"
THOUSAND = b"puts 610\ndels 126\ngets 264\nfound 24\ncount 560\nsum 8968157\nleast 30\ngreatest 32724\n"
TEN_THOUSAND = b"puts 6209\ndels 1273\ngets 2518\nfound 1140\ncount 2815\nsum 45459495\nleast 0\ngreatest 32724\n"
FEW_ROWS = b"puts 12499\ndels 2489\ngets 5012\nfound 3056\ncount 3307\nsum 54466083\nleast 3\ngreatest 32767\n"

Case = namedtuple("Case", "name words given output printed said status", defaults=(b"", None, b"", b"", 0))

CASES = (
    Case("no lines", "replay"),
    Case("all is printed", "replay", b"put 5 50\nget 5\nsum 0 9\n", printed=b"ok\n50\n50\n"),
    Case("keys without a value", "replay", b"get 7\nsum 3 2\nleast 0 9\n", printed=b"none\n0\nnone\n"),
    Case("the value that was put last", "replay", b"get 5\nput 5 50\nput 5 51\nget 5\nget 4\n", printed=b"none\nok\nok\n51\nnone\n"),
    Case("a key that is deleted", "replay", b"del 5\nget 5\nput 5 50\ndel 5\nget 5\ncount 0 4294967295\n", printed=b"ok\nnone\nok\nok\nnone\n0\n"),
    Case("a key that is deleted twice", "replay", b"put 5 1\ndel 5\ndel 5\nget 5\nlist 0 9\n", printed=b"ok\nok\nok\nnone\nempty\n"),
    Case("each form of a range", "replay", b"put 1 5\nput 2 0\nput 3 9\n" + RANGES, printed=b"ok\nok\nok\n14\n3\n0\n9\n1=5 2=0 3=9\n"),
    Case("each form of a range of no values", "replay", RANGES, printed=b"0\n0\nnone\nnone\nempty\n"),
    Case("no line feed at the end", "replay", b"put 1 5\nput 2 3\ncount 2 9", printed=b"ok\nok\n1\n"),
    Case("a sum past 64 bits", "replay", GREATEST, printed=b"ok\nok\nok\n27670116110564327421\n"),
    Case("pairs in the order of their keys", "replay", PAIRS, printed=6 * b"ok\n" + b"0=5 3=30 7=71 9=90 4294967295=1\n3=30 7=71\nempty\n"),
    Case("many puts of one key", "replay", ONE, printed=400 * b"ok\n" + b"400\n"),
    Case("more keys than one row holds", "replay", MANY, printed=129 * b"ok\n" + b"8385\n" + ALL + b"\n"),
    Case("many keys by workers", "replay --workers 4", KEYS, printed=20000 * b"ok\n" + b"200010000\n20000\n1\n"),
    Case("few keys by workers", "replay --workers 16", FEW, printed=8000 * b"ok\n" + FEW_LIST + b"\n127864\n"),
    Case("rows that are used again", "replay --rows 64", AGAIN, printed=10000 * b"ok\n" + b"10000\n"),
    Case("rows that run out", "replay --rows 64", RISING, printed=RISING_PRINTED, said=SOME, status=8),
    Case("a deletion that wants no new row where rows have run out", "replay --rows 64", RISING + GONE, printed=RISING_PRINTED + GONE_PRINTED, said=SOME, status=8),
    Case("refused lines change nothing", "replay --rows 64", RISING + LATER, printed=RISING_PRINTED + LATER_PRINTED, said=SOME, status=8),
    Case("workers and rows", "replay --rows 64 --workers 16", b"put 5 50\nwait\nsum 0 9\n", printed=b"ok\n50\n"),
    Case("as many updates as are never refused", "replay --rows 664", NEVER_REFUSED, printed=200 * b"ok\n" + b"200\n"),
    Case("each form, of keys that are there and that are not", "replay", FORMS, printed=FORMS_PRINTED),
    *(Case(f"empty blocks by {it} workers: {given}", f"replay --workers {it}", given, printed=printed) for it in (1, 3, 16) for given, printed in EMPTY),
    Case("a block sees what one worker put before it", "replay", BLOCK, printed=24 * b"ok\n" + b"516\n24\n100=10 101=11\n"),
    Case("a block sees what all workers put before it", "replay --workers 4", BLOCK, printed=24 * b"ok\n" + b"516\n24\n100=10 101=11\n"),
    Case("quiet lines by one worker", "replay", QUIET, printed=QUIET_PRINTED),
    Case("quiet lines by two workers", "replay --workers 2", QUIET, printed=QUIET_PRINTED),
    Case("quiet lines by four workers", "replay --workers 4", QUIET, printed=QUIET_PRINTED),
    Case("a script", "simulate", b"", printed=b"order none\n"),
    Case("a get that goes on", "simulate", b"call 0 get 5\ngo 0 1\n", printed=b"order none\n"),
    Case("a get that goes on is not in the record", "simulate --record", b"call 0 get 5\ngo 0 1\n", printed=b"order none\n"),
    Case("as many lines as a script may have", "simulate", 256 * b"stop 0\n", printed=b"order none\n"),
    Case("a script with a flag before an option", "simulate --record --rows 64", b"", printed=b"order none\n"),
    Case("a script of more rows", "simulate --rows 70", b"guess 0 69\n", printed=b"order none\n"),
    Case("no row is used again beside a get that stands still", "simulate", STILL, printed=STILL_PRINTED),
    Case("a good record", "judge", RECORD, printed=b"yes\n"),
    Case("a record with a call missing", "judge", RECORD.replace(b" 1.1\n", b"\n"), printed=b"no: missing 1.1\n", said=b"not legal\n", status=7),
    Case("a record with its order turned round", "judge", TURNED, printed=b"no: late 0.1 1.1\n", said=b"not legal\n", status=7),
    Case("a record with a wrong reply", "judge", RECORD.replace(b": 10", b": 11"), printed=b"no: wrong 1.1\n", said=b"not legal\n", status=7),
    Case("a record with a name twice", "judge", RECORD.replace(b"0.1 1.1", b"0.1 0.1"), printed=b"no: twice 0.1\n", said=b"not legal\n", status=7),
    Case("a record with no such call", "judge", RECORD.replace(b"0.1 1.1", b"0.1 7.7"), printed=b"no: unknown 7.7\n", said=b"not legal\n", status=7),
    Case("a record with a refused put", "judge", REFUSED, printed=b"yes\n"),
    Case("a summary", "gen 7 3", printed=b"puts 3\ndels 0\ngets 0\nfound 0\ncount 3\nsum 22218\nleast 3365\ngreatest 10868\n"),
    Case("a summary of three lines", "gen 1 3", printed=THREE),
    Case("a summary with options before and behind its numbers", "gen --workers 16 1 3 --rows 64", printed=THREE),
    Case("a summary of forty lines", "gen 5 40", printed=FORTY),
    Case("a summary of eighty lines by two workers", "gen 1 80 --workers 2", printed=EIGHTY),
    Case("a summary of eighty lines by workers", "gen 1 80 --workers 4", printed=EIGHTY),
    Case("a summary of many lines", "gen 1 1000", printed=THOUSAND),
    Case("a summary of many lines by workers", "gen 1 1000 --workers 4", printed=THOUSAND),
    Case("a summary of more lines", "gen 1 10000", printed=TEN_THOUSAND),
    Case("a summary of more lines by workers", "gen 1 --workers 16 10000", printed=TEN_THOUSAND),
    Case("a summary where rows run out", "gen --rows 64 1 20000", printed=FEW_ROWS, said=SOME, status=8),
    Case("tables of points by two workers", "rollup --bucket 10 --workers 2", POINTS, printed=POINTS_TABLES),
    Case("tables of points by one worker", "rollup --bucket 10", POINTS, printed=POINTS_TABLES),
    Case("a table of no points", "rollup --bucket 60", b"table", printed=b"end 0\n"),
    Case("points without a table", "rollup --bucket 60 --workers 4", b"put 1 1 1\ndel 1 1\n"),
    Case("points that rows run out for", "rollup --bucket 1048576 --rows 64", MANY_POINTS, printed=MANY_TABLE, said=SOME, status=8),
    Case("a series that is too great", "rollup --bucket 60", b"table\nput 4096 0 1\n", said=b"bad line 2\n", status=3),
    Case("an output that is full of tables", "rollup --bucket 60", b"table\n", FULL, said=b"write fault\n", status=5),
    Case("no such command", "table", said=b"bad words\n", status=2),
    Case("tables of buckets of no width", "rollup", said=b"bad words\n", status=2),
    Case("a worker too many", "replay --workers 17", said=b"bad words\n", status=2),
    Case("too few rows", "replay --rows 63", said=b"bad words\n", status=2),
    Case("workers named twice", "replay --workers 1 --workers 1", said=b"bad words\n", status=2),
    Case("bad words before an input that cannot be read", "replay --workers 17", FOLDER, said=b"bad words\n", status=2),
    Case("a script recorded twice", "simulate --record --record", said=b"bad words\n", status=2),
    Case("a flag in an option's place", "simulate --rows --record 64", said=b"bad words\n", status=2),
    Case("a replay recorded", "replay --record", said=b"bad words\n", status=2),
    Case("a judge with rows", "judge --rows 64", said=b"bad words\n", status=2),
    Case("a judge twice", "judge judge", said=b"bad words\n", status=2),
    Case("a bad line", "replay", b"get 1\nget\n", said=b"bad line 2\n", status=3),
    Case("the first of two bad lines of an input that several threads read", "replay --workers 4", b"".join(TWO_BAD), said=b"bad line 15000\n", status=3),
    Case("a bad line of a script", "simulate", b"call 16 get 1\n", said=b"bad line 1\n", status=3),
    Case("a bad line of a recorded script", "simulate --record", b"call 16 get 1\n", said=b"bad line 1\n", status=3),
    Case("a bad line of a recorded script of more rows", "simulate --rows 70 --record", b"call 0 put 5 10\ngo 0 0\n", said=b"bad line 2\n", status=3),
    Case("a row that a script has not", "simulate", b"guess 0 69\n", said=b"bad line 1\n", status=3),
    Case("a record without an order", "judge", b"done 0.1 0 5 get 5: none\n", said=b"bad line 2\n", status=3),
    Case("no record", "judge", b"", said=b"bad line 1\n", status=3),
    Case("a value that is too great", "replay", b"put 1 9223372036854775808\n", said=b"bad line 1\n", status=3),
    Case("a second line that is cut off", "replay", b"put 1 1\nput 3", said=b"bad line 2\n", status=3),
    Case("an input as long as it may be", "replay", MOST_BYTES * b"9", said=b"bad line 1\n", status=3),
    Case("an input of a byte too many", "replay", (MOST_BYTES + 1) * b"9", said=b"input too long\n", status=3),
    Case("an input that is too long", "replay", LONG, said=b"input too long\n", status=3),
    Case("an input that cannot be read", "replay", FOLDER, said=b"read fault\n", status=4),
    Case("an output that is full", "replay", b"get 1\n", FULL, said=b"write fault\n", status=5),
    Case("an output that is full where a line is refused", "replay --rows 64", RISING, FULL, said=b"write fault\n", status=5),
    Case("an output that is full of a script's text", "simulate", b"", FULL, said=b"write fault\n", status=5),
    Case("an output that is full of a summary", "gen 1 3", b"", FULL, said=b"write fault\n", status=5),
    Case("an output that is full of what is wrong", "judge", TURNED, FULL, said=b"write fault\n", status=5),
)


def mixed_case():
    """Lines by one worker, whose full rows are split and rebuilt on the way: of each eight of them
    five put, one deletes and sums what is around the key, and two get. At the end come all sums of
    a thousand keys. The replies are those of a dictionary."""
    chance, pairs, lines, replies = random.Random(1), {}, [], []

    def add(line, reply):
        lines.append(line)
        replies.append(reply)

    def sum_of(least, most):
        return sum(value for key, value in pairs.items() if least <= key <= most)

    for number in range(4000):
        key, kind = chance.randrange(4096), number % 8
        if kind < 5:
            pairs[key] = number
            add(f"put {key} {number}", "ok")
        elif kind == 5:
            pairs.pop(key, None)
            add(f"del {key}", "ok")
            add(f"sum {key} {key + 99}", sum_of(key, key + 99))
        else:
            add(f"get {key}", pairs.get(key, "none"))
    for least in range(0, 4096, 1000):
        add(f"sum {least} {least + 999}", sum_of(least, least + 999))
    given, printed = ("".join(f"{it}\n" for it in side).encode() for side in (lines, replies))
    return Case("lines of all sorts on rows that are split and rebuilt", "replay", given, printed=printed)


def updated_case():
    """Keys in a random order, each put twenty times, on a map of few rows: none is refused, since
    full rows are parted evenly. Were each new row filled before the next one starts, almost 200
    rows would be wanted. What is asked at the end is what a dictionary holds."""
    chance, pairs, lines = random.Random(5), {}, []
    keys = [chance.randrange(2**32) for _ in range(5000)]
    for number in range(100_000):
        key = chance.choice(keys)
        pairs[key] = number
        lines.append(f"put {key} {number}\n")
    lines += ["count 0 4294967295\n", "sum 0 4294967295\n"]
    printed = f"{len(pairs)}\n{sum(pairs.values())}\n".encode()
    return Case("keys that are put again and again fit few rows", "replay --rows 150", "".join(lines).encode(), printed=100_000 * b"ok\n" + printed)


def text_cases():
    """The cases of records and scripts that are kept as tables."""
    for name, record, verdict in JUDGED:
        is_good = verdict == b"yes"
        yield Case(name, "judge", record, printed=verdict + b"\n", said=b"" if is_good else b"not legal\n", status=0 if is_good else 7)
    for words, table in (("judge", BAD_RECORDS), ("simulate", BAD_SCRIPTS), ("simulate --record", BAD_SCRIPTS)):
        for name, text, line in table:
            yield Case(f"{name}: `{words}`", words, text, said=b"bad line %d\n" % line, status=3)


def example_cases():
    """The cases of the examples."""
    for words, name, printed in EXAMPLES:
        given = (Path(__file__).resolve().parent.parent / "examples" / name).read_bytes()
        yield Case(f"the example {name}: `{words}`", words, given, printed=printed)


def script_cases():
    """The cases of the stored scripts."""
    for path in sorted(SCRIPTS.glob("**/given/*")):
        name, script, home = path.name.replace("_", " "), path.read_bytes(), path.parent.parent
        record = (home / "recorded" / path.name).read_bytes()
        yield Case(name, "simulate", script, printed=(home / "printed" / path.name).read_bytes())
        yield Case(f"{name}: its record", "simulate --record", script, printed=record)
        yield Case(f"{name}: its record is good", "judge", record, printed=b"yes\n")


def ended(program, case):
    """What the process of a case prints, what it says on standard error, and its status."""
    words = [*program, *case.words.split()]
    if case.given == FOLDER:
        # The shell opens the folder for the process, since Python would refuse to.
        words = ["sh", "-c", 'exec "$@" < /', "sh", *words]
    with open(case.output or "/dev/null", "wb") as output:
        run = subprocess.run(
            words,
            input=None if case.given == FOLDER else case.given,
            stdout=output if case.output else subprocess.PIPE,
            stderr=subprocess.PIPE,
            check=False,
        )
    return run.stdout or b"", run.stderr, run.returncode


def usage_faults(program):
    """What the usage says and the program does not do: words or a line that one takes and the other
    refuses."""
    faults = []
    for words, is_good in word_cases():
        run = ended(program, Case("", words))
        if (run[2] != 2) != is_good or (not is_good and run != (b"", b"bad words\n", 2)):
            faults.append(f"the usage {'allows' if is_good else 'does not allow'} `{words}`, and the program ends with {run[1:]}")
    for words, line, is_good in line_cases():
        run = ended(program, Case("", words, f"{line}\n".encode()))
        if run[1:] != ((b"", 0) if is_good else (b"bad line 1\n", 3)):
            faults.append(f"the usage {'has' if is_good else 'has not'} the line `{line}` of `{words}`, and the program ends with {run[1:]}")
    for words, printed, said, status in help_cases():
        run, wanted = ended([KIWI], Case("", words)), (printed.encode(), said.encode(), status)
        if run != wanted:
            faults.append(f"./kiwi {words}\n  got    {run}\n  wanted {wanted}")
    return faults


def main():
    options = argparse.ArgumentParser(description=__doc__, formatter_class=argparse.RawDescriptionHelpFormatter)
    options.add_argument("--program", help="the command that is checked, if not ./kiwi")
    options = options.parse_args()
    program = shlex.split(options.program) if options.program else [KIWI]
    subprocess.run([*program, "replay"], input=b"", check=False)  # proves and builds the program, which the first run says on standard error
    failed = 0
    cases = (*CASES, mixed_case(), updated_case(), *example_cases(), *text_cases(), *script_cases())
    for case in cases:
        got, wanted = ended(program, case), (case.printed, case.said, case.status)
        if got != wanted:
            failed += 1
            print(f"{case.name}: `{case.words}`\n  got    {got}\n  wanted {wanted}")
    faults = usage_faults(program)
    print("".join(f"{fault}\n" for fault in faults), end="")
    asked = sum(1 for table in (word_cases, line_cases, help_cases) for _ in table())
    failed += len(faults)
    print(f"{len(cases) + asked - failed} passed, {failed} failed")
    return 1 if failed else 0


if __name__ == "__main__":
    sys.exit(main())
