"""Records that `judge` is asked about, and texts with a bad line, for `check_program.py`. All were
worked out by hand.

A record's verdict is what the rules of its order say: each answered call stands in it once, no call
stands behind one that began after it had ended, and each reply is that of a map of one thread which
is asked in this order. A bad line is the first that is no line of its kind, or that may not stand
where it does."""

# A name, a record, and the line that its verdict prints.
JUDGED = (
    ("an order that follows its calls", b"done 0.1 0 5 put 5 10: ok\ndone 1.1 6 9 get 5: 10\norder 0.1 1.1\n", b"yes"),
    ("a call behind one that began after its end", b"done 0.1 0 5 put 5 10: ok\ndone 1.1 6 9 get 5: 10\norder 1.1 0.1\n", b"no: late 0.1 1.1"),
    ("an answered call that is left out", b"done 0.1 0 5 put 5 10: ok\ndone 1.1 6 9 get 5: 10\norder 0.1\n", b"no: missing 1.1"),
    ("a get behind a put that it did not see", b"done 0.1 0 9 put 5 10: ok\ndone 1.1 3 8 get 5: none\norder 0.1 1.1\n", b"no: wrong 1.1"),
    ("a get before a put that it did not see", b"done 0.1 0 9 put 5 10: ok\ndone 1.1 3 8 get 5: none\norder 1.1 0.1\n", b"yes"),
    ("no call", b"order none\n", b"yes"),
    ("one call twice in the order", b"done 0.1 0 5 put 5 10: ok\norder 0.1 0.1\n", b"no: twice 0.1"),
    ("a name of no call, and no line feed at the end", b"done 0.1 0 5 put 5 10: ok\norder 0.1 7.7", b"no: unknown 7.7"),
    ("an open call before one that ended before it began", b"done 1.1 0 5 get 5: none\nopen 0.1 6 put 5 10\norder 0.1 1.1\n", b"no: late 1.1 0.1"),
    ("an open call behind one that ran beside it", b"done 1.1 0 5 get 5: none\nopen 0.1 0 put 5 10\norder 1.1 0.1\n", b"yes"),
    ("an open call that a get saw", b"done 1.1 0 5 get 5: 10\nopen 0.1 0 put 5 10\norder 0.1 1.1\n", b"yes"),
    ("a value of a put that was refused", b"done 0.1 0 5 put 5 10: no rows\ndone 0.2 6 9 get 5: 10\norder 0.1 0.2\n", b"no: wrong 0.2"),
    ("nothing of a put that was refused", b"done 0.1 0 5 put 5 10: no rows\ndone 0.2 6 9 get 5: none\norder 0.1 0.2\n", b"yes"),
    ("pairs by falling key", b"done 0.1 0 5 scan 0 9: 7=1 5=1\norder 0.1\n", b"no: wrong 0.1"),
    (
        "each call and each reply, of the greatest numbers",
        b"done 0.1 0 9223372036854775807 put 4294967295 9223372036854775807: spent\ndone 1.2 1 1 del 0: ok\n"
        b"done 15.100000 2 3 scan 0 9: 5=10 7=0\ndone 2.1 4 5 scan 9 0: empty\ndone 2.2 6 7 scan 1 2: stopped\n"
        b"open 3.1 8 del 7\norder 0.1 0.1 9.9\n",
        b"no: twice 0.1",
    ),
)


# The same of records with snapshots. Each seat reads the one that it took itself.
JUDGED += (
    (
        "a snapshot that stands still while its key is put",
        b"done 0.1 0 5 put 5 1: ok\ndone 1.1 6 9 pin: ok\n"
        + b"".join(b"done 0.%d %d %d put 5 2: ok\n" % (number, 10 * number, 10 * number + 5) for number in range(2, 132))
        + b"done 1.2 1400 1405 scan_at 0 9: 5=1\ndone 1.3 1406 1408 get 5: 2\ndone 1.4 1409 1411 unpin: ok\n"
        b"done 1.5 1412 1413 scan_at 0 9: not pinned\norder 0.1 1.1 "
        + b" ".join(b"0.%d" % number for number in range(2, 132))
        + b" 1.2 1.3 1.4 1.5\n",
        b"yes",
    ),
    (
        "a snapshot that has a later put",
        b"done 0.1 0 5 put 5 1: ok\ndone 1.1 6 9 pin: ok\ndone 0.2 10 15 put 5 2: ok\ndone 1.2 16 20 scan_at 0 9: 5=2\n"
        b"order 0.1 1.1 0.2 1.2\n",
        b"no: wrong 1.2",
    ),
    ("a second pin", b"done 0.1 0 5 pin: ok\ndone 0.2 6 9 pin: held\norder 0.1 0.2\n", b"yes"),
    ("a second pin that is taken", b"done 0.1 0 5 pin: ok\ndone 0.2 6 9 pin: ok\norder 0.1 0.2\n", b"no: wrong 0.2"),
    (
        "a second pin that gives the first one up",
        b"done 0.1 0 1 pin: ok\ndone 0.2 2 3 put 5 1: ok\ndone 0.3 4 5 pin: held\ndone 0.4 6 7 scan_at 5 5: 5=1\n"
        b"order 0.1 0.2 0.3 0.4\n",
        b"no: wrong 0.4",
    ),
    ("an unpin of another seat's snapshot", b"done 0.1 0 5 pin: ok\ndone 1.1 6 9 unpin: ok\norder 0.1 1.1\n", b"no: wrong 1.1"),
    (
        "an unpin of the own snapshot that leaves another seat's",
        b"done 0.1 0 1 put 5 1: ok\ndone 0.2 2 3 pin: ok\ndone 1.1 4 5 pin: ok\ndone 1.2 6 7 unpin: ok\n"
        b"done 1.3 8 9 scan_at 0 9: not pinned\ndone 0.3 8 9 scan_at 0 9: 5=1\norder 0.1 0.2 1.1 1.2 1.3 0.3\n",
        b"yes",
    ),
    (
        "a pin behind a put beside it whose value it has not",
        b"done 0.1 0 9 put 5 1: ok\ndone 1.1 3 8 pin: ok\ndone 1.2 10 11 scan_at 0 9: empty\norder 0.1 1.1 1.2\n",
        b"no: wrong 1.2",
    ),
    (
        "a pin before a put beside it whose value it has not",
        b"done 0.1 0 9 put 5 1: ok\ndone 1.1 3 8 pin: ok\ndone 1.2 10 11 scan_at 0 9: empty\norder 1.1 0.1 1.2\n",
        b"yes",
    ),
    (
        "a pin that was refused, and a scan of no snapshot that was stopped",
        b"done 0.1 0 1 pin: spent\ndone 0.2 2 3 unpin: not pinned\ndone 0.3 4 5 scan_at 0 9: stopped\norder 0.1 0.2 0.3\n",
        b"yes",
    ),
    ("a pin that was stopped", b"done 0.1 0 5 pin: stopped\norder 0.1\n", b"no: wrong 0.1"),
    ("a scan of a snapshot that was refused", b"done 0.1 0 5 pin: ok\ndone 0.2 6 9 scan_at 0 9: spent\norder 0.1 0.2\n", b"no: wrong 0.2"),
    ("a scan of a snapshot by falling keys", b"done 0.1 0 5 pin: ok\ndone 0.2 6 9 scan_at 9 0: empty\norder 0.1 0.2\n", b"yes"),
)


def puts(count):
    """So many lines of answered puts, one after the other, of two seats by turns."""
    lines = (b"done %d.%d %d %d put 5 %d: ok\n" % (number % 2, number // 2 + 1, number, number, number) for number in range(1, count + 1))
    return b"".join(lines)


JUDGED += (("as many lines as a record may have", puts(100_000) + b"order none\n", b"no: missing 1.1"),)

# A name, a record, and the number of its first bad line.
BAD_RECORDS = (
    ("an order without names", b"order\n", 1),
    ("two orders", b"order none\norder none\n", 2),
    ("a line behind the order", b"done 0.1 0 5 get 5: none\norder 0.1\n\n", 3),
    ("two calls of one name", b"done 0.1 0 5 get 5: none\ndone 0.1 6 7 get 5: none\norder 0.1\n", 2),
    ("an open call with the name of an answered one", b"done 0.1 0 5 get 5: none\nopen 0.1 6 put 5 1\norder 0.1\n", 2),
    ("an end before the beginning", b"done 0.1 5 0 get 5: none\norder 0.1\n", 1),
    ("an open get", b"open 0.1 0 get 5\norder 0.1\n", 1),
    ("an open pin", b"open 0.1 0 pin\norder 0.1\n", 1),
    ("an open unpin", b"done 0.1 0 5 pin: ok\nopen 0.2 6 unpin\norder 0.1\n", 2),
    ("a pin of a key", b"done 0.1 0 5 pin 5: ok\norder 0.1\n", 1),
    ("a scan of a snapshot with one key", b"done 0.1 0 5 scan_at 5: not pinned\norder 0.1\n", 1),
    ("a scan of a snapshot with a key too great", b"done 0.1 0 5 scan_at 0 4294967296: not pinned\norder 0.1\n", 1),
    ("the first word of a reply of two", b"done 0.1 0 5 unpin: not\norder 0.1\n", 1),
    ("an answered call behind an open one", b"open 0.1 0 put 5 1\ndone 1.1 0 5 get 5: none\norder none\n", 2),
    ("a seat too many", b"done 16.1 0 5 get 5: none\norder none\n", 1),
    ("a call's number that is 0", b"done 0.0 0 5 get 5: none\norder none\n", 1),
    ("a call's number that is too great", b"done 0.100001 0 5 get 5: none\norder none\n", 1),
    ("a position that is too great", b"done 0.1 0 9223372036854775808 get 5: none\norder none\n", 1),
    ("no space before the reply", b"done 0.1 0 5 get 5:none\norder none\n", 1),
    ("a space behind the reply", b"done 0.1 0 5 get 5: none \norder none\n", 1),
    ("a space before the colon", b"done 0.1 0 5 get 5 : none\norder none\n", 1),
    ("a value that is too great", b"done 0.1 0 5 get 5: 9223372036854775808\norder none\n", 1),
    ("a pair without a value", b"done 0.1 0 5 scan 0 9: 7=\norder none\n", 1),
    ("no pairs, and no word for it", b"done 0.1 0 5 scan 0 9: \norder none\n", 1),
    ("an answered call without a reply", b"done 0.1 0 5 get 5\norder none\n", 1),
    ("a call that the map does not have", b"done 0.1 0 5 sum 0 9: 1\norder none\n", 1),
    ("an open call with a reply", b"open 0.1 0 put 5 1: ok\norder none\n", 1),
    ("an empty line", b"\norder none\n", 1),
    ("a space behind the order", b"order 0.1 \n", 1),
    ("a name behind the word for none", b"order none 0.1\n", 1),
    ("a carriage return", b"order none\r\n", 1),
    ("a line too many", puts(100_001) + b"order none\n", 100_001),
)

# The same of scripts.
BAD_SCRIPTS = (
    ("a seat that a script has not", b"go 16 1\n", 1),
    ("no steps", b"go 0 1\ngo 0 0\n", 2),
    ("too many steps", b"go 0 100001\n", 1),
    ("no puts", b"puts 0 0 1 1\n", 1),
    ("too many puts", b"puts 0 100001 1 1\n", 1),
    ("puts of too great a value", b"puts 0 1 1 9223372036854775808\n", 1),
    ("a kind that there is not", b"until 0 take_turn\n", 1),
    ("a space behind a kind", b"until 0 load_clock \n", 1),
    ("no kind", b"until 0\n", 1),
    ("a kind that is no plain text", b"until 0 \xc3\xa9\n", 1),
    ("a guess at a row that there is not", b"guess 0 64\n", 1),
    ("a guess with a zero in front", b"guess 0 063\n", 1),
    ("a number too many", b"stop 0 0\n", 1),
    ("a number too few", b"stop\n", 1),
    ("an empty line between two lines", b"stop 0\n\nstop 0\n", 2),
    ("a space in front", b" stop 0\n", 1),
    ("a put without a value", b"call 0 put 1\n", 1),
    ("a key that is too great", b"call 0 get 4294967296\n", 1),
    ("two spaces", b"call 0 scan 0  9\n", 1),
    ("a range that is summed", b"call 0 sum 0 9\n", 1),
    ("a script with a carriage return", b"call 0 get 1\r\n", 1),
    ("no call", b"call 0\n", 1),
    ("a call without a seat", b"put 1 1\n", 1),
    ("a line more than a script may have", 257 * b"stop 0\n", 257),
)
