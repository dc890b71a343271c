#!/usr/bin/env python3
"""Soaks maps whose keys expire: 50 series of minutes, of each of which the last 60 stay. Each reply
is checked, and none may be a refusal.

  tools/soak_expiring.py                  an hour, by ./kiwi replay and ./kiwid
  tools/soak_expiring.py --minutes 3 --program './kiwi replay' --server 'COMMAND'

A third of the time one worker answers, and a third four, on a map of 512 rows: run after run, each
of 9,000 minutes, of which a map whose rows did not come back would take some 580. Each minute is a
block, so that no worker is far ahead of one that the system halts. At each twentieth one stand
sums, counts, least and greatest values, lists, and gets of keys that expired, in a block of their
own. The last third is one map of a server, to which four clients send minute after minute, each of
series of its own.

All replies are those of plain dictionaries. Each run's status must be 0, and the server's too, once
its connections are used up. The programs are run without words or lines first, which builds them
where they are not built. The last line says how many points were put; the status is 1 where
anything was wrong."""

import argparse
import random
import shlex
import socket
import sys
import threading
import time
from collections import Counter

from kiwi_map import KIWI, answered, ended, expected, items_of, line_of
from soak_kiwid import KIWID, PATIENCE, Sizes, Wrong, free_port, started, use_up, watch

SERIES, KEPT, ROWS = 50, 60, 512
# The keys of a series begin here behind those of the one before, further than a server comes: in a
# third of an hour some took more than 2^20 minutes. It leaves 1 when it is divided by the number of
# workers, so all of them have keys of each minute.
STEP = 2**22 + 1
MINUTES = 9_000  # of a run, whose lines are just not too long an input
ASKED = 20  # after so many minutes something is asked
# How many clients a server has, how many minutes each sends at once, and for how many lines it
# keeps a connection: fewer than may come by one.
CLIENTS, AT_ONCE, LINES = 4, 40, 900_000
# How many connections the server serves by each seat: enough for a day.
SESSIONS = 1_000
FORMS = ("sum", "count", "least", "greatest", "list", "get")


class Window:
    """Some series of minutes, and the lines that go on with them."""

    def __init__(self, rng, series):
        self.rng, self.series, self.minute = rng, series, 0

    def points(self):
        """The lines of the next minute: each series gets a point, and loses one that is too old."""
        lines, old = [], self.minute - KEPT
        for one in self.series:
            key = one * STEP + self.minute
            lines.append(f"put {key} {self.rng.randrange(10_000)}")
            if old >= 0:
                lines.append(f"del {key - KEPT}")
        self.minute += 1
        return lines

    def questions(self):
        """A line of each form on a series, whose least minute expired, and of all on all series."""
        first = self.rng.choice(self.series) * STEP
        whole = [f"{form} {self.series[0] * STEP} {self.series[-1] * STEP + self.minute}" for form in ("sum", "count")]
        oldest = max(0, self.minute - KEPT - 1)
        return [line_of(form, first + oldest, first + oldest + self.rng.randrange(2 * KEPT), 0) for form in FORMS] + whole


def replay_input(rng):
    """The lines of a run, and its replies."""
    window, lines = Window(rng, range(SERIES)), []
    for _ in range(MINUTES):
        lines += window.points() + ["wait"]
        if window.minute % ASKED == 0:
            lines += window.questions() + ["wait"]
    return ("\n".join(lines) + "\n").encode()


def first_difference(got, wanted):
    """The first line in which two outputs differ, and both lines."""
    ours, theirs = got.split(b"\n"), wanted.split(b"\n")
    number = next((at for at, (one, other) in enumerate(zip(ours, theirs)) if one != other), min(len(ours), len(theirs)) - 1)
    return f"reply {number + 1} is {ours[number]!r} in place of {theirs[number]!r}"


def soak_replay(program, workers, until, rng, wrong, counts):
    """Run after run by so many workers."""
    command = [*program, "--rows", str(ROWS), "--workers", str(workers)]
    while time.monotonic() < until and not wrong:
        text = replay_input(rng)
        got, said, status = ended(command, text)
        wanted = expected(text)[0]
        if got != wanted or status != 0:
            wrong.append(f"a run by {workers} workers: status {status}, {said!r}; {first_difference(got, wanted)}")
        counts["runs"] += 1
        counts["points"] += SERIES * MINUTES
        print(f"runs {counts['runs']}, by {workers} workers", flush=True)


class Client:
    """One client of a server, its series, and what it has put of them."""

    def __init__(self, port, number, seed):
        mine = range(number * SERIES // CLIENTS, (number + 1) * SERIES // CLIENTS)
        self.port, self.pairs, self.window, self.points = port, {}, Window(random.Random(seed + number), mine), 0

    def lines_and_replies(self):
        lines = [line for _ in range(AT_ONCE) for line in self.window.points()] + self.window.questions()
        text = ("\n".join(lines) + "\n").encode()
        return text, "".join(f"{answered(self.pairs, *item)}\n" for item in items_of(text)).encode()

    def connect(self, until, wrong):
        """Sends minutes by one connection, and checks the replies."""
        sent = 0
        with socket.create_connection(("127.0.0.1", self.port), timeout=PATIENCE) as connection:
            while sent < LINES and time.monotonic() < until and not wrong:
                text, wanted = self.lines_and_replies()
                connection.sendall(text)
                given = b""
                while len(given) < len(wanted) and (piece := connection.recv(1 << 16)):
                    given += piece
                if given != wanted:
                    raise Wrong(first_difference(given, wanted))
                sent += text.count(b"\n")
                self.points += AT_ONCE * len(self.window.series)

    def soak(self, until, wrong):
        try:
            while time.monotonic() < until and not wrong:
                self.connect(until, wrong)
        except (Wrong, OSError) as error:
            wrong.append(f"the client of the series {self.window.series}: {error!r}")


def soak_server(program, until, seed, wrong, counts):
    """Clients beside each other on the one map of a server."""
    port = free_port()
    server = started(program, port, SESSIONS)
    allowed = Sizes(server)
    clients = [Client(port, number, seed) for number in range(CLIENTS)]
    threads = [threading.Thread(target=client.soak, args=(until, wrong)) for client in clients]
    watch(server, allowed, threads, until, wrong)
    use_up(server, port, wrong)
    counts["points"] += sum(client.points for client in clients)
    print(f"a server, {min(client.window.minute for client in clients)} minutes", flush=True)


def main():
    options = argparse.ArgumentParser(description=__doc__, formatter_class=argparse.RawDescriptionHelpFormatter)
    options.add_argument("--minutes", type=float, default=60)
    options.add_argument("--seed", type=int, default=1)
    options.add_argument("--program", help="the command that replays, if not ./kiwi replay")
    options.add_argument("--server", default=str(KIWID))
    options = options.parse_args()
    program = shlex.split(options.program) if options.program else [KIWI, "replay"]
    ended(program, b"")
    rng, third = random.Random(options.seed), 20 * options.minutes
    wrong, counts = [], Counter()
    for workers in (1, 4):
        soak_replay(program, workers, time.monotonic() + third, rng, wrong, counts)
    if not wrong:
        soak_server(shlex.split(options.server), time.monotonic() + third, options.seed, wrong, counts)
    for fault in wrong:
        print(fault)
    print(f"{counts['points']} points, {len(wrong)} wrong")
    return 1 if wrong else 0


if __name__ == "__main__":
    sys.exit(main())
