#!/usr/bin/env python3
"""Soaks a server: clients beside each other for a long while, each reply of which is checked.

  tools/soak_kiwid.py                     an hour, 16 clients, by ./kiwid
  tools/soak_kiwid.py --minutes 2 --clients 4 --sessions 3000 --program 'COMMAND'

Each client writes keys of its own, and checks every get, and every sum and count over its keys,
against a dictionary. It connects again and again, and each time does one of these, drawn at random:
asks one line at a time; sends many lines at once; sends lines cut at any places; stops sending
before the replies came; breaks the connection off; sends random bytes, or 65 bytes without a line
feed; sends and never reads, at times until the server ends the connection; says nothing at all. Of
each seat's connections some are left when the time is up: short ones use them up, so the server
must end by itself with status 0.

The program is run without words first, which builds it where it is not built, and must end with
status 2. Once a minute the server's open descriptors and its resident memory are printed. There are
never more descriptors than at the start and two for each seat, and from the first minute on the
memory grows by no more than 16 MiB. The last line says how many connections and replies there
were; the status is 1 where anything was wrong. It ends some minutes after its time at the
latest."""

import argparse
import random
import shlex
import socket
import struct
import subprocess
import sys
import threading
import time
from collections import Counter
from pathlib import Path

KIWID = Path(__file__).resolve().parent.parent / "kiwid"
SEATS, KEYS_EACH = 16, 1_000
# How many seconds a client waits for a reply before it says that there is none, and for the end of
# a connection of which it takes nothing. The server ends that where a write of its own has waited
# for ten; a write of which the system has taken a part before waits again, so half a minute goes by
# before the system takes no more, and more where others use the processors.
PATIENCE, UNREAD = 60, 120
# How many seconds the server has to use up the connections that are left.
USING_UP = 600
# By how many KiB the server's memory may grow from the first minute on.
MOST_GROWTH = 16_384


class Wrong(Exception):
    """A reply that is not the expected one, or none."""


class Client:
    """One client, its keys, and what it has written of them."""

    def __init__(self, port, number, seed):
        self.port, self.first = port, number * KEYS_EACH
        self.rng = random.Random(seed + number)
        self.pairs, self.counts = {}, Counter()

    def connected(self):
        connection = socket.create_connection(("127.0.0.1", self.port), timeout=PATIENCE)
        connection.setsockopt(socket.IPPROTO_TCP, socket.TCP_NODELAY, 1)
        return connection

    def line_and_reply(self):
        """A line on the client's own keys, and its reply; the pairs are then as after it."""
        rng, last = self.rng, self.first + KEYS_EACH - 1
        key = self.first + rng.randrange(KEYS_EACH)
        form = rng.choice(("put", "put", "put", "get", "get", "del", "sum", "count"))
        if form == "put":
            self.pairs[key] = rng.randrange(1 << 40)
            return f"put {key} {self.pairs[key]}\n", "ok\n"
        if form == "del":
            self.pairs.pop(key, None)
            return f"del {key}\n", "ok\n"
        if form == "get":
            return f"get {key}\n", f"{self.pairs.get(key, 'none')}\n"
        found = [value for other, value in self.pairs.items() if key <= other]
        return f"{form} {key} {last}\n", f"{sum(found) if form == 'sum' else len(found)}\n"

    def lines_and_replies(self, count):
        both = [self.line_and_reply() for _ in range(count)]
        return "".join(line for line, _ in both).encode(), "".join(reply for _, reply in both).encode()

    def expect(self, connection, replies, ends=False):
        """Reads these bytes, and no others where the connection is to end."""
        given = b""
        while len(given) < len(replies) or ends:
            piece = connection.recv(1 << 16)
            if not piece:
                break
            given += piece
        if given != replies:
            raise Wrong(f"keys from {self.first}: {given[-200:]!r} in place of {replies[-200:]!r}")
        self.counts["replies"] += replies.count(b"\n")

    # What a client may do with a connection. Each leaves the pairs as the map has them.

    def one_by_one(self, connection):
        for _ in range(200):
            line, reply = self.line_and_reply()
            connection.sendall(line.encode())
            self.expect(connection, reply.encode())

    def many_at_once(self, connection):
        for _ in range(10):
            lines, replies = self.lines_and_replies(200)
            connection.sendall(lines)
            self.expect(connection, replies)

    def cut_anywhere(self, connection):
        lines, replies = self.lines_and_replies(50)
        while lines:
            at = self.rng.randrange(1, 40)
            connection.sendall(lines[:at])
            lines = lines[at:]
        self.expect(connection, replies)

    def half_closed(self, connection):
        lines, replies = self.lines_and_replies(100)
        connection.sendall(lines[:-1])
        connection.shutdown(socket.SHUT_WR)
        self.expect(connection, replies, ends=True)

    def random_bytes(self, connection):
        lines, replies = self.lines_and_replies(5)
        junk = bytes(self.rng.choice(b"xyz\r\0\xff 7") for _ in range(self.rng.randrange(1, 5_000))) + b"\n"
        connection.sendall(lines + junk)
        connection.shutdown(socket.SHUT_WR)
        self.expect(connection, replies + b"bad line 6\n", ends=True)

    def too_long(self, connection):
        connection.sendall(b"x" * 65)
        self.expect(connection, b"bad line 1\n", ends=True)

    def broken_off(self, connection):
        # gets alone, so that it does not matter how many of them were asked
        connection.sendall(b"".join(b"get %d\n" % (self.first + key) for key in range(100)))
        connection.setsockopt(socket.SOL_SOCKET, socket.SO_LINGER, struct.pack("ii", 1, 0))

    def never_reads(self, connection):
        waits = self.rng.random() < 0.05
        until = time.monotonic() + (UNREAD if waits else 0)
        connection.settimeout(0.5)
        try:
            while True:
                try:
                    connection.sendall(b"list 0 4294967295\n" * 10_000)
                except TimeoutError:
                    if until < time.monotonic():
                        break
        except ConnectionError:
            self.counts["cut off"] += 1
            return
        if waits:
            raise Wrong(f"keys from {self.first}: a client that takes nothing was not cut off")

    def silent(self, _connection):
        time.sleep(self.rng.random())

    def once(self):
        ways = [self.one_by_one, self.many_at_once, self.cut_anywhere, self.half_closed] * 4
        ways += [self.random_bytes, self.too_long, self.broken_off, self.never_reads, self.silent]
        with self.connected() as connection:
            self.rng.choice(ways)(connection)
        self.counts["connections"] += 1


def soak(client, until, wrong):
    try:
        while time.monotonic() < until and not wrong:
            client.once()
    except (Wrong, OSError) as error:
        wrong.append(f"client of the keys from {client.first}: {error!r}")


def program_of(server):
    """The process that listens: the one that the launcher started, or the one that was started."""
    started_by_it = Path(f"/proc/{server.pid}/task/{server.pid}/children").read_text().split()
    return Path(f"/proc/{started_by_it[0] if started_by_it else server.pid}")


def sizes(process):
    """How many descriptors a process has open, and how many KiB of memory it has."""
    resident = next(line for line in (process / "status").read_text().splitlines() if line.startswith("VmRSS"))
    return len(list((process / "fd").iterdir())), int(resident.split()[1])


class Sizes:
    """What the sizes of a server may be: at its start no connection is open."""

    def __init__(self, server):
        self.process = program_of(server)
        self.most_descriptors = sizes(self.process)[0] + 2 * SEATS
        self.most_memory = None

    def fault(self):
        """Prints the sizes, and says which of them is too great, if one is. The memory that is seen
        first is that from which it may grow."""
        descriptors, memory = sizes(self.process)
        print(f"descriptors {descriptors}, memory {memory} KiB", flush=True)
        self.most_memory = self.most_memory or memory + MOST_GROWTH
        if descriptors > self.most_descriptors:
            return f"{descriptors} descriptors, and not {self.most_descriptors}"
        if memory > self.most_memory:
            return f"{memory} KiB of memory, and not {self.most_memory}"
        return None


def free_port():
    with socket.socket() as one:
        one.bind(("127.0.0.1", 0))
        return one.getsockname()[1]


def started(program, port, sessions):
    """The server, once it listens."""
    if subprocess.run(program, stdin=subprocess.DEVNULL, check=False).returncode != 2:
        sys.exit("soak_kiwid: without words the program does not end with status 2")
    server = subprocess.Popen([*program, str(port), str(SEATS), str(sessions)], stdout=subprocess.PIPE)
    listening = f"0100007F:{port:04X} 00000000:0000 0A"
    for _ in range(600):
        time.sleep(0.1)
        if server.poll() is not None:
            break
        if listening in Path("/proc/net/tcp").read_text():
            time.sleep(0.5)
            return server
    server.kill()
    sys.exit("soak_kiwid: the server does not listen")


def watch(server, allowed, threads, until, wrong):
    """Has the clients go on until the time is up, and looks at the server once a minute."""
    for thread in threads:
        thread.start()
    while time.monotonic() < until and not wrong and server.poll() is None:
        time.sleep(min(60, max(0.1, until - time.monotonic())))
        fault = allowed.fault() if server.poll() is None else "the server ended too early"
        if fault:
            wrong.append(fault)
    for thread in threads:
        thread.join()


def use_up(server, port, wrong):
    """Connects until the server has served all that it was to serve."""
    until = time.monotonic() + USING_UP
    while server.poll() is None and time.monotonic() < until:
        try:
            socket.create_connection(("127.0.0.1", port), timeout=1).close()
        except OSError:
            time.sleep(0.01)
    if server.poll() is None:
        wrong.append("the server did not end")
        server.terminate()
    if server.wait() != 0 or server.stdout.read():
        wrong.append(f"the server ended with {server.returncode}")


def main():
    options = argparse.ArgumentParser(description=__doc__, formatter_class=argparse.RawDescriptionHelpFormatter)
    options.add_argument("--minutes", type=float, default=60)
    options.add_argument("--clients", type=int, default=SEATS)
    options.add_argument("--sessions", type=int, default=100_000, help="connections of each seat, enough for the time")
    options.add_argument("--seed", type=int, default=1)
    options.add_argument("--program", default=str(KIWID))
    options = options.parse_args()
    port = free_port()
    server = started(shlex.split(options.program), port, options.sessions)
    allowed = Sizes(server)
    wrong, until = [], time.monotonic() + 60 * options.minutes
    clients = [Client(port, number, options.seed) for number in range(options.clients)]
    threads = [threading.Thread(target=soak, args=(client, until, wrong)) for client in clients]
    watch(server, allowed, threads, until, wrong)
    use_up(server, port, wrong)
    counts = sum((client.counts for client in clients), Counter())
    for fault in wrong:
        print(fault)
    print(f"{counts['connections']} connections, {counts['replies']} replies, {counts['cut off']} cut off, {len(wrong)} wrong")
    return 1 if wrong else 0


if __name__ == "__main__":
    sys.exit(main())
