"""Scripts: their lines are read, run on a world, and told what came of them."""

from dataclasses import dataclass
from typing import Optional, Tuple

from simulator.calls import Get, Scan
from simulator.order import names_in_order
from simulator.puts import Put
from simulator.texts import BadLine, call_of, lines_of, number_of, order_line, text_of
from simulator.words import SEATS, Kind
from simulator.world import GO, STOP, World

MOST_LINES, MOST_STEPS, MOST_CALLS = 256, 100_000, 100_000
CALLERS = {"put": Put, "del": Put, "get": Get, "scan": Scan}


@dataclass(frozen=True)
class Command:
    """A line of a script: its verb, its seat, and what stands behind that."""

    verb: bytes
    seat: int
    count: int = 1
    call: Optional[Tuple] = None
    kind: Optional[Kind] = None


def counted(words):
    return number_of(words[0], 1, MOST_STEPS) if words else None


def command_of(line, rows):
    """The command of a line in a table of so many rows, or none."""
    verb, *rest = line.split(b" ")
    seat = number_of(rest[0], 0, SEATS - 1) if rest else None
    words = rest[1:]
    if seat is None:
        return None
    if verb == b"call" and call_of(words):
        return Command(verb, seat, call=call_of(words))
    if verb == b"puts" and counted(words) and call_of([b"put", *words[1:]]):
        return Command(verb, seat, counted(words), call_of([b"put", *words[1:]]))
    if len(words) != (verb != b"stop"):
        return None
    if verb == b"go" and counted(words):
        return Command(verb, seat, counted(words))
    if verb == b"until" and words[0].decode("latin-1") in Kind.__members__:
        return Command(verb, seat, kind=Kind[words[0].decode()])
    if verb == b"guess" and number_of(words[0], 0, rows - 1) is not None:
        return Command(verb, seat, int(words[0]))
    return Command(verb, seat) if verb == b"stop" else None


def commands_of(text, rows):
    """The commands of a script."""
    commands = []
    for number, line in enumerate(lines_of(text), 1):
        command = command_of(line, rows)
        if command is None or number > MOST_LINES:
            raise BadLine(number)
        commands.append(command)
    return commands


class Run:
    """A script that is run: the world, and what each seat is still to make and what was printed."""

    def __init__(self, rows):
        self.world = World(rows)
        self.queues = [[] for _ in range(SEATS)]
        self.printed = []

    def step(self, seat, choice=GO):
        """One event of a seat; its kind, or none where the seat is idle and begins nothing."""
        if not self.world.is_idle(seat):
            kind = self.world.step(seat, choice)
        elif choice == GO and self.queues[seat]:
            call = self.queues[seat].pop()
            kind = self.world.begin(seat, CALLERS[call[0]](self.world, seat, call))
        else:
            return None
        if self.world.is_idle(seat):
            ended = self.world.history.latest[seat]
            self.printed.append(f"{ended.name()} {text_of(ended.call)}: {ended.reply}")
        return kind

    def go(self, seat, count, kind=None):
        """So many steps of a seat, or up to one of a kind; whether that was made."""
        for _ in range(count):
            made = self.step(seat)
            if made is None or made is kind:
                return made is not None
        return False

    def do(self, command):
        """What a line does."""
        seat = command.seat
        if command.call:
            self.queues[seat][:0] = command.count * [command.call]
        elif command.verb == b"go":
            self.go(seat, command.count)
        elif command.verb == b"until":
            if not self.go(seat, MOST_STEPS, command.kind):
                self.printed.append("missed")
        else:
            self.step(seat, command.count if command.verb == b"guess" else STOP)


def run_of(text, rows):
    """The run of a script's bytes."""
    run = Run(rows)
    for command in commands_of(text, rows):
        run.do(command)
    return run


def output_of(text, rows):
    """What a script prints: its lines."""
    run = run_of(text, rows)
    return [*run.printed, order_line(names_in_order(run.world.history))]


def record_of(text, rows):
    """The record of a script: its lines, or none where it has too many calls."""
    history = run_of(text, rows).world.history
    ended = sorted((it for it in history.calls if it.last is not None), key=lambda it: it.last)
    stamped = (it for it in history.calls if it.last is None and it.put is not None)
    lines = [
        f"done {it.name()} {it.first} {it.last} {text_of(it.call)}: {it.reply}" for it in ended
    ]
    lines += [
        f"open {it.name()} {it.first} {text_of(it.call)}"
        for it in sorted(stamped, key=lambda it: it.seat)
    ]
    if len(lines) > MOST_CALLS:
        return None
    return [*lines, order_line(names_in_order(history))]
