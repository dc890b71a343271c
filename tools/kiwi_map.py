"""What the scripts of this folder share: the lines of `./kiwi replay`, an ordered map of one thread
that answers them, and how a program is run and compared."""

import argparse
import re
import shlex
import subprocess
from pathlib import Path

KIWI = Path(__file__).resolve().parent.parent / "kiwi"
# The simulator of this folder, as the first word of a command.
SIMULATOR = shlex.quote(str(Path(__file__).resolve().parent / "simulator.py"))
KEY_MOST, VALUE_MOST = 2**32 - 1, 2**63 - 1
NUMBER = re.compile(rb"0|[1-9][0-9]*")
RANGES = {
    b"sum": sum,
    b"count": len,
    b"least": lambda values: min(values, default="none"),
    b"greatest": lambda values: max(values, default="none"),
}
LIMITS = {b"put": (KEY_MOST, VALUE_MOST), b"del": (KEY_MOST,), b"get": (KEY_MOST,), b"wait": ()}


def is_range(form):
    return form in RANGES or form == b"list"


def parsed(line):
    """The form and the numbers of a line, or None for a line outside the grammar."""
    form, *words = line.split(b" ")
    limits = LIMITS.get(form, (KEY_MOST, KEY_MOST) if is_range(form) else None)
    if limits is None or len(words) != len(limits) or not all(NUMBER.fullmatch(word) for word in words):
        return None
    numbers = [int(word) for word in words]
    return (form, numbers) if all(number <= most for number, most in zip(numbers, limits)) else None


def items_of(text):
    """What each line of an input is, as `parsed` says."""
    lines = text.split(b"\n")
    if not lines[-1]:
        lines.pop()
    return [parsed(line) for line in lines]


def inside(pairs, numbers):
    """The pairs with a key in the range, by rising key."""
    return sorted((key, value) for key, value in pairs.items() if numbers[0] <= key <= numbers[1])


def listed(pairs):
    return " ".join(f"{key}={value}" for key, value in pairs) or "empty"


def answered(pairs, form, numbers):
    if form == b"put":
        pairs[numbers[0]] = numbers[1]
        return "ok"
    if form == b"del":
        pairs.pop(numbers[0], None)
        return "ok"
    if form == b"get":
        return pairs.get(numbers[0], "none")
    found = inside(pairs, numbers)
    return listed(found) if form == b"list" else RANGES[form]([value for _, value in found])


def expected(text):
    """What the program must print with one worker, its fault line, and its status."""
    items = items_of(text)
    if None in items:
        return b"", b"bad line %d\n" % (items.index(None) + 1), 3
    pairs = {}
    replies = [answered(pairs, form, numbers) for form, numbers in items if form != b"wait"]
    return "".join(f"{reply}\n" for reply in replies).encode(), b"", 0


def line_of(form, key, other, value):
    """A line of this form, with as many of the numbers as it takes."""
    numbers = {"put": (key, value), "get": (key,), "del": (key,), "wait": ()}.get(form, (key, other))
    return " ".join((form, *map(str, numbers)))


def ended(command, text):
    """What a command prints on this input, what it writes to standard error, and its status."""
    run = subprocess.run(command, input=text, capture_output=True, check=False)
    return run.stdout, run.stderr, run.returncode


def joined(rng, lines):
    """These lines as one text. Three in ten have a byte that was put in, left out or changed."""
    text = "\n".join(lines) + rng.choice(("", "\n"))
    if text and rng.random() < 0.3:
        at = rng.randrange(len(text))
        text = text[:at] + rng.choice(" \n\t\rx0+-9") + text[at + rng.randrange(2) :]
    return text.encode()


def options_of(about):
    """The options of a script that compares runs on random inputs: how many, and the seed."""
    options = argparse.ArgumentParser(description=about, formatter_class=argparse.RawDescriptionHelpFormatter)
    options.add_argument("inputs", nargs="?", type=int, default=1000)
    options.add_argument("--seed", type=int, default=1)
    return options


def compared(runs):
    """Makes these runs, each a word that names it, a command, its input, and what it is to print,
    to write to standard error and to end with. Prints each that differs, and how many did; returns
    the status that says whether one did."""
    passed = failed = 0
    for name, command, text, wanted in runs:
        got = ended(command, text)
        if got == wanted:
            passed += 1
        else:
            failed += 1
            print(f"{name} differs: {text!r}\n  got    {got}\n  wanted {wanted}")
    print(f"{passed} passed, {failed} failed")
    return 1 if failed else 0
