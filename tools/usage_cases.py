"""What the usage says of the program's words and lines, as cases for `check_program.py`: the text
of `usage.txt` is read here, and each command that it names must be one for the program, with the
least and the greatest of each number, and no other words.

A command's line has its own word first, then words for numbers (as `START`), options that must
stand (as `--bucket G`), options in brackets (as `[--rows R]`), flags in brackets (as `[--record]`),
and `<` before what its input is. The lines `X is from A to B` say what each number may be. The
lines `a line of X:` name the lines of an input, with a letter for each number."""

import re
from pathlib import Path

USAGE = Path(__file__).resolve().parent / "usage.txt"
RANGE = re.compile(r"  (\w+) is from (\d+) to (\d+)\b")
LINES = re.compile(r"  a line of (\w+): (.*)")
# The words with which lines of an input are tried.
LINES_OF = {"LINES": "replay", "POINTS": "rollup --bucket 60"}
# The commands of the launcher alone, of which the program knows nothing.
OF_THE_LAUNCHER = ("build", "try", "help")


class Command:
    """A command as its line in the usage has it."""

    def __init__(self, line):
        open_part = re.sub(r"\[.*?\]", "", line.split(" < ")[0])
        self.needed = re.findall(r"(--\w+) (\w+)", open_part)
        words = re.sub(r"--\w+ \w+", "", open_part).split()
        self.name = words[1].rstrip(",")
        bracketed = re.findall(r"\[(.*?)\]", line)
        self.options = [it.split() for it in bracketed if " " in it]
        self.flags = [it for it in bracketed if " " not in it]
        self.numbers = [it for it in words[2:] if it.isupper() and it.isalpha()]

    def words(self, pick, ranges, options=None, flags=None):
        """The words of a call: `pick` takes one number from a range."""
        words = [self.name, *(str(pick(ranges[it])) for it in self.numbers)]
        for option, number in [*self.needed, *(self.options if options is None else options)]:
            words += [option, str(pick(ranges[number]))]
        return words + (self.flags if flags is None else flags)


def commands(text):
    """The commands of the program, in the order of the usage."""
    found = [Command(line) for line in text.splitlines() if line.startswith("  kiwi ")]
    return [it for it in found if it.name not in OF_THE_LAUNCHER]


def good_words(command, ranges):
    """Words that the usage allows: all of a command with the least and the greatest numbers, in
    either order, and each part alone."""
    for pick in (min, max):
        yield command.words(pick, ranges)
        yield command.words(pick, ranges, command.options[::-1])
    yield command.words(min, ranges, [], [])
    for option in command.options:
        yield command.words(min, ranges, [option], [])
    for flag in command.flags:
        yield command.words(min, ranges, [], [flag])


def bad_words(command, ranges, every):
    """Words that the usage does not allow: a number outside its range, a part twice, one of another
    command, a number too few or too many."""
    bare = command.words(min, ranges, [], [])
    for place, (option, number) in enumerate(command.needed):
        at = len(bare) - 2 * (len(command.needed) - place)
        least, most = ranges[number]
        yield from ([*bare[: at + 1], str(it), *bare[at + 2 :]] for it in (least - 1, most + 1) if it >= 0)
        yield [*bare[:at], *bare[at + 2 :]]
        yield [*bare, option, str(least)]
    for option, number in command.options:
        least, most = ranges[number]
        yield from ([*bare, option, str(it)] for it in (least - 1, most + 1) if it >= 0)
        yield [*bare, option]
        yield [*bare, *2 * [option, str(least)]]
    for flag in command.flags:
        yield [*bare, flag, flag]
    for place, number in enumerate(command.numbers, start=1):
        least, most = ranges[number]
        yield from ([*bare[:place], str(it), *bare[place + 1 :]] for it in (least - 1, most + 1) if it >= 0)
        yield [*bare[:place], *bare[place + 1 :]]
    yield [*bare, "1"]
    yield [*bare, "help"]
    own = [*(option for option, _ in command.needed + command.options), *command.flags]
    for other in every:
        yield from ([*bare, option, str(ranges[number][0])] for option, number in other.needed + other.options if option not in own)
        yield from ([*bare, flag] for flag in other.flags if flag not in own)


def word_cases():
    """Each list of words with whether the usage allows it."""
    text = USAGE.read_text()
    ranges = {name: (int(least), int(most)) for name, least, most in RANGE.findall(text)}
    every = commands(text)
    for command in every:
        # (some are made in two ways)
        good = dict.fromkeys(" ".join(it) for it in good_words(command, ranges))
        bad = dict.fromkeys(" ".join(it) for it in bad_words(command, ranges, every))
        yield from ((words, True) for words in good)
        yield from ((words, False) for words in bad)


def line_cases():
    """Each line of an input that the usage names, and others of the same forms with a number too
    few or too many: the words of the command that is given it, the line, and whether it is one."""
    for name, forms in LINES.findall(USAGE.read_text()):
        for form in forms.split(", "):
            word, *letters = form.split()
            for count in range(len(letters) + 2):
                yield LINES_OF[name], " ".join([word, *count * ["1"]]), count == len(letters)
        yield LINES_OF[name], "rollup 1 1", False


def help_cases():
    """What the launcher prints of itself, with nothing built: its words, what it prints, what it
    says, and its status."""
    text = USAGE.read_text()
    parts = re.findall(r"^  (kiwi (\w+).*\n(?:      .*\n)*)", text, re.MULTILINE)
    for words in ("", "table", "try", "try table", "try build", "build 1", "--rows 64"):
        yield words, "", text, 2
    for words in ("help", "-h", "--help"):
        yield words, text, "", 0
    for part, name in parts:
        if name != "help":
            yield f"{name} --help", part.replace("\n  ", "\n"), "", 0
