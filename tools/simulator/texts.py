"""What lines of scripts and records have alike: how bytes are cut into lines, numbers, calls and
the line of an order."""

from kiwi_map import NUMBER, VALUE_MOST, parsed


class BadLine(Exception):
    """A line of an input is outside the grammar; its number is counted from 1."""

    def __init__(self, number):
        super().__init__(f"bad line {number}")


def lines_of(text):
    """The lines of bytes; the last one's line feed may be missing."""
    lines = text.split(b"\n")
    return lines if lines[-1] else lines[:-1]


def number_of(word, least=0, most=VALUE_MOST):
    """The number that a word is, without a sign or a leading zero, if it is in range, else none."""
    number = int(word) if NUMBER.fullmatch(word) and len(word) <= len(str(most)) else least - 1
    return number if least <= number <= most else None


def call_of(words):
    """The call that these words are, as its own word and its numbers, or none."""
    form, *numbers = words or [b""]
    if form not in (b"put", b"del", b"get", b"scan") or None in map(number_of, numbers):
        return None
    read = parsed(b" ".join([b"list" if form == b"scan" else form, *numbers]))
    return (form.decode(), *read[1]) if read else None


def record_call_of(words):
    """The call of a record that these words are, or none: it may be of a snapshot."""
    if words in ([b"pin"], [b"unpin"]):
        return (words[0].decode(),)
    if words[:1] == [b"scan_at"]:
        read = call_of([b"scan", *words[1:]])
        return read and ("scan_at", *read[1:])
    return call_of(words)


def text_of(call):
    """A call as a script has it."""
    return " ".join(map(str, call))


def order_line(names):
    return " ".join(["order", *(names or ["none"])])
