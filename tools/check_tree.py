#!/usr/bin/env python3
"""Checks what no proof looks at: how the repository's texts are laid out. Takes seconds.

  tools/check_tree.py            says what breaks a rule, and ends with 1 where anything does
  tools/check_tree.py --mend     first wraps the paragraphs that have a line which is too long
  tools/check_tree.py --mend docs/CALLS.md crates/kw_map
      those of these files and folders alone

The rules: a line of a comment has at most 100 characters, a line of the documents' prose at most
120 (tables and examples are left as they are); a folder has at most 40 files; every link of the
documents leads to a file and a heading that are there; the `main` in README.md is that of
kw_example; no file names the folder that the repository was made in; and no subject of a commit
has more than 72 characters, nor does its message name a path of a machine. Commits up to FIRST
are left out; in a clone without that commit it is the time of a commit that tells."""

import argparse
import ast
import re
import subprocess
import sys
import textwrap
from collections import Counter
from pathlib import Path

ROOT = Path(__file__).resolve().parent.parent
COMMENT_COLUMNS, PROSE_COLUMNS, MOST_FILES, SUBJECT_CHARACTERS = 100, 120, 40, 72
# The last commit that the rule for subjects does not ask, and its time.
FIRST, FIRST_TIME = "4fd64ac", 1796007043
# What begins a comment that has a line to itself, by the ending of a file's name.
COMMENTS = {".rt": r"//[/!]?", ".rs": r"//[/!]?", ".antt": r"--", ".py": r"#", ".sh": r"#", "": r"#"}
# Where a line is no plain prose: it goes on an item, is laid out by hand, or is part of a table.
BY_HAND = re.compile(r"(\s{2,}|\||[-*] |\d+\. |#|<!--|=|`{3}|\Z)")
MACHINE = re.compile(r"(?<![\w.~])/(?:work|tmp|opt|root|home|usr|var|mnt|srv|etc|proc)/\S*|(?<!\w)~/\S+")
MADE_IN = "/" + "work/"


def git(*words):
    """What git prints, or none where it cannot."""
    try:
        run = subprocess.run(["git", "-C", str(ROOT), *words], capture_output=True, text=True, check=False)
    except OSError:
        return None
    return run.stdout if run.returncode == 0 else None


def files():
    """The files of the repository that are text, by their path in it."""
    listed = git("ls-files", "-z", "--cached", "--others", "--exclude-standard")
    if listed is None:
        sys.exit("check_tree: git does not list the files of this repository")
    return [Path(name) for name in listed.split("\0") if name and (ROOT / name).is_file()]


def text_of(path):
    return (ROOT / path).read_text(encoding="utf-8")


class Paragraph:
    """Lines one after the other that wrap as one: from the first to before the last, with what
    begins each. A line that is laid out by hand is one of its own, and is not wrapped."""

    def __init__(self, first, prefix, columns, by_hand):
        self.first, self.last, self.prefix, self.columns = first, first + 1, prefix, columns
        self.by_hand = by_hand

    def wrapped(self, lines):
        """The lines anew, each within the columns; a word that is longer stays whole."""
        head = lines[self.first][len(self.prefix) :]
        mark = re.match(r"([-*]|\d+\.) ", head)
        behind = self.prefix + " " * len(mark[0]) if mark else self.prefix
        words = " ".join(line[len(self.prefix) :].strip() for line in lines[self.first : self.last])
        fill = {"break_long_words": False, "break_on_hyphens": False}
        return textwrap.wrap(words, self.columns, initial_indent=self.prefix, subsequent_indent=behind, **fill)


def comment_paragraphs(lines, mark):
    """The comments of a file that have lines to themselves, by paragraphs of plain words."""
    return paragraphs(lines, re.compile(rf"\s*(?:{mark})(?: |\Z)"), COMMENT_COLUMNS)


def paragraphs(lines, begins, columns):
    """The paragraphs of the lines that begin so. A line laid out by hand is one of its own."""
    found, behind = [], None
    for number, line in enumerate(lines):
        prefix = begins.match(line)
        if not prefix:
            behind = None
            continue
        rest = line[prefix.end() :]
        is_item = re.match(r"([-*]|\d+\.) ", rest)
        goes_on = behind and behind.prefix == prefix[0] and rest.strip() and not is_item
        if goes_on and (not BY_HAND.match(rest) or is_in_item(lines, behind, rest)):
            behind.last = number + 1
            continue
        paragraph = Paragraph(number, prefix[0], columns, not is_item and bool(BY_HAND.match(rest)))
        found.append(paragraph)
        behind = None if paragraph.by_hand else paragraph
    return found


def is_in_item(lines, paragraph, rest):
    """Whether a line that is set in goes on the item of a list."""
    mark = re.match(r"([-*]|\d+\.) ", lines[paragraph.first][len(paragraph.prefix) :])
    indent = len(rest) - len(rest.lstrip())
    return bool(mark) and indent == len(mark[0])


def prose_paragraphs(lines):
    """The prose of a document: no table, no heading, no example."""
    is_example, shown = False, []
    for line in lines:
        if line.lstrip().startswith("```"):
            is_example = not is_example
            shown.append("\0")
        else:
            by_hand = is_example or re.match(r" {4}|\||#|<!--", line)
            shown.append("\0" if by_hand else line)
    found = paragraphs(shown, re.compile(r"(?!\0)"), PROSE_COLUMNS)
    return [it for it in found if shown[it.first] != "\0"]


def texts():
    """Each file with paragraphs to look at: its path, its lines, and the paragraphs."""
    for path in files():
        is_tool = path.parts[0] in ("tools", ".ci", "kiwi") and path.suffix in COMMENTS
        if path.suffix == ".md":
            lines = text_of(path).split("\n")
            yield path, lines, prose_paragraphs(lines)
        elif path.suffix in (".rt", ".antt") or is_tool:
            lines = text_of(path).split("\n")
            found = comment_paragraphs(lines, COMMENTS[path.suffix])
            if path.suffix == ".py":
                found = sorted([*found, *docstring_paragraphs(lines)], key=lambda it: it.first)
            yield path, lines, found


def docstring_paragraphs(lines):
    """The paragraphs of a Python file's docstrings."""
    found = []
    for node in ast.walk(ast.parse("\n".join(lines))):
        body = getattr(node, "body", None)
        first = body[0] if isinstance(body, list) and body else None
        value = getattr(first, "value", None)
        if isinstance(value, ast.Constant) and isinstance(value.value, str):
            own = range(first.lineno - 1, first.end_lineno)
            shown = [line if number in own else "\0" for number, line in enumerate(lines)]
            begins = re.compile(rf"(?!\0) {{{first.col_offset}}}|\Z")
            found += paragraphs(shown, begins, COMMENT_COLUMNS)
    return sorted(found, key=lambda it: it.first)


def long_lines():
    for path, lines, found in texts():
        for it in found:
            for number in range(it.first, it.last):
                if len(lines[number]) > it.columns:
                    yield f"{path}:{number + 1}: {len(lines[number])} characters, and not {it.columns}"


def mend(places):
    """Wraps each paragraph that has a line which is too long, in these files and folders."""
    for path, lines, found in texts():
        if places and not any(place == path or place in path.parents for place in places):
            continue
        was = list(lines)
        for it in reversed(found):
            is_long = any(len(line) > it.columns for line in lines[it.first : it.last])
            if is_long and not it.by_hand:
                lines[it.first : it.last] = it.wrapped(lines)
        if lines != was:
            (ROOT / path).write_text("\n".join(lines), encoding="utf-8")
            print(f"check_tree: wrapped {path}")


def full_folders():
    for folder, count in Counter(path.parent for path in files()).items():
        if count > MOST_FILES:
            yield f"{folder}/: {count} files, and not {MOST_FILES}"


def anchors(text):
    """The names of a page's headings, as links to them have them."""
    for heading in re.findall(r"^#+ (.*)$", text, re.MULTILINE):
        yield re.sub(r"[^\w\- ]", "", heading.lower()).strip().replace(" ", "-")


def broken_links():
    for path in files():
        if path.suffix != ".md":
            continue
        text = re.sub(r"^```.*?^```", "", text_of(path), flags=re.DOTALL | re.MULTILINE)
        for link in re.findall(r"\]\(([^)\s]+)\)", text):
            name, _, anchor = link.partition("#")
            if "://" in name:
                continue
            target = ROOT / path.parent / name if name else ROOT / path
            if not target.exists():
                yield f"{path}: no file {link}"
            elif anchor and anchor not in anchors(target.read_text(encoding="utf-8")):
                yield f"{path}: no heading {link}"


def other_main():
    shown = re.search(r"```rust\n(fn main.*?)```", text_of(Path("README.md")), re.DOTALL)
    if not shown or shown[1] not in text_of(Path("crates/kw_example/src/main.rt")):
        yield "README.md: its `main` is not that of crates/kw_example/src/main.rt"


def places():
    for path in files():
        if path.suffix in (".md", ".rt", ".antt", ".edit", ".py", ".rs", ".sh", ".txt", "") and MADE_IN in text_of(path):
            yield f"{path}: names a path below {MADE_IN}"


def subjects():
    """Messages of commits that break a rule; nothing where there is no history."""
    is_there = git("cat-file", "-e", FIRST) is not None
    log = git("log", "--format=%h%x00%ct%x00%s%x00%b%x01", *([f"{FIRST}..HEAD"] if is_there else []))
    for entry in (log or "").split("\x01"):
        if not entry.strip():
            continue
        name, time, subject, body = entry.strip("\n").split("\0")
        if not is_there and int(time) <= FIRST_TIME:
            continue
        if len(subject) > SUBJECT_CHARACTERS:
            yield f"commit {name}: its subject has {len(subject)} characters, and not {SUBJECT_CHARACTERS}"
        found = MACHINE.search(subject) or MACHINE.search(body)
        if found:
            yield f"commit {name}: names a path of a machine, {found[0]}"


def main():
    options = argparse.ArgumentParser(description=__doc__, formatter_class=argparse.RawDescriptionHelpFormatter)
    options.add_argument("--mend", nargs="*", type=Path, metavar="PLACE", help="wrap what is too long")
    mended = options.parse_args().mend
    if mended is not None:
        mend(mended)
    checks = (long_lines, full_folders, broken_links, other_main, places, subjects)
    faults = [fault for check in checks for fault in check()]
    print("".join(f"{fault}\n" for fault in faults), end="")
    print(f"check_tree: {len(faults)} faults")
    return 1 if faults else 0


if __name__ == "__main__":
    sys.exit(main())
