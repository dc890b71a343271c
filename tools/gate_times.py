#!/usr/bin/env python3
"""Measures where the gate's time goes, and writes the table of shares that docs/WORKING.md shows:
of the crates that take most, and of all others together.

  tools/gate_times.py .ci/run            runs the gate, and measures it
  tools/gate_times.py --beside PID
      measures a gate that is under way, by the process id of its `rt ci` (or of .ci/run)
  tools/gate_times.py --show
      prints the table of the last measured run, and measures nothing

While the gate runs, this looks at the processes below it some times a second, and adds up the
processor seconds of each check by its crate and by what it is for: the proof of the crate, that of
its tests, the wrong bodies, or a check of the unchanged crate on which these build, where the
toolchain makes one before them. (An older build of it has the first wrong body of a crate checked
from nothing in its place, and counts the check that shows afterwards that nothing was spoilt with
the wrong bodies.) A check that lives between two looks alone is missed, so the sums are a little
low; the last line says how much of the gate's whole time they cover.

A run from nothing measures each crate, and each run of an older build of the toolchain is one; a
newer build may take a proof from an earlier run. The result is written to tools/gate_shares only
where each crate was proved, or by --partial, which keeps the old line of each crate that was not.
The launcher reads that file to say how much of a build is left. The status is that of the command,
and 0 beside a gate that is under way."""

import argparse
import os
import re
import subprocess
import sys
import time
from collections import defaultdict
from dataclasses import dataclass, field
from pathlib import Path

ROOT = Path(__file__).resolve().parent.parent
SHARES, CRATES = ROOT / "tools" / "gate_shares", ROOT / "crates.txt"
PAGE = ROOT / "docs" / "WORKING.md"
HEAD = """\
# Processor seconds that the gate takes from nothing, by crate: its proof, that of its tests, the
# check before its wrong bodies if there is one, the wrong bodies, and how many these are. Written
# by tools/gate_times.py; the launcher reads the first two columns.
"""
PROOF, TESTS, BEFORE, BODIES = KINDS = ("proof", "tests", "check before", "wrong bodies")
TICKS = os.sysconf("SC_CLK_TCK")
LOOKS_A_SECOND = 2
# How many crates have a line of their own in the page; the file of shares has each.
ON_PAGE = 3


@dataclass(frozen=True)
class Process:
    """One process at one moment: its start tells it from a later one of the same id; `used` is in
    seconds, with those of its children that have ended."""

    pid: int
    parent: int
    start: int
    used: float


@dataclass
class Line:
    """What one crate took: seconds by kind, and how many wrong bodies it has."""

    seconds: dict = field(default_factory=lambda: dict.fromkeys(KINDS, 0.0))
    bodies: int = 0

    def whole(self):
        return sum(self.seconds.values())


def processes():
    """All processes of the machine by their ids."""
    found = {}
    for name in filter(str.isdigit, os.listdir("/proc")):
        try:
            text = Path(f"/proc/{name}/stat").read_text()
        except OSError:
            continue
        # The name of the program stands in brackets, and may have spaces and brackets itself.
        words = text[text.rindex(")") + 2 :].split()
        used = sum(map(int, words[11:15])) / TICKS
        found[int(name)] = Process(int(name), int(words[1]), int(words[19]), used)
    return found


def below(top, found):
    """The ids of the processes below this one, each behind its parent."""
    children = defaultdict(list)
    for it in found.values():
        children[it.parent].append(it.pid)
    order = [top]
    for pid in order:
        order += children[pid]
    return order[1:]


def words_of(pid):
    """The words of a process's command line; none where it has ended."""
    try:
        return Path(f"/proc/{pid}/cmdline").read_bytes().decode(errors="replace").split("\0")[:-1]
    except OSError:
        return []


def folder_of(pid):
    try:
        return os.readlink(f"/proc/{pid}/cwd")
    except OSError:
        return ""


def after(words, flag):
    """The word behind this one, or an empty one."""
    return words[words.index(flag) + 1] if flag in words[:-1] else ""


def check_of(pid):
    """The crate and the kind of a check, or none where the process is no check of the gate."""
    words = words_of(pid)
    if len(words) < 2 or os.path.basename(words[0]) != "rattle" or words[1] not in ("check", "build"):
        return None
    crate, over = after(words, "--crate-name"), after(words, "--incremental")
    is_copy = "/rt-edit-" in folder_of(pid)
    if over.endswith("/seed"):
        return crate, BEFORE
    if is_copy or over:
        return crate, BODIES
    return crate, TESTS if "--test" in words else PROOF


class Sampler:
    """Adds up what the checks below one process use."""

    def __init__(self, top):
        self.top, self.checks, self.used = top, {}, {}

    def look(self):
        """Notes what each check has used so far; returns whether the top process is still there."""
        found = processes()
        if self.top not in found or not words_of(self.top):
            return False
        root_of = {}
        now = defaultdict(float)
        for pid in below(self.top, found):
            it = found[pid]
            root = root_of.get(it.parent)
            key = root or (pid, it.start)
            # Before a check is a check it is a shell or Python for a moment.
            if not root and not self.checks.get(key):
                self.checks[key] = check_of(pid)
            if root or self.checks[key]:
                # A check's helpers are copies of it; what those that ended used is counted with it
                # already.
                root_of[pid] = key
                now[key] += it.used
        for key, used in now.items():
            self.used[key] = max(used, self.used.get(key, 0.0))
        return True

    def lines(self):
        """What each crate took."""
        lines = {name: Line(bodies=len([*ROOT.glob(f"crates/{name}/must-fail/*.edit")])) for name in crates()}
        for key, used in self.used.items():
            crate, kind = self.checks[key]
            if crate in lines:
                lines[crate].seconds[kind] += used
        return lines


def crates():
    """The crates of the repository, in the order of its list."""
    return [line.split(":")[0].split()[0] for line in CRATES.read_text().splitlines() if ":" in line and not line.startswith("#")]


def stored():
    """The lines of the file of shares."""
    lines = {}
    for text in SHARES.read_text().splitlines() if SHARES.exists() else []:
        if text.strip() and not text.startswith("#"):
            name, *numbers = text.split()
            lines[name] = Line(dict(zip(KINDS, map(float, numbers))), int(numbers[len(KINDS)]))
    return lines


def place(about, lines):
    """Puts the table between its marks in the page that shows it."""
    shown = "\n".join(["", about, "", *table(lines, ON_PAGE), "", ""])
    marked = r"(<!-- gate: [^\n]*-->\n).*?(<!-- end -->)"
    put = lambda marks: f"{marks[1]}{shown}{marks[2]}"
    PAGE.write_text(re.sub(marked, put, PAGE.read_text(), flags=re.DOTALL))


def store(lines):
    rows = [f"{name} {' '.join(f'{it:.0f}' for it in line.seconds.values())} {line.bodies}" for name, line in lines.items()]
    SHARES.write_text(HEAD + "\n".join(rows) + "\n")


def table(lines, most=None):
    """The table of shares in whole processor seconds, the crate that takes most first: a line for
    each crate, or for the first so many and one for all others."""
    yield f"| crate | {' | '.join(KINDS)} | how many | all | share |"
    yield "|---|" + "---|" * (len(KINDS) + 3)
    whole = sum(line.whole() for line in lines.values()) or 1.0
    ranked = sorted(lines.items(), key=lambda it: -it[1].whole())
    for name, line in ranked[:most]:
        yield row(f"`{name}`", line, whole)
    others = [line for _, line in ranked[most:]] if most is not None else []
    if others:
        yield row(f"the other {len(others)}", sum_of(others), whole)
    sums = sum_of(lines.values())
    yield row("all", sums, whole)
    yield "| share | " + " | ".join(f"{100 * it / whole:.0f}%" for it in sums.seconds.values()) + " | | | |"


def sum_of(lines):
    """One line for all of these together."""
    lines = list(lines)
    return Line({kind: sum(line.seconds[kind] for line in lines) for kind in KINDS}, sum(line.bodies for line in lines))


def row(name, line, whole):
    seconds = " | ".join(f"{it:.0f}" for it in line.seconds.values())
    return f"| {name} | {seconds} | {line.bodies} | {line.whole():.0f} | {100 * line.whole() / whole:.1f}% |"


def finish(sampler, minutes, is_partial, whole):
    """Prints the table, and writes the file of shares where each crate was measured."""
    lines, old = sampler.lines(), stored()
    missing = [name for name, line in lines.items() if not line.seconds[PROOF]]
    print("\n".join(table(lines)), flush=True)
    covered = sum(line.whole() for line in lines.values())
    of_all = f"; {covered:.0f} of the {whole:.0f} processor seconds that the gate used are in it" if whole else f"; {covered:.0f} processor seconds are in it"
    processors = len(os.sched_getaffinity(0))
    print(f"gate_times: {minutes:.0f} minutes, {processors} processors{of_all}", file=sys.stderr)
    if missing:
        print(f"gate_times: no proof was seen of {' '.join(missing)} (kept from an earlier run?)", file=sys.stderr)
    if not missing or is_partial:
        written = {name: old.get(name, line) if name in missing else line for name, line in lines.items()}
        store(written)
        took = f"Taken {time.strftime('%Y-%m-%d', time.gmtime())}, from nothing, in {minutes:.0f} minutes on {processors} processors."
        place(took if not missing else f"Put together of several runs, the last of {time.strftime('%Y-%m-%d', time.gmtime())}.", written)
        print(f"gate_times: wrote {SHARES} and {PAGE}", file=sys.stderr)


def watch(sampler, is_over):
    """Looks until the gate has ended, or an interrupt asks for what was seen so far."""
    try:
        while not is_over() and sampler.look():
            time.sleep(1 / LOOKS_A_SECOND)
    except KeyboardInterrupt:
        print("gate_times: interrupted; this is what was seen so far", file=sys.stderr)


def main():
    options = argparse.ArgumentParser(description=__doc__, formatter_class=argparse.RawDescriptionHelpFormatter)
    options.add_argument("--beside", type=int, metavar="PID", help="the process id of a gate that is under way")
    options.add_argument("--partial", action="store_true", help="write the file of shares also where some crates were not proved in this run")
    options.add_argument("--show", action="store_true", help="print the table of the last measured run")
    options.add_argument("command", nargs=argparse.REMAINDER, help="the command that is measured")
    options = options.parse_args()
    if options.show:
        lines = stored()
        print("\n".join(table(lines)) if lines else "gate_times: no run was measured yet")
        return 0
    begin = time.monotonic()
    if options.beside:
        sampler = Sampler(options.beside)
        watch(sampler, lambda: False)
        finish(sampler, (time.monotonic() - begin) / 60, options.partial, 0.0)
        return 0
    if not options.command:
        sys.exit("gate_times: give the command that is the gate, or --beside PID, or --show")
    gate = subprocess.Popen(options.command)
    sampler = Sampler(gate.pid)
    watch(sampler, lambda: gate.poll() is not None)
    status = gate.wait()
    finish(sampler, (time.monotonic() - begin) / 60, options.partial, sum(os.times()[2:4]))
    return status


if __name__ == "__main__":
    sys.exit(main())
