#!/usr/bin/env python3
"""Makes of what tools/measure.sh has printed the data, the tables and the pictures of
docs/PERFORMANCE.md.

  tools/plot_measures.py ROOM FOLDER
      ROOM has what the programs printed; FOLDER gets what is made of it
  tools/plot_measures.py --again FOLDER  makes tables and pictures from the data that FOLDER has

In FOLDER it writes `measures.csv`, a line for each figure of each round, and the pictures. Where
FOLDER is docs/figures, the tables are put between their marks in docs/PERFORMANCE.md and README.md;
else into FOLDER/tables.md. A figure in a table is the median over the rounds; a bar in a picture
goes from the least to the greatest."""

import csv
import re
import sys
from collections import defaultdict
from dataclasses import replace
from pathlib import Path
from statistics import median

from svg_panels import Look, Panel, Point, picture

TOP = Path(__file__).resolve().parent.parent
FIGURES = TOP / "docs" / "figures"
PAGES = (TOP / "docs" / "PERFORMANCE.md", TOP / "README.md")
COLUMNS = ("table", "map", "what", "of", "round", "figure")
THREADS = (1, 2, 4)
# How many cells a row has, and with how many it is built.
CELLS, BUILT = 128, 64
# The keys that a map holds whose rows were filled by rising keys, for so many rows.
FILLED = {rows: rows * BUILT for rows in (1_024, 4_096, 16_384)}
# What begins a line on a map of many rows, by the program that prints it and by the map.
PREFIXES = {"kiwi": {"kiwi": ""}, "native": {}, "std": {"std": "alone +", "Mutex": "Mutex +", "RwLock": "RwLock +"}}
# The two kinds of rows that are timed, as the programs name them and as a table of the data does.
ROWS = {"different keys": "row", "half built": "built"}
CALLS = {"get": "get", "put": "put", "mixed": "half of each"}
ORDERS = ("rising", "falling", "random")
INPUTS = {"0": "half puts, half gets", "1": "1 in 100 a sum of 1,000 keys", "10": "1 in 10 a sum of 1,000 keys"}
NAMES = {"kiwi": "KiWi", "std": "std's map", "Mutex": "std's map, Mutex", "RwLock": "std's map, RwLock", "native": "native code"}
# Colours that are told apart by all eyes; marks and lines tell them too.
COLOURS = {"kiwi": "#0072b2", "std": "#555555", "Mutex": "#e69f00", "RwLock": "#cc79a7", "native": "#555555"}
MARKS = {"kiwi": "o", "std": "s", "Mutex": "^", "RwLock": "v", "native": "s"}
LOOKS = {name: Look(COLOURS[name], MARKS[name]) for name in NAMES}
# The maps that threads share.
SHARED = ("kiwi", "Mutex", "RwLock")


def row_figures(text):
    """The nanoseconds of calls of one thread on one row of different keys, by its cells."""
    for what, cells, keys, nanoseconds in re.findall(rf"^(get|scan|put) +(\d+)  ({'|'.join(ROWS)}) +(\d+)", text, re.MULTILINE):
        yield ROWS[keys], what, cells, nanoseconds


def map_figures(text, prefix):
    """The nanoseconds of calls, of sums and of puts into a map that fills, as `kw_bench` and
    `std_maps` print them."""
    for what, *each in re.findall(rf"^{prefix}(get|put|mixed) +(\d+)(?: +(\d+) +(\d+) +\d+ +\d+)?$", text, re.MULTILINE):
        yield from (("calls", what, threads, it) for threads, it in zip(THREADS, each) if it)
    sums = rf"^{prefix}sum of \d+ keys: (\d+) ns alone(?:, (\d+) ns while .*, (\d+) ns each)?$"
    for each in re.findall(sums, text, re.MULTILINE):
        yield from (("sums", what, 1, it) for what, it in zip(("alone", "beside", "put"), each) if it)
    for order, *each in re.findall(rf"^{prefix}(rising|falling|random) +(\S+) +(\S+) +(\S+) ", text, re.MULTILINE):
        yield from (("fill", order, keys, it) for keys, it in zip(FILLED.values(), each) if it != "-")
    for order, pair in re.findall(rf"^{prefix}(rising|falling|random) .*  (\d+)$", text, re.MULTILINE):
        # (`std_maps` prints no such column, but a number of pairs behind more spaces)
        if not prefix:
            yield "bytes", order, 0, pair


def figures_of(room):
    """A line of the data for each figure that the programs printed."""
    for path in sorted(room.iterdir()):
        program, _, number = path.name.partition(".")
        if program not in PREFIXES:
            continue
        text = path.read_text()
        found = [(program, *it) for it in row_figures(text)]
        found += [(name, *it) for name, prefix in PREFIXES[program].items() for it in map_figures(text, prefix)]
        yield from ((table, name, what, of, number, figure) for name, table, what, of, figure in found)
    for line in (room / "replay").read_text().splitlines():
        number, program, percent, milliseconds = line.split()
        of_std = program == "std"
        yield "replay", "std" if of_std else "kiwi", percent, 1 if of_std else program, number, milliseconds


class Data:
    """The figures of all rounds, by table, map, what was done, and of how many."""

    def __init__(self, about, lines):
        self.about, self.figures = about, defaultdict(list)
        for table, name, what, of, _, figure in lines:
            self.figures[table, name, what, int(of)].append(int(figure))

    def of(self, *key):
        return self.figures.get(key, [])

    def median(self, *key):
        """The median over the rounds, or none where nothing was measured."""
        found = self.of(*key)
        return median(found) if found else None

    def shown(self, *key):
        """The median as it stands in a table."""
        found = self.median(*key)
        return "–" if found is None else f"{found:,.0f}"

    def counts(self, table):
        """Of how many there are figures in a table: of its cells, where it is of rows."""
        return sorted({key[3] for key in self.figures if key[0] == table})

    def about_of(self, word):
        """What is said of the run under this word."""
        return next((line.partition(": ")[2] for line in self.about if line.startswith(f"{word}: ")), "unknown")

    def ratio(self, one, other, factor=1.0):
        """How many times the second figure the first is, in two digits that tell; none where one
        was not measured."""
        one, other = self.median(*one), self.median(*other)
        if not one or not other:
            return "–"
        found = factor * one / other
        return f"{found:.0f}" if found >= 10 else f"{found:.1f}" if found >= 1 else f"{found:.2f}"


def stored(folder):
    """The data that a folder has."""
    lines = (folder / "measures.csv").read_text().splitlines()
    about = [line.removeprefix("# ") for line in lines if line.startswith("# ")]
    rows = list(csv.reader(line for line in lines if not line.startswith("#")))
    return Data(about, rows[1:])


def store(folder, about, lines):
    with open(folder / "measures.csv", "w", newline="") as file:
        file.write("# Figures of docs/PERFORMANCE.md: nanoseconds a call, and for replay milliseconds a run.\n")
        file.writelines(f"# {line}\n" for line in about)
        csv.writer(file, lineterminator="\n").writerows([COLUMNS, *lines])


def rows_of(head, rows):
    yield f"| {' | '.join(head)} |"
    yield "|---" * len(head) + "|"
    yield from (f"| {' | '.join(row)} |" for row in rows)


def about_table(data):
    return rows_of(("", ""), (line.partition(": ")[::2] for line in data.about if ": " in line and "docs/" not in line))


def row_table(data):
    head = ["cells of the row", *(word for what in ("get", "scan", "put") for word in (what, "native", "times"))]
    rows = [(table, it) for table in ROWS.values() for it in data.counts(table)]
    return rows_of(head, ([cells_words(*row), *row_cells(data, *row)] for row in rows))


def cells_words(table, cells):
    return str(cells) if table == "row" else f"{cells}, all built" if cells == BUILT else f"{cells}, {BUILT} of them built"


def row_cells(data, table, cells):
    """Of each call ours, the native one, and how many times that ours is."""
    for what in ("get", "scan", "put"):
        keys = [(table, name, what, cells) for name in ("kiwi", "native")]
        yield from (*(data.shown(*key) for key in keys), data.ratio(*keys))


def calls_table(data):
    maps = ("kiwi", "Mutex", "RwLock")
    head = ["call", "std's map alone", *(f"{NAMES[name]}: {threads}" for name in maps for threads in THREADS)]
    rows = ([word, data.shown("calls", "std", what, 1), *(data.shown("calls", name, what, it) for name in maps for it in THREADS)] for what, word in CALLS.items())
    return rows_of(head, rows)


def sums_table(data):
    whats = ("alone", "beside", "put")
    rows = ([NAMES[name], *(data.shown("sums", name, what, 1) for what in whats)] for name in ("kiwi", "Mutex", "RwLock", "std"))
    return rows_of(("map", "a sum alone", "a sum beside puts", "a put beside sums"), rows)


def fill_table(data):
    heads = {name: [f"{NAMES[name]}: {keys:,}" for keys in FILLED.values()] for name in ("kiwi", "std")}
    return rows_of(["keys come", *heads["kiwi"], "bytes a pair", *heads["std"]], (fill_row(data, order) for order in ORDERS))


def fill_row(data, order):
    shown = {name: [data.shown("fill", name, order, keys) for keys in FILLED.values()] for name in ("kiwi", "std")}
    return [order, *shown["kiwi"], data.shown("bytes", "kiwi", order, 0), *shown["std"]]


def replay_table(data):
    head = ("lines", "std's map", *(f"{it} worker{'s' * (it > 1)}" for it in THREADS), "1 worker to std's map", "std's map to 4 workers")
    for number, line in enumerate(rows_of(head, replay_rows(data))):
        yield line if number else line.replace("lines", "lines of `replay`")


def replay_rows(data):
    for percent, word in INPUTS.items():
        keys = [("replay", "std", percent, 1), *(("replay", "kiwi", percent, it) for it in THREADS)]
        yield [word, *(data.shown(*key) for key in keys), data.ratio(keys[1], keys[0]), data.ratio(keys[0], keys[3])]


def ratios_table(data):
    """The five ratios of README.md, and of what they are."""
    get, put, mixed = ("built", "kiwi", "get", CELLS), ("calls", "kiwi", "put", 1), ("calls", "kiwi", "mixed", 4)
    native, alone, locked = ("built", "native", "get", CELLS), ("calls", "std", "put", 1), ("calls", "RwLock", "mixed", 4)
    replay = [("replay", "std", "0", 1), ("replay", "kiwi", "0", 4)]
    yield f"Taken {data.about_of('date')}, of build {data.about_of('build')} ([PERFORMANCE](docs/PERFORMANCE.md) has the figures):"
    yield f"- a get of a row of {CELLS} cells, {BUILT} of which it was built with, takes {data.ratio(get, native)} times what native code takes for its loads;"
    yield f"- a put by one thread takes {data.ratio(put, alone)} times one into std's ordered map;"
    of_one, of_locked = data.ratio(("calls", "kiwi", "mixed", 1), mixed, 4), data.ratio(locked, mixed)
    yield f"- four threads that put and get make {of_one} times the calls of one, {of_locked} times those of four on std's map in a `RwLock`;"
    yield f"- `replay --workers 4` of puts and gets is {data.ratio(*replay)} times as fast as such a program of one thread on std's map."


TABLES = {"about": about_table, "ratios": ratios_table, "row": row_table, "calls": calls_table, "sums": sums_table, "fill": fill_table, "replay": replay_table}


def place(page, tables):
    """Puts each table between its marks in a page, where the page has them."""
    text = page.read_text()
    for name, table in tables.items():
        text = re.sub(rf"(<!-- {name}: [^\n]*-->\n).*?(<!-- end -->)", lambda marks, table=table: f"{marks[1]}{table}\n{marks[2]}", text, flags=re.DOTALL)
    page.write_text(text)


def draw_line(panel, data, keys, places, name, scale=lambda place, figure: figure, words="", **look):
    """Draws the figures of the keys over their places as a line."""
    found = [(place, sorted(scale(place, it) for it in data.of(*key))) for place, key in zip(places, keys)]
    points = [Point(place, rounds[0], median(rounds), rounds[-1]) for place, rounds in found if rounds]
    if points:
        panel.add_line(points, replace(LOOKS[name], **look), words or NAMES[name])


def finish(panel, title, right, ticks):
    panel.title, panel.right = title, right
    panel.ticks = [(it, f"{it // 1024} Ki" if it > 9999 else str(it)) for it in ticks]


def plot_row(panels, data):
    for panel, what in zip(panels, ("get", "scan", "put")):
        for table, words, look in (("row", "", {}), ("built", f", {BUILT} cells built", {"dashes": "2 2", "is_hollow": True})):
            cells = data.counts(table)
            for name in ("kiwi", "native"):
                draw_line(panel, data, [(table, name, what, it) for it in cells], cells, name, words=NAMES[name] + words, **look)
        finish(panel, what, "cells in the row", data.counts("row"))
    panels[0].up = "nanoseconds a call, one thread"


def plot_calls(panels, data):
    for panel, (what, word) in zip(panels, CALLS.items()):
        for name in ("std", "Mutex", "RwLock", "kiwi"):
            draw_line(panel, data, [("calls", name, what, it) for it in THREADS], THREADS, name, lambda threads, ns: 1000 * threads / ns)
        finish(panel, word, "threads", THREADS)
    panels[0].up = "million calls a second, all threads"


def plot_sums(panels, data):
    grey = "#999999"
    draw_columns(panels[0], data, {"alone": ("alone", "white"), "beside": ("beside others: a sum beside three threads that put, a put beside sums", grey)})
    draw_columns(panels[1], data, {"put": ("", grey)})
    for panel, title, call in zip(panels, ("a sum of 1,000 keys", "a put"), ("sum", "put")):
        panel.title, panel.up = title, f"microseconds a {call}"
        panel.ticks = [(number, NAMES[name].replace(", ", ",\n")) for number, name in enumerate(SHARED)]


def draw_columns(panel, data, parts):
    """Draws each part for each map that threads share."""
    width = 0.8 / len(parts)
    for at, (what, (words, colour)) in enumerate(parts.items()):
        found = [(number, sorted(it / 1000 for it in data.of("sums", name, what, 1))) for number, name in enumerate(SHARED)]
        place = lambda number, at=at: number + (at - (len(parts) - 1) / 2) * width
        points = [Point(place(number), rounds[0], median(rounds), rounds[-1]) for number, rounds in found if rounds]
        panel.add_columns(points, width, colour, words)


def plot_fill(panels, data):
    keys = [*FILLED.values()]
    for panel, order in zip(panels, ORDERS):
        panel.is_by_powers = True
        for name in ("std", "kiwi"):
            draw_line(panel, data, [("fill", name, order, it) for it in keys], keys, name)
        finish(panel, f"{order} keys", "keys in the map", keys)
    panels[0].up = "nanoseconds a put, one thread"


def plot_replay(panels, data):
    seconds = lambda _, milliseconds: milliseconds / 1000
    for panel, (percent, word) in zip(panels, INPUTS.items()):
        base = data.median("replay", "std", percent, 1)
        if base:
            panel.add_level(base / 1000, Look(COLOURS["std"], dashes="4 3"))
        draw_line(panel, data, [("replay", "std", percent, 1)], THREADS, "std", seconds, "one thread on std's map", dashes="4 3")
        draw_line(panel, data, [("replay", "kiwi", percent, it) for it in THREADS], THREADS, "kiwi", seconds)
        finish(panel, word, "workers", THREADS)
    panels[0].up = "seconds a run"


# Each picture: what draws it, how many panels it has, whether these go up alike, and what is said
# in its place where it is not shown.
PLOTS = {
    "row": (plot_row, 3, False, "a get, a scan and a put of a row, by cells, built or not, beside native code"),
    "calls": (plot_calls, 3, False, "calls a second by threads, beside std's map behind locks"),
    "sums": (plot_sums, 2, False, "a sum alone and beside puts, and a put beside sums"),
    "fill": (plot_fill, 3, True, "a put as the map fills, beside std's map"),
    "replay": (plot_replay, 3, False, "replay by workers, beside one thread on std's map"),
}


def draw(data, folder):
    for name, (plot, count, is_alike, _) in PLOTS.items():
        panels = [Panel() for _ in range(count)]
        plot(panels, data)
        (folder / f"{name}.svg").write_text(picture(panels, is_alike))


def main():
    if len(sys.argv) != 3:
        sys.exit(__doc__)
    room, folder = sys.argv[1], Path(sys.argv[2])
    folder.mkdir(parents=True, exist_ok=True)
    if room != "--again":
        room = Path(room)
        store(folder, (room / "about").read_text().splitlines(), figures_of(room))
    data = stored(folder)
    draw(data, folder)
    tables = {name: "\n".join(table(data)) for name, table in TABLES.items()}
    if folder.resolve() == FIGURES:
        for name, (*_, words) in PLOTS.items():
            tables[name] += f"\n\n![{words}](figures/{name}.svg)"
        for page in PAGES:
            place(page, tables)
    else:
        (folder / "tables.md").write_text("\n\n".join(f"{name}\n\n{table}" for name, table in tables.items()) + "\n")
    print(f"plot_measures: wrote {folder}", file=sys.stderr)


if __name__ == "__main__":
    main()
