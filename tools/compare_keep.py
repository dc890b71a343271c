#!/usr/bin/env python3
"""Compares `keep` and `pack_rows` of kw_cells with a model on random cells.

  tools/compare_keep.py                       10,000 lists against the functions of this file
  tools/compare_keep.py 500 --seed 7
  tools/compare_keep.py 10000 --model FILE
      a Python file with the same `Cell`, `keep` and `even_rows`

A list has up to 256 cells of few or many keys and up to 63 needed versions. Half of them stand in
the order of a row's list, as a rebalance gives them, the others in any. A program of one crate,
which is made in a folder of its own beside copies of kw_cells and what it stands on, answers the
lists under `rt try`, so nothing is proved here. The last line says how many agreed; the status is 1
where one did not."""

import argparse
import importlib.util
import random
import re
import shutil
import subprocess
import sys
import tempfile
from pathlib import Path
from typing import NamedTuple

from simulator.words import BUILT, CELLS

TOP = Path(__file__).resolve().parent.parent
# A rebalance gathers the cells of two rows at most.
GATHERED = 2 * CELLS
LISTS_A_CASE = 50
PROGRAM = """//! Answers lists of cells: what a rebuild keeps of them, and where its rows start.
#![tactic(auto)]

use kw_cells::cell::Cell;
use kw_cells::keep::{Kept, keep};
use kw_cells::pack::pack_rows;
use std::io;

fn cell_of(text: &str) -> Cell {
    let mut parts = text.split(':');
    let key = parts.next().unwrap().parse::<u32>().unwrap();
    let version = parts.next().unwrap().parse::<u64>().unwrap();
    let place = parts.next().unwrap().parse::<u32>().unwrap();
    let value = parts.next().unwrap().parse::<u64>().ok();
    Cell { key, place, version, value }
}

fn main(rt: HostRuntime) -> io::Result<()> {
    for line in rt.lines(rt.alloc()) {
        let line = line?;
        let mut words = line.as_str().split(' ');
        let mut needed: Vec<u64> = Vec::new(rt.alloc());
        for version in words.next().unwrap().split(',') {
            if let Ok(version) = version.parse::<u64>() {
                needed.push(version)?;
            }
        }
        let mut cells: Vec<Cell> = Vec::new(rt.alloc());
        for word in words {
            cells.push(cell_of(word))?;
        }
        let mut kept = Kept::new();
        keep(&cells, &needed, &mut kept);
        for cell in kept.as_slice() {
            print!(rt; "{}:{}:{}:", cell.key, cell.version, cell.place)?;
            match cell.value {
                Some(value) => print!(rt; "{value} ")?,
                None => print!(rt; "- ")?,
            }
        }
        for start in pack_rows(&kept).as_slice() {
            print!(rt; "{start} ")?;
        }
        println!(rt; "")?;
    }
    Ok(())
}
"""


class Cell(NamedTuple):
    key: int
    version: int
    place: int
    value: int | None


def keep(cells, needed):
    """Of each key the newest cell and the best one for each needed version; then the oldest go
    while they are tombstones."""
    kept = []
    for key in sorted({cell.key for cell in cells}):
        own = sorted({cell for cell in cells if cell.key == key}, key=lambda cell: (cell.version, cell.place))
        chosen = {len(own) - 1}
        chosen |= {sum(cell.version <= version for cell in own) - 1 for version in needed}
        left = [own[place] for place in sorted(chosen) if place >= 0]
        while left and left[0].value is None:
            del left[0]
        kept += left
    return kept


def even_rows(kept, built):
    """The starts of as few rows as rows of at most `built` cells can be, of which the longest is as
    short as it can be with so few: each row is filled up to that before the next one starts. Which
    lengths are possible is found by trying each last row."""
    ends = [place for place in range(1, len(kept) + 1) if place == len(kept) or kept[place].key != kept[place - 1].key]
    # of the cells up to each end: the shortest that the longest row can be, where there is one row,
    # then two and so on
    longest = list(ends)
    while longest and longest[-1] > built:
        longest = [
            min([whole, *(max(longest[first], end - ends[first]) for first in range(last))])
            for last, (whole, end) in enumerate(zip(longest, ends))
        ]
    starts = [0]
    for begin, end in zip([0, *ends], ends):
        if end - starts[-1] > longest[-1]:
            starts.append(begin)
    return starts


def random_list(rng):
    keys = rng.choice((1, 2, 5, 20, CELLS, 2**32))
    versions = rng.choice((2, 12, 40, 2**49, 2**64))
    places = rng.choice((2, CELLS, 2**32))
    tombstones = rng.choice((0.0, 0.2, 0.6))
    cells = {}
    for _ in range(rng.choice((0, 3, BUILT + 1, 3 * BUILT, GATHERED, rng.randrange(GATHERED + 1)))):
        key, version, place = (rng.randrange(most) for most in (keys, versions, places))
        value = None if rng.random() < tombstones else rng.randrange(2**63)
        cells[key, version, place] = Cell(key, version, place, value)
    cells = list(cells.values())
    if cells and len(cells) < GATHERED and rng.random() < 0.1:
        cells.append(rng.choice(cells))
    rng.shuffle(cells)
    if rng.random() < 0.5:
        cells.sort(key=lambda cell: (cell.key, -cell.version, -cell.place))
    near = [cell.version for cell in cells] + [rng.randrange(versions) for _ in range(4)]
    count = rng.choice((0, 1, 2, 4, 8, rng.randrange(BUILT)))
    return cells, [max(0, min(2**64 - 1, rng.choice(near) + rng.randrange(-1, 2))) for _ in range(count)]


def written(cell):
    return f"{cell.key}:{cell.version}:{cell.place}:{'-' if cell.value is None else cell.value}"


def line_of(cells, needed):
    return " ".join([",".join(map(str, needed)) or "-", *map(written, cells)])


def answer_of(model, cells, needed):
    kept = model.keep([model.Cell(*cell) for cell in cells], needed)
    return "".join(f"{word} " for word in [*map(written, kept), *map(str, model.even_rows(kept, BUILT))])


def model_of(path):
    if path is None:
        return sys.modules[__name__]
    spec = importlib.util.spec_from_file_location("model", path)
    module = importlib.util.module_from_spec(spec)
    sys.modules["model"] = module
    spec.loader.exec_module(module)
    return module


def make_crates(folder):
    """The program's crate, with copies of those that it stands on."""
    for name in ("kw_model", "kw_words", "kw_cells"):
        shutil.copytree(TOP / "crates" / name, folder / "crates" / name, ignore=shutil.ignore_patterns("out", "must-fail"))
    source = folder / "crates" / "lists" / "src" / "main.rt"
    source.parent.mkdir(parents=True)
    source.write_text(PROGRAM)
    (folder / "crates.txt").write_text("kw_model:\nkw_words:\nkw_cells: kw_model kw_words arrayvec\nlists: kw_cells\n")
    (folder / "HANDLES").write_text("Handles allowed: none.\n")
    return source.parent.parent


def main():
    options = argparse.ArgumentParser(description=__doc__, formatter_class=argparse.RawDescriptionHelpFormatter)
    options.add_argument("count", nargs="?", type=int, default=10_000)
    options.add_argument("--seed", type=int, default=1)
    options.add_argument("--model", type=Path)
    args = options.parse_args()
    model, rng = model_of(args.model), random.Random(args.seed)
    lists = [random_list(rng) for _ in range(args.count)]
    rows = [answer_of(model, *entry) for entry in lists]
    with tempfile.TemporaryDirectory() as made:
        crate, cases = make_crates(Path(made)), Path(made) / "cases"
        cases.mkdir()
        sizes = {}
        for first in range(0, args.count, LISTS_A_CASE):
            part = slice(first, first + LISTS_A_CASE)
            name = f"from_{first:06}"
            sizes[name] = len(lists[part])
            (cases / name).write_text("".join(line_of(*entry) + "\n" for entry in lists[part]))
            (cases / f"{name}.stdout").write_text("".join(row + "\n" for row in rows[part]))
        run = subprocess.run(["rt", "try", "--cases", str(cases)], cwd=crate, stdout=subprocess.PIPE, stderr=subprocess.STDOUT, text=True)
    told = re.findall(r"^case=(\S+) run=ended status=0 .*output=expected", run.stdout, re.M)
    agreed = sum(sizes[name] for name in told)
    if agreed < args.count:
        print(run.stdout[-4000:])
    print(f"{agreed} of {args.count} lists agree, in cases of up to {LISTS_A_CASE}")
    return 0 if agreed == args.count else 1


if __name__ == "__main__":
    sys.exit(main())
