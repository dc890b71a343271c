"""Cells of a row as they were read: which of them a version shows, which a rebuild of rows keeps,
and where its new rows start among these."""

from bisect import bisect_left
from collections import defaultdict
from dataclasses import dataclass
from typing import Optional

from simulator.words import BUILT


@dataclass(frozen=True)
class Cell:
    """A cell that was read: the number of its cell is its place, in a group that of the cell there.
    Its origin is the attempt for which it stands."""

    key: int
    version: int
    place: int
    value: Optional[int]
    origin: Optional[int]

    def rank(self):
        return self.version, self.place


def best_of(cells, key, version=None):
    """The cell of a key with the greatest version, up to this one, and of these the last place."""
    fit = (it for it in cells if it.key == key and (version is None or it.version <= version))
    return max(fit, key=Cell.rank, default=None)


def pairs_of(cells, first, last, version):
    """The pairs that the cells show of a range at a version, by rising key."""
    keys = sorted({it.key for it in cells if first <= it.key <= last})
    best = (best_of(cells, key, version) for key in keys)
    return [(it.key, it.value) for it in best if it is not None and it.value is not None]


def kept_of(cells, needed):
    """The cells that a rebuild keeps, by key and version: of each key the newest and the best ones
    at the needed versions, but for tombstones under which no chosen cell has a value."""
    by_key = defaultdict(list)
    for cell in cells:
        by_key[cell.key].append(cell)
    kept = []
    for key in sorted(by_key):
        best = [best_of(by_key[key], key, version) for version in (None, *needed)]
        chosen = sorted({it for it in best if it is not None}, key=Cell.rank)
        while chosen and chosen[0].value is None:
            chosen.pop(0)
        kept += chosen
    return kept


def filled(keys, limit):
    """Where rows of at most so many cells start, each filled before the next one starts and no key
    in two; none where a key has more cells than that."""
    starts = [0]
    while starts[-1] + limit < len(keys):
        start = bisect_left(keys, keys[starts[-1] + limit])
        if start <= starts[-1]:
            return None
        starts.append(start)
    return starts


def starts_of(kept):
    """Where the new rows start among the kept cells: the even cut, of the fewest rows and the
    shortest longest one."""
    keys = [it.key for it in kept]
    most = len(filled(keys, BUILT))
    cuts = (filled(keys, limit) for limit in range(BUILT + 1))
    return next(starts for starts in cuts if starts is not None and len(starts) <= most)
