#!/usr/bin/env python3
"""Runs the built program short of memory, and checks that each run either does all or says that
memory was wanted.

  tools/refuse_memory.py                        the program that ./kiwi builds
  tools/refuse_memory.py --program 'COMMAND'    another program, with the same words

There is a run of each command. First each allocation of a run is refused in turn: a small library
that is loaded before the C library (made here by `cc`) counts the calls that ask for memory, and
gives nothing to the one whose number it was told. Then the run is made under limits of its address
space, from 1 MB up in 64 steps: some must be too low for it, and some high enough. A run that began
must end with status 0 and the whole output, or with status 6, nothing written, and `out of memory`
on standard error. Where the limit is so low that the system does not even start the program, no run
began, as that library sees; such limits are counted apart.

The program itself is run and not the launcher, whose own allocations would be refused too. It is no
part of the gate: what it tries depends on the C library. The last line says how many runs passed;
the status is 1 where one did not."""

import argparse
import os
import resource
import shlex
import subprocess
import sys
import tempfile
from collections import Counter, namedtuple
from pathlib import Path

from check_program import BLOCK, KEYS, POINTS, POINTS_TABLES, RECORD, SCRIPTS, THREE
from kiwi_map import KIWI

PROGRAM = KIWI.parent / "crates" / "kw_program" / "out" / "kw_program"
KILOBYTE, MEGABYTE = 1 << 10, 1 << 20
STEPS = 64

# A `long` of C: in the file that the library shares with us the first one is how many calls there
# were, and the second one is not 0 where the program began.
LONG = 8

# A run, and how far apart the limits of its address space are: a map of all rows takes much more
# than a script or a record does.
Run = namedtuple("Run", "words given printed step", defaults=(128 * KILOBYTE,))

# A script in which a put finds its row full and replaces it.
FULL = "a_put_that_finds_its_row_full_replaces_it"

# The first lines of `replay` are few, which one thread answers for all workers, and then a list,
# whose pairs take memory while they are gathered. The others are many: threads read, answer and
# print them beside each other, so another one is refused from run to run.
RUNS = (
    Run("replay --workers 4", BLOCK, 24 * b"ok\n" + b"516\n24\n100=10 101=11\n", 4 * MEGABYTE),
    Run("replay --workers 16", KEYS, 20000 * b"ok\n" + b"200010000\n20000\n1\n", 16 * MEGABYTE),
    Run("gen 1 3", b"", THREE, 4 * MEGABYTE),
    Run("rollup --bucket 10 --workers 2", POINTS, POINTS_TABLES, 4 * MEGABYTE),
    Run("simulate", (SCRIPTS / "given" / FULL).read_bytes(), (SCRIPTS / "printed" / FULL).read_bytes()),
    Run("simulate --record", (SCRIPTS / "given" / FULL).read_bytes(), (SCRIPTS / "recorded" / FULL).read_bytes()),
    Run("judge", RECORD, b"yes\n"),
)

WANTED = (6, b"", b"out of memory\n")

LIBRARY = r"""
#define _GNU_SOURCE
#include <errno.h>
#include <fcntl.h>
#include <stdatomic.h>
#include <stdlib.h>
#include <sys/mman.h>
#include <unistd.h>

/* The number of calls so far stands in a file, so that it is there however the program ends. */
static atomic_long *calls;
static long refused = -1;

/* The calls before this are the loader's, and are neither counted nor refused. That the program
   began is told first, which takes no memory. */
__attribute__((constructor)) static void begin(void) {
  const char *number = getenv("REFUSE_CALL"), *path = getenv("REFUSE_COUNT");
  int file = path ? open(path, O_RDWR) : -1;
  long began = 1;
  if (file < 0 || pwrite(file, &began, sizeof began, sizeof *calls) < 0) return;
  void *count = mmap(NULL, sizeof *calls, PROT_READ | PROT_WRITE, MAP_SHARED, file, 0);
  close(file);
  if (count == MAP_FAILED) return;
  refused = number ? atol(number) : -1;
  calls = count;
}

static int is_refused(void) {
  if (!calls || atomic_fetch_add(calls, 1) + 1 != refused) return 0;
  errno = ENOMEM;
  return 1;
}

extern void *__libc_malloc(size_t);
extern void *__libc_calloc(size_t, size_t);
extern void *__libc_realloc(void *, size_t);
extern void *__libc_memalign(size_t, size_t);

void *malloc(size_t size) { return is_refused() ? NULL : __libc_malloc(size); }
void *calloc(size_t count, size_t size) { return is_refused() ? NULL : __libc_calloc(count, size); }
void *realloc(void *old, size_t size) { return is_refused() ? NULL : __libc_realloc(old, size); }
void *memalign(size_t align, size_t size) { return is_refused() ? NULL : __libc_memalign(align, size); }
void *aligned_alloc(size_t align, size_t size) { return is_refused() ? NULL : __libc_memalign(align, size); }
int posix_memalign(void **out, size_t align, size_t size) {
  if (is_refused()) return ENOMEM;
  *out = __libc_memalign(align, size);
  return *out ? 0 : ENOMEM;
}
"""


class Trial:
    """A program whose runs have the library loaded."""

    def __init__(self, program, folder):
        source, library, self.count = (Path(folder) / name for name in ("refuse.c", "refuse.so", "count"))
        source.write_text(LIBRARY, encoding="utf-8")
        subprocess.run(["cc", "-shared", "-fPIC", "-O1", "-o", library, source], check=True)
        self.program = program
        self.loaded = {"LD_PRELOAD": str(library), "REFUSE_COUNT": str(self.count)}

    def end(self, run, refused=None, limit=None):
        """What a run ends with, writes and says, where this allocation is refused, or its address
        space has so many bytes."""

        def narrow():
            resource.setrlimit(resource.RLIMIT_AS, (limit, limit))

        self.count.write_bytes(bytes(2 * LONG))
        done = subprocess.run(
            self.program + run.words.split(),
            input=run.given,
            capture_output=True,
            env={**os.environ, **self.loaded, **({"REFUSE_CALL": str(refused)} if refused else {})},
            preexec_fn=narrow if limit else None,
            check=False,
            timeout=60,
        )
        return done.returncode, done.stdout, done.stderr

    def told(self, place):
        """A number that the library wrote in the last run."""
        return int.from_bytes(self.count.read_bytes()[place * LONG :][:LONG], sys.byteorder)

    def began(self):
        return self.told(1) != 0


def refusals(trial, run):
    """The ends of a run of which each allocation is refused in turn."""
    if trial.end(run) != (0, run.printed, b""):
        sys.exit(f"`{run.words}` with no allocation refused does not print what is expected")
    calls = trial.told(0)
    if calls == 0:
        sys.exit("no allocation was seen: the program does not ask the C library for memory")
    for call in range(1, calls + 1):
        yield f"with allocation {call} of {calls} refused", trial.end(run, refused=call)


def spaces(trial, run):
    """The ends of a run in a narrow address space."""
    for limit in range(MEGABYTE, MEGABYTE + STEPS * run.step, run.step):
        yield f"in {limit // KILOBYTE} KB", trial.end(run, limit=limit)


def kind_of(trial, run, end):
    """How a run ended, or None where it must not end so."""
    if end == (0, run.printed, b""):
        return "all done"
    if end == WANTED:
        return "out of memory"
    # (the loader says that it does not start the program, or the process is killed)
    status, written, _ = end
    return "not started" if not trial.began() and written == b"" and (status < 0 or status == 127) else None


def tried(trial, run, what, ends, needed=()):
    """How many runs of a kind passed and how many failed, with a line of what they came to. There
    must be some of each kind that is needed."""
    kinds = Counter()
    for name, end in ends:
        kind = kind_of(trial, run, end)
        kinds[kind] += 1
        if kind is None:
            print(f"`{run.words}` {name}: {end}")
    failed = kinds.pop(None, 0) + sum(kind not in kinds for kind in needed)
    print(f"`{run.words}`, {what}: " + ", ".join(f"{count} {kind}" for kind, count in sorted(kinds.items())))
    return Counter(passed=kinds.total(), failed=failed)


def main():
    plain = argparse.RawDescriptionHelpFormatter
    options = argparse.ArgumentParser(description=__doc__, formatter_class=plain)
    options.add_argument("--program", help="the command that is run, if not the program of ./kiwi")
    program = options.parse_args().program
    if not program:
        subprocess.run([KIWI, "build"], check=True)
    total = Counter()
    with tempfile.TemporaryDirectory() as folder:
        trial = Trial(shlex.split(program) if program else [str(PROGRAM)], folder)
        for run in RUNS:
            total += tried(trial, run, "each allocation refused", refusals(trial, run), ["out of memory"])
            total += tried(trial, run, "in narrow address spaces", spaces(trial, run), ["out of memory", "all done"])
    print(f"{total['passed']} runs passed, {total['failed']} failed")
    return 1 if total["failed"] else 0


if __name__ == "__main__":
    sys.exit(main())
