#!/usr/bin/env bash
# Takes all figures of docs/PERFORMANCE.md in one go, on the machine that it runs on, and writes
# them there.
#
#   tools/measure.sh
#       proves and builds the programs where that is not done, and measures
#   tools/measure.sh --rounds 1 --calls 20000 --bytes 1000000
#       with fewer rounds, calls of a kind and bytes of lines; fewer calls than 1,500,000 do not
#       fill each map, so some figures are then missing
#   tools/measure.sh --kiwi C --bench C --to F
#       other commands in the place of the programs, and another folder for what is written
#
# Stop all else first; a round takes two to four minutes. In each every program runs once, ours and
# those of plain Rust in turn, so that what the machine does besides meets all of them; the figures
# are medians over the rounds. It needs the commands rt, rustc and python3. tools/plot_measures.py
# then writes the data (measures.csv), the pictures and the tables.
set -euo pipefail
top=$(cd "$(dirname "$(readlink -f "$0")")/.." && pwd)
rounds=5 calls=2000000 bytes=16777216 kiwi= bench= to=$top/docs/figures
while [ $# -gt 0 ]; do
  case "$1" in
    --rounds) rounds=$2 ;;
    --calls) calls=$2 ;;
    --bytes) bytes=$2 ;;
    --kiwi) kiwi=$2 ;;
    --bench) bench=$2 ;;
    --to) to=$2 ;;
    *)
      sed -n '2,12p' "$0" | sed 's/^# \{0,1\}//' >&2
      exit 2
      ;;
  esac
  shift 2
done
for command in rustc python3; do
  command -v "$command" >/dev/null || {
    echo "measure: the command $command is not on the path" >&2
    exit 127
  }
done

room=$(mktemp -d "${TMPDIR:-/tmp}/kiwi-measure.XXXXXX")
trap 'rm -rf "$room"' EXIT
for name in std_maps native_row replay_base; do
  rustc -O --edition 2021 -o "$room/$name" "$top/tools/$name.rs"
done
if [ -z "$kiwi" ]; then
  "$top/kiwi" build
  kiwi=$top/kiwi
fi
if [ -z "$bench" ]; then
  (cd "$top/crates/kw_bench" && rt run </dev/null >/dev/null)
  bench=$top/crates/kw_bench/out/kw_bench
fi

# What the figures belong to, a line each.
{
  echo "date: $(date -u '+%Y-%m-%d %H:%M') UTC"
  echo "machine: $(nproc) processors, $(sed -n 's/^model name[^:]*: //p' /proc/cpuinfo | head -n 1)"
  echo "build: $(git -C "$top" rev-parse --short HEAD 2>/dev/null || echo unknown)$(git -C "$top" diff --quiet HEAD -- crates 2>/dev/null || echo ', and changes')"
  echo "toolchain: $(rt version </dev/null 2>/dev/null || echo unknown)"
  echo "compared with: $(rustc --version)"
  echo "rounds: $rounds"
  echo "calls of a kind: $calls"
  echo "bytes of lines: $bytes"
} >"$room/about"

# The memory that ./kiwi asks for, for all programs alike.
large=4194304
kept=4294967296
export GLIBC_TUNABLES="glibc.malloc.hugetlb=1:glibc.malloc.mmap_threshold=$large:glibc.malloc.trim_threshold=$kept"

# Lines that take as many bytes as they may, with so many sums in 100; the last one is whole.
for percent in 0 1 10; do
  "$room/std_maps" input "$percent" >"$room/whole"
  head -c "$bytes" "$room/whole" | sed '$d' >"$room/input.$percent"
done

# Runs a command on an input, keeps what it prints, and notes the milliseconds that it took.
timed() {
  local round=$1 program=$2 percent=$3 start end
  shift 3
  start=${EPOCHREALTIME/[.,]/}
  "$@" <"$room/input.$percent" >"$room/printed.$program"
  end=${EPOCHREALTIME/[.,]/}
  echo "$round $program $percent $(((end - start) / 1000))" >>"$room/replay"
}

for ((round = 1; round <= rounds; round++)); do
  echo "measure: round $round of $rounds" >&2
  # shellcheck disable=SC2086
  $bench "$calls" >"$room/kiwi.$round"
  "$room/native_row" "$calls" >"$room/native.$round"
  "$room/std_maps" calls "$calls" >"$room/std.$round"
  for percent in 0 1 10; do
    timed "$round" std "$percent" "$room/replay_base"
    # shellcheck disable=SC2086
    timed "$round" 1 "$percent" $kiwi replay
    cmp "$room/printed.std" "$room/printed.1"
    for workers in 2 4; do
      # shellcheck disable=SC2086
      timed "$round" "$workers" "$percent" $kiwi replay --workers "$workers"
    done
  done
done
python3 "$top/tools/plot_measures.py" "$room" "$to"
