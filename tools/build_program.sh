# What the launchers `kiwi` and `kiwid` share: the build of a program, which proves it, and whether
# the one that is there is current.
#
# A launcher that reads this has set `top`, the top of the repository; `app`, the program's crate;
# `proved` and `proved_stamp`, the program and its stamp; `name`, its own name; and `trial` and
# `trial_status`, the words of a first run of the program and the status with which that ends. It
# sets `tools`, the folder of the toolchain's commands, before it calls anything here.
shares=$top/tools/gate_shares
# What a crate's command takes at most where nothing is to be done, in seconds: a crate that takes
# longer is told of.
silent=6

# Prints what tells this program and this toolchain from others; a line more where one of the files
# behind these is newer than the stamp.
state() {
  local program=$1 stamp=$2
  shift 2
  find -L "$program" "$tools"/rt "$tools"/rattle "$@" \
    \( -path "$program" -o -path "$tools/*" \) -printf '%f %i %s %T@\n' -o -newer "$stamp" -printf 'newer\n' -quit 2>/dev/null
}

is_current() {
  local made
  [ -x "$1" ] && [ -s "$2" ] || return 1
  read -r -d '' made <"$2"
  [ "$(state "$@")" = "$made" ]
}

# Writes the stamp of what a build made that began when the mark was made.
write_stamp() {
  local program=$1 stamp=$2 mark=$3
  state "$program" "$mark" >"$stamp.new" && touch -r "$mark" "$stamp.new" && mv "$stamp.new" "$stamp"
  rm -f "$mark"
}

# The crates that the program stands on, each behind those that it stands on itself; the program's
# own is the last.
crates_in_order() {
  awk -F: '
    function visit(crate, count, names, i) {
      if (crate in seen || !(crate in below)) return
      seen[crate] = 1
      count = split(below[crate], names, " ")
      for (i = 1; i <= count; i++) visit(names[i])
      print crate
    }
    /^#/ || NF < 2 { next }
    { split($1, words, " "); below[words[1]] = $2 }
    END { visit(app) }
  ' app="$app" "$top/crates.txt"
}

# Whether a library was built after its own files were last changed. That says nothing of those that
# it stands on, and proves nothing: the build of the program looks at all of them by their sums.
is_built() {
  local crate=$top/crates/$1
  local stamp=$crate/out/rlib/stamp
  [ -f "$stamp" ] && [ -z "$(find "$crate"/{src,specs,proofs} -newer "$stamp" -print -quit 2>/dev/null)" ]
}

# Reads into `usual` what the proof of each crate usually takes, in seconds of one processor.
read_shares() {
  declare -gA usual=()
  local crate proof _
  while read -r crate proof _; do
    [[ $crate = '#'* ]] || usual[$crate]=$proof
  done < <(cat "$shares" 2>/dev/null)
}

# Tells of a crate that is being proved: its number, the minutes gone, and how many are left if all
# goes on as it went. `work` is what the crates that were proved in this run usually take, and
# `spent` what they took; `left` is what this one and those behind it usually take.
tell() {
  local number=$1 count=$2 crate=$3 begun=$4 work=$5 spent=$6 left=$7 minutes
  minutes=$(((left * (work > 0 ? spent * 100 / work : 60) / 100 + 59) / 60))
  printf '%s: crate %d of %d, %s: %d minutes gone' "$name" "$number" "$count" "$crate" $(((SECONDS - begun) / 60))
  ((left > 0)) && printf ', about %d left' "$minutes"
  printf '\n'
}

# Proves and builds each crate in turn. The log stays where one fails.
build() {
  local crates crate log words wanted number=0 work=0 spent=0 left=0 stale= begun=$SECONDS start
  local mark=$proved_stamp.mark
  log=$(mktemp "${TMPDIR:-/tmp}/$name-build.XXXXXX") && mkdir -p "${proved%/*}" && : >"$mark" || exit 1
  teller=
  trap 'kill $teller 2>/dev/null; rm -f "$proved_stamp.mark"' EXIT
  trap 'exit 130' INT TERM
  mapfile -t crates < <(crates_in_order)
  read_shares
  for crate in "${crates[@]}"; do left=$((left + ${usual[$crate]:-0})); done
  for crate in "${crates[@]}"; do
    number=$((number + 1)) start=$SECONDS
    if [ -z "$stale" ] && [ "$crate" != "$app" ] && is_built "$crate"; then
      left=$((left - ${usual[$crate]:-0}))
      continue
    fi
    stale=yes
    # Nothing is said of a crate whose results are there. (The sleep holds none of the caller's
    # streams.)
    { sleep "$silent" </dev/null >/dev/null 2>&1 && tell "$number" "${#crates[@]}" "$crate" "$begun" "$work" "$spent" "$left" >&2; } &
    teller=$!
    disown
    words=(lib) wanted=0
    if [ "$crate" = "$app" ]; then
      words=(run "${trial[@]}") wanted=$trial_status
      # The toolchain has statuses of its own beside 0: the program must be there afterwards.
      ((wanted == 0)) || rm -f "$proved"
    fi
    (cd "$top/crates/$crate" && rt "${words[@]}" </dev/null) >>"$log" 2>&1
    if [ $? -ne "$wanted" ] || { [ "$crate" = "$app" ] && ! [ -x "$proved" ]; }; then
      tail -n 20 "$log" >&2
      echo "$name: crate $crate was not proved; the whole log is $log" >&2
      exit 1
    fi
    kill "$teller" 2>/dev/null
    teller=
    left=$((left - ${usual[$crate]:-0}))
    ((SECONDS - start > silent)) && work=$((work + ${usual[$crate]:-0})) spent=$((spent + SECONDS - start))
  done
  write_stamp "$proved" "$proved_stamp" "$mark"
  trap - EXIT INT TERM
  rm -f "$log"
}
