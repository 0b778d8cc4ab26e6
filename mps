#!/usr/bin/env bash
# Runs the program `mps` with your words, folder and streams. Where the proved program is missing or older than its
# sources, its crates are proved and it is built first: several crates at a time, with a line on standard error for each.
# The crates of tests and of examples are no part of it, and the gate proves them.
[ -n "${BASH_VERSION:-}" ] || exec bash "$0" "$@"
home=$(dirname "$(readlink -f "$0")")
crate=$home/crates/mps_cli
program=$crate/out/mps_cli

# What a proof of one crate may take, in MB.
memory_of_a_proof=3000

is_current() {
  [ -x "$program" ] || return 1
  [ -z "$(find "$home/crates.txt" "$home/crates" \( -name out -o -name must-fail \) -prune -o \
    \( -name '*.rt' -o -name '*.antt' -o -name crates.txt \) -newer "$program" -print -quit)" ]
}

give_up() {
  echo "mps: $1" >&2
  exit 70
}

proofs_at_once() {
  local processors memory most
  processors=$(nproc)
  memory=$(awk '/^MemAvailable/ { print int($2 / 1024) }' /proc/meminfo 2>/dev/null)
  most=$((${memory:-$memory_of_a_proof} / memory_of_a_proof))
  if [ "$most" -gt "$processors" ]; then most=$processors; fi
  if [ "$most" -lt 1 ]; then most=1; fi
  echo "$most"
}

# The program's crate and those that it uses, one a line, by the lines of crates.txt.
crates_of_program() {
  awk -v top="${crate##*/}" '
    /^[a-z]/ { name = $1; sub(/:$/, "", name); $1 = ""; uses[name] = $0 }
    END {
      want[1] = top
      for (i = n = 1; i <= n; i++) {
        if (want[i] in uses) print want[i]
        count = split(uses[want[i]], names, " ")
        for (j = 1; j <= count; j++)
          if (!(names[j] in seen)) { seen[names[j]]; want[++n] = names[j] }
      }
    }' "$home/crates.txt"
}

# Proves the crates of the program, and then says with which status that ended.
check_all() {
  cd "$crate" && rt all check --jobs "$1" 2>&1 </dev/null
  echo "status=$?"
}

# Reads what is said of the proofs: a line for each crate that is proved, and all that was said of one that is not.
# The status is 0 only where the proofs ended, and well.
follow() {
  local line name said='' ended=''
  while IFS= read -r line; do
    case $line in
      'crate '*) name=${line#crate } ;;
      logic=proved*)
        echo "mps: proved ${name%%:*}, $((left -= 1)) left" >&2
        said=''
        continue
        ;;
      status=*) ended=${line#status=} ;;
    esac
    said+=$line$'\n'
  done
  [ "$ended" = 0 ] && return
  printf '%s' "$said" >&2
  return 1
}

end_proofs() {
  local group
  for group in $(jobs -p); do
    kill -- "-$group" 2>/dev/null
  done
}

build() {
  local output most proofs begun left
  command -v rt >/dev/null || give_up "the command rt, which proves and builds the program, was not found"
  most=$(proofs_at_once)
  left=$(crates_of_program | wc -l)
  # What is edited from now on is newer than the program.
  begun=$(date +%s.%N)
  echo "mps: proving $left crates, up to $most at a time" >&2
  # The proofs are a process group of their own, so that they can be ended.
  set -m
  trap 'end_proofs; exit 130' INT TERM
  check_all "$most" | follow &
  proofs=$(jobs -p %%)
  if ! wait %%; then
    kill -- "-$proofs" 2>/dev/null
    give_up "not all crates were proved"
  fi
  set +m
  trap - INT TERM
  # Without words the new program answers its usage, which tells that it was built.
  output=$(cd "$crate" && rt run --jobs "$most" 2>&1 </dev/null)
  case $output in
    *'mps: usage:'*) ;;
    *)
      printf '%s\n' "$output" >&2
      give_up "the program was not built"
      ;;
  esac
  touch -d "@$begun" "$program" || give_up "the program can't be marked as built"
}

is_current || build
exec "$program" "$@"
