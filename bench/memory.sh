#!/usr/bin/env bash
# Makes each allocation of a run fail in turn, and prints how the run ends: the status, the number of answers and, with status 8, the
# command that wasn't answered, with the numbers of the allocations at which it ends so. With status 8 that must be a command that makes
# something, or the first one: a line begins with `wrong` where it isn't, or where the run ends with another status than 0 and 8, or with 0
# and not all answers; the status is then 1. By hand; needs a C compiler.
# usage: bench/memory.sh PROGRAM [SCRIPT..]; without scripts these are examples, of objects, areas, manual blocks, a cache and steps
set -eu
program=$1
shift
examples=$(dirname "$0")/../examples
[ $# -gt 0 ] || set -- "$examples"/{first,collect,heap,cache,steps}.mps
work=$(mktemp -d)
trap 'rm -rf "$work"' EXIT
cat > "$work/failing.c" <<'C'
#define _GNU_SOURCE
#include <dlfcn.h>
#include <stdio.h>
#include <stdlib.h>
static long count;
/* Whether this allocation is to fail; with FAIL=0 each writes a line. */
static int fails(void) {
  const char *which = getenv("FAIL");
  if (which && atol(which) == 0) fputs("allocation\n", stderr);
  return which && ++count == atol(which);
}
void *malloc(size_t n) { return fails() ? NULL : ((void *(*)(size_t))dlsym(RTLD_NEXT, "malloc"))(n); }
void *realloc(void *p, size_t n) { return fails() ? NULL : ((void *(*)(void *, size_t))dlsym(RTLD_NEXT, "realloc"))(p, n); }
C
cc -O1 -shared -fPIC -o "$work/failing.so" "$work/failing.c" -ldl
run() { FAIL=$1 LD_PRELOAD="$work/failing.so" "$program" run -o "$work/log" "$script" > "$work/printed" 2> "$work/reported"; }

# How the run of a script ends at each of its allocations.
endings() {
  grep -v '^ *\(#\|$\)' "$script" > "$work/commands"
  run 0 || true
  last=$(grep -c '^allocation$' "$work/reported")
  for n in $(seq 1 "$last"); do
    status=0
    run "$n" || status=$?
    answers=$(wc -l < "$work/printed")
    echo "$n $status $answers $(sed -n "$((answers + 1))p" "$work/commands")"
  done
}

wrong=0
for script in "$@"; do
  echo "$(basename "$script"):"
  endings | awk -v commands="$(grep -vc '^ *\(#\|$\)' "$script")" '
    function show() { print "  " right first " to " last ": " before }
    { ending = "status " $2 ", " $3 " answers" ($2 == 8 ? ", then " $4 : "")
      is_right = $2 == 0 ? $3 == commands : $2 == 8 && ($3 == 0 || $4 ~ /^(arena|chain|pool|table|area|blocks|ap|ld)$/)
      if (ending != before) { if (NR > 1) show(); first = $1; before = ending; right = is_right ? "" : "wrong " }
      if (!is_right) failed = 1
      last = $1 }
    END { show(); exit failed }' || wrong=1
done
exit "$wrong"
