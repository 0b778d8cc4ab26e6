#!/usr/bin/env bash
# What becomes of real files and streams where they fail: run by hand, over the built program or the one that is named.
# Each line of the output is one case, with `wrong` before it where it isn't as expected; the status is then 1.
program=$(readlink -f "${1:-$(dirname "$0")/../crates/mps_cli/out/mps_cli}")
example=$(readlink -f "$(dirname "$0")/../examples/first.mps")
work=$(mktemp -d)
trap 'rm -rf "$work"' EXIT
cd "$work" || exit 1
wrong=0

# Says whether a case is as expected: its name, what is expected and what was seen.
tell() {
  if [ "$2" = "$3" ]; then
    echo "right  $1: $3"
  else
    echo "wrong  $1: $3, expected $2"
    wrong=1
  fi
}

# The whole log and the answers, of a run in which nothing fails.
"$program" run -o whole "$example" >answers || exit 1

# Whether the file begins like the whole log, and its length.
log() {
  if [ ! -e "$1" ]; then
    echo "no log"
  elif cmp -s -n "$(stat -c %s "$1")" "$1" whole; then
    echo "log of $(stat -c %s "$1") bytes"
  else
    echo "another log"
  fi
}

same() { if cmp -s "$1" "$2"; then echo same; else echo changed; fi; }

# ---- a file that is the input

cp "$example" s
"$program" run -o s s >/dev/null 2>report
tell "run -o s s" "5 mps: log failed same" "$? $(cat report) $(same s "$example")"
"$program" run -o s <s >/dev/null 2>report
tell "run -o s < s" "5 mps: log failed same" "$? $(cat report) $(same s "$example")"
ln s link
"$program" run -o link s >/dev/null 2>report
tell "run -o LINK s" "5 mps: log failed same" "$? $(cat report) $(same s "$example")"
cp "$example" mpsio.log
"$program" run mpsio.log >/dev/null 2>report
tell "run mpsio.log" "5 mps: log failed same" "$? $(cat report) $(same mpsio.log "$example")"
"$program" run -o /dev/null </dev/null >/dev/null 2>report
tell "run -o /dev/null < /dev/null" "0 " "$? $(cat report)"

# ---- a directory

cp whole mpsio.log
"$program" run . >/dev/null 2>report
tell "run ." "3 mps: read failed same" "$? $(cat report) $(same mpsio.log whole)"
"$program" run <. >/dev/null 2>report
tell "run < ." "3 mps: read failed same" "$? $(cat report) $(same mpsio.log whole)"
"$program" run absent >/dev/null 2>report
tell "run absent" "3 mps: read failed same" "$? $(cat report) $(same mpsio.log whole)"
rm mpsio.log

# ---- a log that is the file of standard output or error

echo kept >kept
cp kept out
"$program" run -o out s >>out 2>report
tell "run -o OUT s >> OUT" "5 mps: log failed same" "$? $(cat report) $(same out kept)"
"$program" run -o /dev/stdout s >>out 2>report
tell "run -o /dev/stdout s >> OUT" "5 mps: log failed same" "$? $(cat report) $(same out kept)"
ln out outlink
"$program" run -o outlink s >>out 2>report
tell "run -o LINK s >> OUT" "5 mps: log failed same" "$? $(cat report) $(same out kept)"
"$program" run -o out s 2>>out >answered
tell "run -o ERR s 2>> ERR" "5 kept mps: log failed 0" "$? $(echo $(cat out)) $(stat -c %s answered)"
"$program" run -o /dev/stdout s 2>report | head -c 6 | od -An -c | tr -d ' \n' >first
tell "run -o /dev/stdout s | .." "MPSLOG" "$(cat first)"
rm out outlink

# ---- a log that can't be made leaves nothing

"$program" run -o absent/log s >out 2>report
tell "run -o ABSENT/log s" "5 mps: log failed absent" "$? $(cat report) $([ -e absent ] && echo there || echo absent)"
"$program" run -o new absent >out 2>report
tell "run -o NEW absent" "3 mps: read failed no log" "$? $(cat report) $(log new)"

# ---- a reader that is gone

{
  sleep 1
  "$program" run -o log s 2>report
  echo $? >ended
} | true
tell "run s | true" "4 mps: write failed log of 136 bytes" "$(cat ended) $(cat report) $(log log)"

# ---- devices that take nothing

yes live | timeout 20 "$program" run -o /dev/full >/dev/null 2>report
tell "yes live | run -o /dev/full" "5 mps: log failed" "${PIPESTATUS[1]} $(cat report)"
{ echo arena 8 8; yes live; } | timeout 20 "$program" run >/dev/full 2>report
tell "an arena and yes live | run > /dev/full" "4 mps: write failed" "${PIPESTATUS[1]} $(cat report)"
{ cat "$example"; head -c 5000 /dev/zero; } | "$program" run -o a >/dev/full 2>report
tell "a bad line, output full" "4 mps: write failed" "${PIPESTATUS[1]} $(cat report)"
{ cat "$example"; head -c 5000 /dev/zero; } | "$program" run -o a >out 2>/dev/full
tell "a bad line, reports full" "6 same log of 136 bytes" "${PIPESTATUS[1]} $(same out answers) $(log a)"
"$program" cnv -f whole >/dev/full 2>report
tell "cnv > /dev/full" "4 mps: write failed" "$? $(cat report)"
"$program" blocks -f whole >/dev/full 2>report
tell "blocks > /dev/full" "4 mps: write failed" "$? $(cat report)"
"$program" gen 1 1 >/dev/full 2>report
tell "gen > /dev/full" "4 mps: write failed" "$? $(cat report)"

# ---- standard streams that are closed, with a script file and without

streams() {
  local expected=$1 script=$2 closed=$3 status
  rm -f log out
  case $closed in
    none) "$program" run -o log $script <s >out 2>report ;;
    0) "$program" run -o log $script <&- >out 2>report ;;
    1) "$program" run -o log $script <s >&- 2>report ;;
    2) "$program" run -o log $script <s >out 2>&- ;;
    01) "$program" run -o log $script <&- >&- 2>report ;;
    02) "$program" run -o log $script <&- >out 2>&- ;;
    12) "$program" run -o log $script <s >&- 2>&- ;;
    012) "$program" run -o log $script <&- >&- 2>&- ;;
  esac
  status=$?
  tell "closed $closed, script ${script:--}" "$expected same" "$status $(log log) $(same s "$example")"
}
for closed in none 0 2 02; do streams "0 log of 136 bytes" s "$closed"; done
for closed in 1 01 12 012; do streams "4 log of 136 bytes" s "$closed"; done
for closed in none 2; do streams "0 log of 136 bytes" "" "$closed"; done
for closed in 1 12; do streams "4 log of 136 bytes" "" "$closed"; done
for closed in 0 01 02 012; do streams "3 no log" "" "$closed"; done

# ---- a call that a signal interrupts, where strace can say so

if command -v strace >/dev/null; then
  for call in read:s write:log; do
    rm -f log
    touch log
    strace -qq -o trace -P "$work/${call#*:}" -e "inject=${call%:*}:error=EINTR:when=1" "$program" run -o log s >out 2>report
    tell "an interrupted ${call%:*}" "0 same log of 136 bytes 1" "$? $(same out answers) $(log log) $(grep -c EINTR trace)"
  done
fi

# ---- a last line without a line feed on a terminal: the end of the input is asked for twice, to end the line and the input

if command -v python3 >/dev/null; then
  ended=$(timeout 20 python3 - "$program" <<'P'
import os, pty, sys, time
child, terminal = pty.fork()
if child == 0:
    os.execv(sys.argv[1], [sys.argv[1], 'run', '-o', 'log'])
time.sleep(0.5)
os.write(terminal, b'arena 8 8\x04')
time.sleep(0.5)
os.write(terminal, b'\x04')
time.sleep(0.5)
ended, status = os.waitpid(child, os.WNOHANG)
print('ended' if ended else 'waits')
P
  )
  tell "a terminal" "ended" "$ended"
fi

# ---- the script that proves and builds the program, with a stand-in for rt

mkdir -p home/bin home/crates/mps_cli home/crates/low/src
cp "$(dirname "$example")/../mps" home/
# The crate of tests is no part of the program.
printf 'low:\nmps_cli: low\nlow_tests: low\n' >home/crates.txt
touch home/crates/low/src/lib.rt
cat >home/bin/rt <<'R'
#!/usr/bin/env bash
# Says what rt says of two crates, as slowly as SLOW says; that BAD isn't proved.
if [ "$1" = all ]; then
  for crate in low mps_cli; do
    sleep "${SLOW:-0}"
    echo "crate $crate: modules loaded=0 checked=1"
    if [ "${BAD:-}" = "$crate" ]; then
      echo logic=not-proved
      exit 1
    fi
    echo 'logic=proved functions=1'
  done
  exit
fi
mkdir -p out
printf '#!/bin/sh\n[ $# = 0 ] && echo "mps: usage: run" && exit 2\necho "words: $*"\n' >out/mps_cli
chmod +x out/mps_cli
out/mps_cli
R
chmod +x home/bin/rt
kept_path=$PATH
PATH=$work/home/bin:$PATH
edit() { touch home/crates/low/src/lib.rt; }
tell "./mps, from nothing" "words: a b" "$(home/mps a b 2>lines)"
tell "its lines" "3" "$(grep -c '^mps: prov' lines)"
tell "its crates" "mps: proving 2 crates" "$(grep -o '^mps: proving .* crates' lines)"
tell "./mps again" "words: a 0" "$(home/mps a 2>lines) $(stat -c %s lines)"
tell "sh mps" "words: a" "$(cd home && sh mps a 2>&1)"
edit
tell "a crate that isn't proved" "70 mps: not all crates were proved" "$(BAD=low home/mps a 2>lines; echo "$? $(tail -n 1 lines)")"
SLOW=2 home/mps a >said 2>lines &
sleep 1
edit
wait $!
tell "an edit while proofs run" "words: a 3" "$(cat said) $(home/mps b 2>&1 >/dev/null | grep -c '^mps: prov')"
edit
SLOW=3 home/mps a >said 2>lines &
sleep 1
kill -9 "$(pgrep -f "$work/home/bin/rt")"
wait $!
tell "proofs that are killed" "70 mps: not all crates were proved" "$? $(tail -n 1 lines)"
SLOW=6 home/mps a >said 2>lines &
sleep 3
kill -TERM $!
wait $!
tell "./mps is ended" "130 0" "$? $(sleep 1; pgrep -fc "$work/home/bin/rt")"
tell "no folder for temporary files" "words: a" "$(TMPDIR=/absent home/mps a 2>lines)"
PATH=$kept_path
mv home/bin/rt home/bin/other
edit
tell "no rt" "70" "$(PATH=/usr/bin:/bin home/mps a 2>lines; echo $?)"
exit "$wrong"
