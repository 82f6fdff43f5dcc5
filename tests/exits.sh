#!/usr/bin/env bash
# Runs the program, as each of the two compilers built it, into each of its exits that a script or a device can bring about, and
# compares the status, the line on standard error and what was written. (Status 10, memory refused: refused_memory.sh.)
set -u
top=$(cd "$(dirname "${BASH_SOURCE[0]}")/.." && pwd)
work=$(mktemp -d)
trap 'rm -rf "$work"' EXIT
passed=0
failed=0
usage='usage: fabric plain | sim | run | watch CLIENT | gen NUMBER'

# judge WHAT STATUS LINE REPORT: the last run had this status, this line on standard error and this output
judge() {
  if [ "$status" = "$2" ] && [ "$(cat "$work/error")" = "$3" ] && [ "$(cat "$work/report" 2>/dev/null)" = "$4" ]; then
    passed=$((passed + 1))
  else
    failed=$((failed + 1))
    echo "failed: $1 by $backend: status $status, line '$(cat "$work/error")', $(wc -c <"$work/report" 2>/dev/null) bytes written"
  fi
}

printf 'cluster 1\nclient 1\nrequest 0 put a 1\n' >"$work/script"
printf 'table 0\nend done\n' >"$work/empty_report"
head -c 1048576 /dev/zero | tr '\0' '\n' >"$work/longest"
head -c 1048577 /dev/zero | tr '\0' '\n' >"$work/too_long"

for backend in llvm rattle; do
  if ! program=$("$top/tests/program.sh" "$backend"); then
    failed=$((failed + 1))
    echo "failed: no program by $backend"
    continue
  fi

  : >"$work/report"
  "$program" plain <"$work/script" >"$work/report" 2>"$work/error"; status=$?
  judge 'all is done' 0 '' $'reply 0 1 wrote\ntable 1\nentry a 1\nend done'
  "$program" <"$work/script" >"$work/report" 2>"$work/error"; status=$?
  judge 'no word' 2 "$usage" ''
  "$program" plane <"$work/script" >"$work/report" 2>"$work/error"; status=$?
  judge 'an unknown word' 2 "$usage" ''
  "$program" plain x <"$work/script" >"$work/report" 2>"$work/error"; status=$?
  judge 'a word too many' 2 "$usage" ''
  "$program" plain <&- >"$work/report" 2>"$work/error"; status=$?
  judge 'a closed input' 3 'read fault' ''
  "$program" plain <"$work" >"$work/report" 2>"$work/error"; status=$?
  judge 'a folder as input' 3 'read fault' ''
  "$program" plain <"$work/too_long" >"$work/report" 2>"$work/error"; status=$?
  judge 'a byte too many' 5 'script too long' ''
  "$program" plain <"$work/longest" >"$work/report" 2>"$work/error"; status=$?
  judge 'the longest script' 0 '' "$(cat "$work/empty_report")"
  printf 'clutser 4\n' | "$program" plain >"$work/report" 2>"$work/error"; status=$?
  judge 'a bad line' 6 'script line 1: BadWord' ''
  printf 'cluster\t4\n' | "$program" plain >"$work/report" 2>"$work/error"; status=$?
  judge 'a tab' 6 'script line 1: BadWord' ''
  printf '\357\273\277cluster 4\n' | "$program" plain >"$work/report" 2>"$work/error"; status=$?
  judge 'a byte order mark' 6 'script line 1: BadWord' ''
  { printf 'cluster 1\nclient 1\n'; yes 'request 0 get a' | head -n 33; } | "$program" plain >"$work/report" 2>"$work/error"; status=$?
  judge 'the 33rd request' 6 'script line 35: TooMany' ''
  : >"$work/report"
  "$program" plain <"$work/script" >&- 2>"$work/error"; status=$?
  judge 'a closed output' 4 'write fault' ''
  "$program" plain <"$work/script" >/dev/full 2>"$work/error"; status=$?
  judge 'a full output' 4 'write fault' ''
done
echo "$passed passed, $failed failed"
[ "$failed" = 0 ] && [ "$passed" = 28 ]
