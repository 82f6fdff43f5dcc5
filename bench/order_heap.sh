#!/usr/bin/env bash
# Looks whether the ordering of a cluster keeps no more of a long run than of a short one. Run by hand.
#
# The program order_heap drives local_order alone, in a cluster of one, through 24 batches of one request, and then through 64 and 200. The
# window has 16 slots, and the low mark moves after each eighth round, so that all three runs go on from their third Checkpoint, or end at it.
# Counted by valgrind's dhat, which is the same in each run: the greatest heap, in bytes that the program asked for. Asserted: each run
# executes all its rounds, and its low mark moves up to the last one; the longer runs take at most 1 of 100 more than the first.
set -euo pipefail
top=$(cd "$(dirname "${BASH_SOURCE[0]}")/.." && pwd)
crate=$top/crates/order_heap
program=$crate/out/order_heap
source "$top/bench/checks.sh"

# Built anew where it isn't there or is older than its sources.
if [ ! -x "$program" ] || [ -n "$(find "$top"/crates/*/src -newer "$program" -print -quit)" ]; then
  (cd "$crate" && rt run) </dev/null >"$work/log" 2>&1 || { tail -n 20 "$work/log"; echo "order_heap was not built"; exit 1; }
fi

# Runs so many batches. Leaves the answer in $work/answer, and prints the greatest heap in bytes.
heap() { # heap BATCHES
  echo "$1" | valgrind --tool=dhat --dhat-out-file="$work/dhat" "$program" >"$work/answer" 2>"$work/log" || { cat "$work/log" >&2; exit 1; }
  awk '/At t-gmax:/ { gsub(",", ""); for (i = 1; i < NF; i++) if ($(i + 1) == "bytes") { print $i; exit } }' "$work/log"
}

least=
for batches in 24 64 200; do
  bytes=$(heap $batches)
  check "$(cat "$work/answer"), of $batches" "$([ "$(cat "$work/answer")" = "rounds $batches low $batches" ] && echo 1 || echo 0)"
  least=${least:-$bytes}
  check "$batches batches: at most $bytes bytes of heap, with 24 it was $least" \
    "$([ "${bytes:-0}" -gt 0 ] && [ $((100 * bytes)) -le $((101 * least)) ] && echo 1 || echo 0)"
done

finish
