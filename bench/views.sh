#!/usr/bin/env bash
# What a view change costs at a full window: four replicas with sixteen puts in batches of one, in a window of sixteen slots, once as it is and once
# with a timeout for each after 800 entries, when every slot is prepared and none is committed by all. Each ViewChange has then sixteen certificates,
# each of a quorum's three Prepares and a batch with its request: 16 (q + B) signatures, and the NewView has a quorum of such. Run by hand.
#
# Counted with valgrind's callgrind, keys left out. Asserted: both runs end done, and the view change takes at most four times what the run takes
# without it.
set -euo pipefail
top=$(cd "$(dirname "${BASH_SOURCE[0]}")/.." && pwd)
command -v valgrind >/dev/null || { echo "views.sh: there is no valgrind"; exit 1; }
program=$("$top/tests/program.sh" llvm)
source "$top/bench/checks.sh"

settings() { printf '%s\n' 'cluster 4' 'client 1' 'batch 1' 'interval 16' 'seed 1'; }
requests() { for i in {0..15}; do echo "request 0 put k$i $i"; done; }
timeouts() { for i in {0..3}; do echo "timeout 1.$i 800"; done; }

settings >"$work/keys"
{ settings; requests; } >"$work/plain"
{ settings; timeouts; requests; } >"$work/views"

# count SCRIPT: all instructions of its run.
count() {
  valgrind --tool=callgrind --callgrind-out-file="$work/out" "$program" sim <"$1" >"$work/report" 2>"$work/log" || true
  awk '/^(summary|totals):/ { print $2; exit }' "$work/out"
}

of_keys=$(count "$work/keys")
of_plain=$(($(count "$work/plain") - of_keys))
check "the run without a view change: $(tail -n 1 "$work/report")" "$([ "$(tail -n 1 "$work/report")" = 'end done' ] && echo 1 || echo 0)"
of_views=$(($(count "$work/views") - of_keys))
check "the run with one: $(tail -n 1 "$work/report")" "$([ "$(tail -n 1 "$work/report")" = 'end done' ] && echo 1 || echo 0)"
check "$of_views instructions with a view change, $of_plain without it: $((of_views - of_plain)) for it, at most 4 times $of_plain" \
  "$([ $((of_views - of_plain)) -le $((4 * of_plain)) ] && echo 1 || echo 0)"
finish
