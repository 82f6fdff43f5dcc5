#!/usr/bin/env bash
# Times the turn, the stage queue and a look that finds nothing. Run by hand; nothing is asserted, since times depend on the machine and on what else
# runs there.
#
# 1. Acts a second through a turn by 1, 2, 4 and 8 workers, each in a thread, beside the same steps under a mutex of the kit. A step of the turn is a
#    whole look of a worker; where it finds another at the machine it rests and looks again.
# 2. Items a second through the stage queue, by 1 and by 3 producers and one consumer.
# 3. What a look costs that finds the queue empty each time it tries, until it has no patience left.
#
# Each time is the best of five, less that of the same job without any work. The words: how many steps in all, and how many items (4,000,000 and 50,000
# where nothing is said).
set -euo pipefail
top=$(cd "$(dirname "${BASH_SOURCE[0]}")/.." && pwd)
crate=$top/crates/turn_cases
program=$crate/out/turn_cases
steps=${1:-4000000}
items=${2:-50000}
looks=2000

# Built anew where it isn't there or is older than its sources.
if [ ! -x "$program" ] || [ -n "$(find "$top"/crates/{turn_lock,stage_link,stage_workers,turn_cases}/src -newer "$program" -print -quit)" ]; then
  (cd "$crate" && rt run) >/dev/null 2>&1 || { echo "turn_cases was not built"; exit 1; }
fi

# Microseconds of the best of five runs.
best() { # best JOB WORKERS TIMES
  local least=0 begun spent
  for _ in 1 2 3 4 5; do
    begun=$(date +%s%N)
    "$program" "$@" >/dev/null
    spent=$((($(date +%s%N) - begun) / 1000))
    if [ "$least" = 0 ] || [ "$spent" -lt "$least" ]; then least=$spent; fi
  done
  echo "$least"
}

# How many a second of so many.
rate() { # rate JOB WORKERS ALL
  local spent
  spent=$(($(best "$1" "$2" $(($3 / $2))) - $(best "$1" "$2" 0)))
  if [ "$spent" -gt 0 ]; then echo $(($3 / $2 * $2 * 1000000 / spent)); else echo "too many to be timed"; fi
}

echo "processors: $(nproc)"
for workers in 1 2 4 8; do
  echo "steps a second by $workers: turn $(rate turn $workers "$steps"), mutex $(rate mutex $workers "$steps")"
done
for producers in 1 3; do
  echo "items a second by $producers and a consumer: $(rate queue $producers "$items")"
done
spent=$(($(best empty 1 $looks) - $(best empty 1 0)))
echo "a look that finds nothing: $((spent / looks)) microseconds"
