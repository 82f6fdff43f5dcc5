#!/usr/bin/env bash
# Counts what events cost a replica in view 0. Run by hand.
#
# Counted with valgrind's callgrind, which is the same in each run: instructions inside `step` of replica_core alone, and how often memory is
# taken by the whole program. The events are fed by core_cases.
#
# 1. One replica of a cluster of ten hears all that there is to hear of 16 slots with batches of 8: 128 requests, 16 proposals, and the
#    Prepares and Commits of all ten. A replica of another cluster hears the same, which is stray for it. Asserted: the first takes memory
#    so many times more than the second that it may have made two copies of each of these messages, and no more.
# 2. A cluster of ten orders and executes 64 requests, and then 128, in batches of 8, with a Checkpoint after each eighth round. Asserted: an
#    event of the second half costs within 5 of 100 what one of the first half costs, so nothing is paid for the length of the journal.
set -euo pipefail
top=$(cd "$(dirname "${BASH_SOURCE[0]}")/.." && pwd)
crate=$top/crates/core_cases
program=$crate/out/core_cases
source "$top/bench/checks.sh"

# Built anew where it isn't there or is older than its sources.
if [ ! -x "$program" ] || [ -n "$(find "$top"/crates/*/src -newer "$program" -print -quit)" ]; then
  (cd "$crate" && rt run) </dev/null >"$work/log" 2>&1 || { tail -n 20 "$work/log"; echo "core_cases was not built"; exit 1; }
fi

clients="1,1,1,1,1,1,1,1"

# The requests of a round: one of each of eight clients.
requests() { # requests ROUND
  local client
  for client in 0 1 2 3 4 5 6 7; do echo "request $client $1 put k$client v$1"; done
}

# The names of a round's requests, as a batch.
batch() { # batch ROUND
  local names
  names=$(for client in 0 1 2 3 4 5 6 7; do printf '%s.%s,' "$client" "$1"; done)
  echo "${names%,}"
}

# All that there is to hear of so many slots of cluster 1, heard by a replica.
hearings() { # hearings SLOTS REPLICA
  local slot client member
  echo "fabric 10,1 $clients 16 8"
  for slot in $(seq "$1"); do
    requests "$slot"
    for client in 0 1 2 3 4 5 6 7; do echo "hear $2 request $client.$slot"; done
    echo "hear $2 preprepare 1.0 0 $slot $(batch "$slot")"
    for member in 0 1 2 3 4 5 6 7 8 9; do echo "hear $2 prepare 1.$member 0 $slot $(batch "$slot")"; done
    for member in 0 1 2 3 4 5 6 7 8 9; do echo "hear $2 commit 1.$member 0 $slot $(batch "$slot")"; done
  done
}

# All events of a cluster, so many rounds one after another.
rounds() { # rounds ROUNDS
  local round client
  echo "fabric 10 $clients 16 8"
  for round in $(seq "$1"); do
    requests "$round"
    for client in 0 1 2 3 4 5 6 7; do echo "send $client.$round"; done
    echo "settle first"
  done
}

# Runs the cases of standard input. Leaves the answers in $work/NAME.answers, and callgrind's output in $work/NAME.
count() { # count NAME [OPTION]
  local name=$1
  shift
  cat >"$work/cases"
  valgrind --tool=callgrind --compress-strings=no --compress-pos=no --callgrind-out-file="$work/$name" "$@" \
    "$program" <"$work/cases" >"$work/$name.answers" 2>"$work/log" || { cat "$work/log"; exit 1; }
}

# All instructions that were counted.
instructions() { # instructions NAME
  awk '/^(summary|totals):/ { print $2; exit }' "$work/$1"
}

# How often memory was taken.
allocations() { # allocations NAME
  awk '/^cfn=/ { is = substr($0, 5) ~ /^rattle_(alloc|realloc)$/ } /^calls=/ && is { split($0, part, /[= ]/); sum += part[2] }
    END { print sum + 0 }' "$work/$1"
}

inside=--toggle-collect=replica_core::replica::Core::step

# 1. A copy of a request takes memory twice (key, value); of a proposal, for its list, its requests and its signature; of a vote, once.
hearings 16 1.9 | count member
hearings 16 2.0 | count stranger
heard=$(grep -c 'Heard(Taken)$' "$work/member.answers")
check "$heard messages were taken, of 128 requests, 16 proposals and 320 votes" "$([ "$heard" = 464 ] && echo 1 || echo 0)"
strays=$(grep -c 'Heard(Stray)$' "$work/stranger.answers")
check "$strays were stray for the other" "$([ "$strays" = 464 ] && echo 1 || echo 0)"
one_copy=$((128 * 2 + 16 * (1 + 8 * 2 + 1) + 320))
taken=$(($(allocations member) - $(allocations stranger)))
check "memory was taken $taken times more; a copy of each message takes it $one_copy times: $(awk "BEGIN { printf \"%.2f\", $taken / $one_copy }") copies, at most two" \
  "$([ "$taken" -gt 0 ] && [ "$taken" -le $((2 * one_copy)) ] && echo 1 || echo 0)"
hearings 16 1.9 | count hearings "$inside"
echo "a hearing: $(($(instructions hearings) / heard)) instructions"

# 2. Each round: ten hear eight requests, a proposal, ten Prepares and ten Commits; the primary proposes; it sends a proposal, and each a
# Prepare, a Commit and a note; each executes. For a Checkpoint each says one, sends it, hears ten and moves its low mark.
for many in 8 16; do
  rounds "$many" | count "rounds$many" "$inside"
  events=$(awk '/^settle first => [0-9]+ events$/ { sum += $4 } END { print sum + 0 }' "$work/rounds$many.answers")
  check "$events events in $many rounds, of 332 in each and 130 for each Checkpoint" \
    "$([ "$events" = $((332 * many + 130 * (many / 8))) ] && echo 1 || echo 0)"
done
half=$(instructions rounds8)
whole=$(instructions rounds16)
growth=$(awk "BEGIN { printf \"%.2f\", $half ? 100 * ($whole - 2 * $half) / $half : 100 }")
check "an event: $((half / (8 * 332 + 130))) instructions in the first half, and $growth of 100 more in the second" \
  "$(awk "BEGIN { print ($half > 0 && $growth <= 5) }")"

finish
