#!/usr/bin/env bash
# Counts and times `sim` of one cluster: 4, 7 and 10 replicas, each with 16, 64 and 128 puts of eight clients in batches of 8, and 4 replicas
# with 200 puts in batches of one, where the window moves. Keys have height 5, and 10 from 128 puts on. Run by hand.
#
#   bench/sim.sh       counts instructions of the runs with keys of height 5, and times all
#   bench/sim.sh all   counts all, which takes minutes for each key of height 10
#
# Keys are made in front of a run, so their making is left out: the same script without its requests is measured and taken off. What a run
# has to do follows from its script and its report, in which every replica has sent its note of every block, so that nothing was left
# unsent or unheard. With n replicas, q requests, r rounds and c checkpoints, one every eight rounds,
#   entries    n q hearings of requests; in each round the proposal, its sending and n hearings; 2 n votes sent, 2 n n heard; n executions
#              and n notes sent: n q + r (2 n n + 5 n + 2); for a checkpoint n votes, n sent, n n heard and at most n moves: c (n n + 3 n)
#   messages   n q requests, n r proposals with the batch inside, 2 n n r votes, n n c Checkpoints; their bytes are those of docs/format.md
#   signing    each request, proposal, vote, Checkpoint and note once; each part of a heard message is verified once, a proposal's requests too
#   batches    a replica hashes each batch when it hears of it, for the chain and for its note: 3 n r; to find out how the run ended and for the
#              report the journals are replayed, once more that of the longest ledger: 3 n r + 3 (n + 1) r; the audit looks at each proposal
#              heard, the report at each block: n r + r. In all r (10 n + 4)
# What signatures need is counted in SHA-256's blocks, as bench/lms.sh counts them, for the mean sum of a signature's digits: of 67 digits
# 499, with a spread of 39. Steps of chains are made four at a time, and each counts as four blocks, though a lane may stand idle; where keys
# are made, so are the blocks of leaves' public keys.
#
# Counted with valgrind's callgrind, which is the same in each run. Times are processor time, the least of five runs, and are told, not asserted:
# they differ from run to run by more than what is to be seen. Memory is the greatest resident size. Asserted:
# 1. at least 90 of 100 instructions are inside SHA-256's block function, the steps of four chains and the blocks of four public keys;
# 2. blocks are no less than signatures and the digests of batches need by 3 of 100, and no more by 8;
# 3. memory beyond that of the empty script is at most 6 times the bytes of the messages heard;
# 4. for a byte heard, a run takes at most 1.05 times the instructions and 1.25 times the memory that the next smaller run takes, of fewer
#    requests and of fewer replicas.
set -euo pipefail
top=$(cd "$(dirname "${BASH_SOURCE[0]}")/.." && pwd)
for tool in valgrind callgrind_annotate /usr/bin/time; do
  command -v "$tool" >/dev/null || { echo "sim.sh: there is no $tool"; exit 1; }
done
program=$("$top/tests/program.sh" llvm)
source "$top/bench/checks.sh"
which=${1:-}

# holds CONDITION: 1 or 0, of a condition in awk's words
holds() { awk "BEGIN { print ($1) ? 1 : 0 }"; }
# number FORMAT EXPRESSION: what it comes to; a quotient by 0 is none
number() { awk "BEGIN { printf \"$1\", $2 }" 2>/dev/null || echo none; }

# The script of so many replicas and requests; without its requests it makes the same keys.
script() { # script REPLICAS REQUESTS HEIGHT BATCH
  local client stamp
  printf 'cluster %d\nbatch %d\nheight %d\n' "$1" "$4" "$3"
  for client in 0 1 2 3 4 5 6 7; do echo "client 1"; done
  for stamp in $(seq $(($2 / 8))); do
    for client in 0 1 2 3 4 5 6 7; do printf 'request %d put k%d v%02d\n' $client $client "$stamp"; done
  done
}

# Prints entries, bytes of the messages heard, blocks of signatures, blocks of batches, and blocks of keys.
needs() { # needs REPLICAS REQUESTS HEIGHT ROUNDS BATCH
  awk -v n="$1" -v q="$2" -v h="$3" -v r="$4" -v b="$5" '
    function blocks(bytes) { return int((bytes + 9 + 63) / 64) }
    function sealed(content, height) { return content + 2 + 12 + 32 * 68 + 32 * height }
    # the randomizer, the message, the starts of the chains, and the steps to the digits
    function sign(content) { return 2 + blocks(54 + content) + 67 + digits }
    # the message, the steps that are left, the public key, the leaf and the path
    function verify(content, height) { return blocks(54 + content) + 67 * 15 - digits + 34 + 1 + 2 * height }
    function key(height) { return 2 ^ height * (67 * 16 + 34 + 1) + (2 ^ height - 1) * 2 }
    BEGIN {
      digits = 499
      c = int(r / 8)
      # the contents that are signed: format and tag; client and stamp, signer and round, or signer, view and slot; and the rest
      request = 2 + 5 + 8
      batch = 1 + b * (sealed(request, 5) - 1)
      proposal = 2 + 18 + batch
      vote = 2 + 18 + 32
      checkpoint = 2 + 10 + 32
      note = 2 + 10 + 32 + 1 + b * 6
      entries = n * q + r * (2 * n * n + 5 * n + 2) + c * (n * n + 3 * n)
      bytes = n * q * sealed(request, 5) + n * r * sealed(proposal, h) + 2 * n * n * r * sealed(vote, h) + n * n * c * sealed(checkpoint, h)
      signed = q * sign(request) + r * (sign(proposal) + 2 * n * sign(vote) + n * sign(note)) + c * n * sign(checkpoint)
      verified = (n * q + b * n * r) * verify(request, 5) + n * r * verify(proposal, h) + 2 * n * n * r * verify(vote, h) + n * n * c * verify(checkpoint, h)
      print entries, bytes, signed + verified, (10 * n + 4) * r * blocks(batch), n * key(h) + 8 * key(5)
    }'
}

# The processor time of a run in seconds, the least of five.
seconds() { # seconds SCRIPT
  local times
  TIMEFORMAT='%3U %3S'
  times=$(for _ in 1 2 3 4 5; do { time "$program" sim <"$1" >/dev/null; } 2>&1; done)
  awk 'NF == 2 && (best == "" || $1 + $2 < best) { best = $1 + $2 } END { print best }' <<<"$times"
}

# The greatest resident size of a run in bytes: the greatest of three runs, or the least.
resident() { # resident SCRIPT greatest|least
  for _ in 1 2 3; do
    /usr/bin/time -o "$work/resident" -f %M "$program" sim <"$1" >/dev/null
    tail -n 1 "$work/resident"
  done | sort -n | if [ "$2" = least ]; then head -n 1; else tail -n 1; fi | awk '{ print 1024 * $1 }'
}

# Prints the blocks that are hashed, the instructions inside the block function, the steps of four chains and the blocks of four public keys,
# and all instructions.
count() { # count SCRIPT
  valgrind --tool=callgrind --compress-strings=no --compress-pos=no --callgrind-out-file="$work/out" \
    "$program" sim <"$1" >/dev/null 2>"$work/log" || { cat "$work/log" >&2; exit 1; }
  local calls inside all
  calls=$(awk '/^cfn=/ { blocks = /block256::compress/ ? 1 : /steps::step(4|_leaves)|states::absorb4/ ? 4 : 0 }
    /^calls=/ && blocks { split($0, part, /[= ]/); sum += blocks * part[2] } END { print sum + 0 }' "$work/out")
  inside=$(callgrind_annotate "$work/out" | awk '/block256::compress|steps::step4|steps::step_leaves|states::absorb4/ { gsub(",", "", $1); sum += $1 } END { print sum + 0 }')
  all=$(awk '/^(summary|totals):/ { print $2; exit }' "$work/out")
  echo "$calls $inside $all"
}

# Checks that a run costs no more for a byte heard than a smaller one, by what was measured of both.
grows() { # grows WHAT LIMIT RUN SMALLER MEASURE OF SMALLER
  local growth
  growth=$(number %.3f "($5 / ${heard[$3]}) / ($6 / ${heard[$4]})")
  check "$3: $growth times the $1 for a byte heard of $4, at most $2" "$([ "$growth" != none ] && holds "$growth <= $2" || echo 0)"
}

# Adds a row of twelve columns to the table.
row() { printf '%8s %8s %5s %6s %7s %9s %12s %12s %7s %10s %10s %6s\n' "$@" >>"$work/table"; }

: >"$work/empty"
"$program" sim <"$work/empty" >"$work/report" || { echo "FAILED: sim of the empty script ended with status $?"; exit 1; }
empty=$(resident "$work/empty" least)
echo "the empty script: $empty bytes resident"

declare -A heard took kept instructions
row replicas requests batch rounds entries entries/s blocks/entry signed/entry "in SHA" "heard B" "memory B" times

# Measures a run, and holds it against smaller ones, each named as "REPLICAS by REQUESTS".
measure() { # measure REPLICAS REQUESTS BATCH SMALLER..
  local replicas=$1 requests=$2 batch=$3
  shift 3
  local run="$replicas by $requests" height=5 status=0
  [ "$requests" -lt 128 ] || height=10
  script "$replicas" "$requests" $height "$batch" >"$work/script"
  script "$replicas" 0 $height "$batch" >"$work/keys"

  # That everything was done, and everything sent.
  "$program" sim <"$work/script" >"$work/report" || status=$?
  local rounds whole ledgers
  rounds=$(grep -c '^block ' "$work/report" || true)
  whole=$(grep -c "^block [0-9]* 1 $batch $replicas\$" "$work/report" || true)
  ledgers=$(grep -c "^ledger 1\.[0-9] $rounds " "$work/report" || true)
  check "$run: status $status, $whole of $rounds blocks have $batch requests and all notes, $ledgers ledgers have all rounds" \
    "$([ $status = 0 ] && [ "$rounds" = $((requests / batch)) ] && [ "$whole" = "$rounds" ] && [ "$ledgers" = "$replicas" ] && echo 1 || echo 0)"
  local entries bytes signatures batches keys
  read -r entries bytes signatures batches keys < <(needs "$replicas" "$requests" $height "$rounds" "$batch")
  heard[$run]=$bytes

  took[$run]=$(number %.3f "$(seconds "$work/script") - $(seconds "$work/keys")")
  kept[$run]=$(($(resident "$work/script" greatest) - empty))
  local times
  times=$(number %.2f "${kept[$run]} / $bytes")
  check "$run: ${kept[$run]} bytes beyond the empty script, $times times the $bytes heard, at most 6" \
    "$(holds "${kept[$run]} > 0 && ${kept[$run]} <= 6 * $bytes")"

  local blocks=- share=-
  if [ $height = 5 ] || [ "$which" = all ]; then
    local with_keys inside all of_keys inside_keys all_keys needed
    read -r with_keys inside all < <(count "$work/script")
    read -r of_keys inside_keys all_keys < <(count "$work/keys")
    check "$run: keys are $of_keys blocks of $keys, within 2 of 100" "$(holds "$of_keys >= 0.99 * $keys && $of_keys <= 1.02 * $keys")"
    blocks=$((with_keys - of_keys))
    instructions[$run]=$((all - all_keys))
    share=$(number %.2f "100 * ($inside - $inside_keys) / ($all - $all_keys)")
    check "$run: $share of 100 instructions inside blocks and steps, of ${instructions[$run]}, at least 90" \
      "$([ "$share" != none ] && holds "$share >= 90" || echo 0)"
    needed=$((signatures + batches))
    check "$run: $blocks blocks of $signatures for signatures and $batches for batches, $(number %.3f "$blocks / $needed") times" \
      "$(holds "$blocks >= 0.97 * $needed && $blocks <= 1.08 * $needed")"
    blocks=$(number %.1f "$blocks / $entries")
  fi

  local smaller
  for smaller in "$@"; do
    grows memory 1.25 "$run" "$smaller" "${kept[$run]}" "${kept[$smaller]}"
    if [ -n "${instructions[$run]:-}" ] && [ -n "${instructions[$smaller]:-}" ]; then
      grows instructions 1.05 "$run" "$smaller" "${instructions[$run]}" "${instructions[$smaller]}"
    fi
    echo "   $run: $(number %.3f "(${took[$run]} / $bytes) / (${took[$smaller]} / ${heard[$smaller]})") times the time for a byte heard of $smaller"
  done
  row "$replicas" "$requests" "$batch" "$rounds" "$entries" "$(number %.0f "$entries / ${took[$run]}")" "$blocks" "$(number %.1f "$signatures / $entries")" \
    "$share" "$bytes" "${kept[$run]}" "$times"
}

smaller_replicas=
for replicas in 4 7 10; do
  smaller_requests=
  for requests in 16 64 128; do
    measure $replicas $requests 8 ${smaller_requests:+"$replicas by $smaller_requests"} ${smaller_replicas:+"$smaller_replicas by $requests"}
    smaller_requests=$requests
  done
  smaller_replicas=$replicas
done
# Two hundred rounds: the window of sixteen slots moves twenty-five times.
measure 4 200 1 "4 by 128"

echo
cat "$work/table"
echo
finish
