#!/usr/bin/env bash
# Counts the instructions of `verify` and of `decode` on three messages of a cluster of ten: a Prepare, a Share of 7 Commits, and a new
# view of 7 view changes. Run by hand.
#
# Counted with valgrind's callgrind, which is the same in each run, inside the call alone, and asserted: of `verify` at most 8 of 100
# instructions are outside SHA-256's block function and the steps of four chains, and `decode` of the new view takes at most 2 instructions a
# byte. (What is outside was 3 of 100 while chains went one after another: since then the steps take half as many.)
# `bench/verify.messages` has the fabric and the messages as message_check reads them.
set -euo pipefail
top=$(cd "$(dirname "${BASH_SOURCE[0]}")/.." && pwd)
program=$("$top/tests/message_program.sh")
source "$top/bench/checks.sh"

# Prints the instructions of blocks and steps and all instructions inside `verify`, for the message in LINE.
count_verify() { # count_verify LINE
  sed -n "1p;$1p" "$top/bench/verify.messages" >"$work/asked"
  valgrind --tool=callgrind --toggle-collect='bft_verify::verifying::verify*' --callgrind-out-file="$work/out" \
    "$program" <"$work/asked" >"$work/answer" 2>"$work/log"
  grep -q '^Ok ' "$work/answer"
  local inside all
  inside=$(callgrind_annotate "$work/out" | awk '/block256::compress|steps::step4/ { gsub(",", "", $1); sum += $1 } END { print sum + 0 }')
  all=$(awk '/^(summary|totals):/ { print $2; exit }' "$work/out")
  echo "$inside $all"
}

# Prints the instructions of the calls into msg_read, for the message in LINE. `decode` itself is inlined where it is called, so the
# calls that it makes are summed, without what frees memory.
count_decode() { # count_decode LINE
  sed -n "1p;$1p" "$top/bench/verify.messages" >"$work/asked"
  valgrind --tool=callgrind --compress-strings=no --compress-pos=no --callgrind-out-file="$work/out" \
    "$program" <"$work/asked" >"$work/answer" 2>"$work/log"
  grep -q '^Ok ' "$work/answer"
  awk '/^fn=/ { caller = substr($0, 4) }
    /^cfn=/ { called = substr($0, 5) }
    /^calls=/ { getline; if (caller !~ /^msg_read/ && called ~ /^msg_read/ && called !~ /drop/) sum += $2 }
    END { print sum + 0 }' "$work/out"
}

line=2
for message in "a Prepare" "a Share of 7 Commits" "a new view of 7 changes"; do
  read -r inside all < <(count_verify $line)
  share=$(awk "BEGIN { printf \"%.2f\", $all ? 100 * ($all - $inside) / $all : 100 }")
  check "verify of $message: $share of 100 instructions outside blocks and steps, $all in all" \
    "$(awk "BEGIN { print ($all > 0 && $share <= 8) }")"
  bytes=$(sed -n "${line}p" "$top/bench/verify.messages" | awk '{ print length($0) / 2 }')
  all=$(count_decode $line)
  each=$(awk "BEGIN { printf \"%.2f\", $all / $bytes }")
  if [ $line = 4 ]; then
    check "decode of $message: $each instructions a byte, $bytes bytes" "$(awk "BEGIN { print ($all > 0 && $each <= 2) }")"
  else
    echo "decode of $message: $each instructions a byte, $bytes bytes"
  fi
  line=$((line + 1))
done
finish
