#!/usr/bin/env bash
# Cuts two messages, a Prepare and a whole view change, after each of their bytes, and gives each cut to message_check. A cut after
# k bytes must be answered Decode(Short { place: k }), and the whole message must be accepted. Run by hand.
set -euo pipefail
top=$(cd "$(dirname "${BASH_SOURCE[0]}")/.." && pwd)
program=$("$top/tests/message_program.sh")
data=$top/crates/message_check
work=$(mktemp -d)
trap 'rm -rf "$work"' EXIT
fabric=$(head -n 1 "$data/stdin")
failed=0

for kind in Prepare ViewChange; do
  place=$(grep -n -m 1 -x "Ok $kind" "$data/stdout" | cut -d : -f 1)
  message=$(sed -n "$((place + 1))p" "$data/stdin")
  bytes=$((${#message} / 2))
  # The whole message, and then its cuts.
  printf '%s\n' "$message" | awk -v fabric="$fabric" '{
    print fabric
    print $0
    for (k = 0; k < length($0) / 2; k++) print substr($0, 1, 2 * k)
  }' | "$program" >"$work/got"
  {
    echo "Ok $kind"
    for ((k = 0; k < bytes; k++)); do echo "Decode(Short { place: $k })"; done
  } >"$work/wanted"
  if cmp -s "$work/wanted" "$work/got"; then
    echo "$kind: $bytes cuts answered"
  else
    echo "FAILED: $kind; the first lines:"
    diff "$work/wanted" "$work/got" | head -n 6
    failed=1
  fi
done
exit $failed
