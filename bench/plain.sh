#!/usr/bin/env bash
# Wall time and memory of `plain` on the longest script (1,048,576 bytes: 64 clients of 32 requests each, the rest comments),
# beside `wc` on the same file in the same run. Times are of the best of five runs of each. Run by hand.
set -euo pipefail
top=$(cd "$(dirname "${BASH_SOURCE[0]}")/.." && pwd)
program=$("$top/tests/program.sh" llvm)
work=$(mktemp -d)
trap 'rm -rf "$work"' EXIT

python3 - "$work/script" <<'PY'
import sys
lines = ["cluster 10"] + ["client 1"] * 64
for stamp in range(1, 33):
    for client in range(64):
        key = f"key-{client:02}-{stamp % 8:02}-" + "k" * 22
        value = f"{client:02}{stamp:02}" + "v" * 60
        kind = stamp % 4
        if kind == 1:
            lines.append(f"request {client} put {key} {value}")
        elif kind == 2:
            lines.append(f"request {client} get {key}")
        elif kind == 3:
            lines.append(f"request {client} swap {key} {value} {value}")
        else:
            lines.append(f"request {client} cut {key}")
text = "\n".join(lines) + "\n"
comment = "# " + "a comment that is skipped " * 3 + "\n"
while len(text) + len(comment) <= 1048576:
    text += comment
text += "#" * (1048576 - len(text))
open(sys.argv[1], "w").write(text)
PY
wc -c <"$work/script"

best() { # best NAME COMMAND..: the least wall time of five runs, in seconds
  local name=$1
  shift
  python3 - "$name" "$work/script" "$@" <<'PY'
import subprocess, sys, time
name, script, command = sys.argv[1], sys.argv[2], sys.argv[3:]
times = []
for _ in range(5):
    with open(script) as source:
        start = time.perf_counter()
        done = subprocess.run(command, stdin=source, stdout=subprocess.DEVNULL)
        times.append(time.perf_counter() - start)
        if done.returncode != 0:
            sys.exit(f"{name} ended with {done.returncode}")
print(f"{name}: best {min(times) * 1000:.1f} ms, median {sorted(times)[2] * 1000:.1f} ms")
PY
}
best wc wc
best plain "$program" plain

# All memory, and not just what is resident, within a limit: the least of these megabytes with which it ends well.
for megabytes in 4 6 8 10 12 16 24 32; do
  if (ulimit -v $((megabytes * 1024)) && "$program" plain <"$work/script" >/dev/null 2>&1); then
    echo "plain: ends well within $megabytes MB of virtual memory"
    exit 0
  fi
done
echo "plain: needs more than 32 MB of virtual memory"
exit 1
