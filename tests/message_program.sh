#!/usr/bin/env bash
# message_program.sh: prints the path of the program message_check. It is proved and built first where it isn't there or where a file
# that it is made of is newer.
set -euo pipefail
top=$(cd "$(dirname "$(readlink -f "${BASH_SOURCE[0]}")")/.." && pwd)
crate=$top/crates/message_check
program=$crate/out/message_check

# The crates that the program stands on, itself too.
crates_of() {
  awk -F: '
    /^[a-z]/ { split($1, head, " "); below[head[1]] = $2 }
    END {
      todo[last = 1] = "message_check"
      for (i = 1; i <= last; i++) {
        name = todo[i]
        if (name in seen || !(name in below)) continue
        seen[name] = 1
        print name
        count = split(below[name], names, " ")
        for (j = 1; j <= count; j++) todo[++last] = names[j]
      }
    }' "$top/crates.txt"
}

is_current() {
  [ -x "$program" ] || return 1
  local name
  for name in $(crates_of); do
    [ -d "$top/crates/$name/src" ] || continue
    [ -z "$(find "$top/crates/$name/src" -newer "$program" -print -quit)" ] || return 1
  done
}

if ! is_current; then
  mkdir -p "$top/out"
  log=$top/out/build_message_check.log
  echo "message_check: proving and building; this takes minutes the first time (log: out/build_message_check.log)" >&2
  if ! (cd "$crate" && rt run) </dev/null >"$log" 2>&1; then
    tail -n 20 "$log" >&2
    echo "message_check was not built" >&2
    exit 1
  fi
fi
echo "$program"
