#!/usr/bin/env bash
# Runs every example through the program as each of the two compilers built it, and compares what it prints on standard output and
# standard error, and its exit status, with what stands beside the example.
#   examples/NAME.script  standard input          examples/NAME.report  standard output
#   examples/NAME.words   the words, one a line   examples/NAME.error   standard error, if it prints any
#   examples/NAME.status  the exit status, if it isn't 0
# examples/bad_lines.md is a table of scripts with a bad line (" / " stands for a line's end), what is answered, and what to write
# instead: both scripts of a row are run.
set -u
top=$(cd "$(dirname "${BASH_SOURCE[0]}")/.." && pwd)
work=$(mktemp -d)
trap 'rm -rf "$work"' EXIT
passed=0
failed=0

pass() { passed=$((passed + 1)); }
fail() { failed=$((failed + 1)); echo "failed: $1"; }

# how many runs there are to be: each script, and two for each row of the table, by each of two builds
scripts=$(ls "$top"/examples/*.script | wc -l)
rows=$(grep -c '^| `' "$top/examples/bad_lines.md")
wanted_runs=$((2 * (scripts + 2 * rows)))

# lines TEXT: the lines of a script that is written with " / " for each line's end
lines() { printf '%s\n' "$1" | sed 's| / |\n|g'; }

for backend in llvm rattle; do
  if ! program=$("$top/tests/program.sh" "$backend"); then
    fail "no program by $backend"
    continue
  fi
  for script in "$top"/examples/*.script; do
    name=${script%.script}
    mapfile -t words <"$name.words"
    "$program" "${words[@]}" <"$script" >"$work/report" 2>"$work/error"
    status=$?
    wanted=0
    [ -f "$name.status" ] && wanted=$(cat "$name.status")
    error=/dev/null
    [ -f "$name.error" ] && error=$name.error
    if [ "$status" = "$wanted" ] && cmp -s "$work/report" "$name.report" && cmp -s "$work/error" "$error"; then
      pass
    else
      fail "$(basename "$name") by $backend: status $status"
      diff "$name.report" "$work/report" | head -n 5
      diff "$error" "$work/error" | head -n 5
    fi
  done
  while IFS='|' read -r _ written answered instead _; do
    script=$(sed -n 's/^ *`\(.*\)` *$/\1/p' <<<"$written")
    line=$(sed -n 's/^ *`\(.*\)` *$/\1/p' <<<"$answered")
    better=$(sed -n 's/^ *`\(.*\)` *$/\1/p' <<<"$instead")
    [ -n "$script" ] && [ -n "$line" ] || continue
    lines "$script" | "$program" plain >"$work/report" 2>"$work/error"
    status=$?
    if [ "$status" = 6 ] && [ ! -s "$work/report" ] && [ "$(cat "$work/error")" = "$line" ]; then
      pass
    else
      fail "bad line by $backend: $script: status $status, $(cat "$work/error")"
    fi
    if lines "$better" | "$program" plain >/dev/null 2>"$work/error"; then
      pass
    else
      fail "what to write instead, by $backend: $better: $(cat "$work/error")"
    fi
  done <"$top/examples/bad_lines.md"
done
echo "$passed passed, $failed failed"
if [ "$((passed + failed))" != "$wanted_runs" ]; then
  echo "failed: $((passed + failed)) runs in place of $wanted_runs"
  exit 1
fi
[ "$failed" = 0 ]
