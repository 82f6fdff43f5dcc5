# What scripts of bench/ share: a folder for what they measure, checks that are counted, and the end. It is sourced, and not run.
work=$(mktemp -d)
trap 'rm -rf "$work"' EXIT
passed=0
failed=0

check() { # check WHAT HOLDS
  if [ "$2" = 1 ]; then passed=$((passed + 1)); echo "ok: $1"; else failed=$((failed + 1)); echo "FAILED: $1"; fi
}

# Tells how many checks passed, and fails where one didn't.
finish() {
  echo "$passed passed, $failed failed"
  [ "$failed" = 0 ]
}
