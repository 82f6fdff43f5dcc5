#!/usr/bin/env bash
# program.sh [llvm|rattle]: prints the path of the proved program as that compiler built it.
# It is the program that `rt ci` built, where no file that it is made of is newer; only else is it proved and built first.
set -euo pipefail
backend=${1:-llvm}
top=$(cd "$(dirname "$(readlink -f "${BASH_SOURCE[0]}")")/.." && pwd)
crate=$top/crates/fabric_prog
program=$top/out/fabric_by_$backend
case $backend in
  llvm) built=$crate/out/fabric_prog ;;
  rattle) built=$crate/out/fabric_prog.by-rattle ;;
  *) echo "program.sh: the compilers are llvm and rattle" >&2; exit 2 ;;
esac

# The crates that the program stands on, itself too.
crates_of() {
  awk -F: '
    /^[a-z]/ { split($1, head, " "); below[head[1]] = $2 }
    END {
      todo[last = 1] = "fabric_prog"
      for (i = 1; i <= last; i++) {
        name = todo[i]
        if (name in seen || !(name in below)) continue
        seen[name] = 1
        print name
        count = split(below[name], names, " ")
        for (j = 1; j <= count; j++) todo[++last] = names[j]
      }
    }' "$top/crates.txt"
}

# Whether the file is a program, and no file that it is made of is newer.
is_current() {
  [ -x "$1" ] || return 1
  local name part
  for name in $(crates_of); do
    for part in src specs proofs; do
      [ -d "$top/crates/$name/$part" ] || continue
      [ -z "$(find "$top/crates/$name/$part" -newer "$1" -print -quit)" ] || return 1
    done
  done
}

# Takes a copy under the name that is run: made aside and then renamed, so that a copy that is running stays whole.
keep() {
  mkdir -p "$top/out"
  local aside
  aside=$(mktemp "$top/out/.fabric.XXXXXX")
  cp "$1" "$aside"
  chmod 755 "$aside"
  mv -f "$aside" "$program"
}

build() {
  mkdir -p "$top/out" "$crate/out"
  local log=$top/out/build_by_$backend.log aside=
  echo "fabric: proving and building the program by $backend; this takes about half an hour the first time (log: out/build_by_$backend.log)" >&2
  if [ "$backend" = rattle ] && [ -x "$crate/out/fabric_prog" ]; then
    aside=$(mktemp "$top/out/.llvm.XXXXXX")
    cp -p "$crate/out/fabric_prog" "$aside"
  fi
  local flags=()
  [ "$backend" = llvm ] || flags=(--backend "$backend")
  # What the kit builds it also runs: on the empty script, which ends well.
  if ! (cd "$crate" && rt run ${flags[@]+"${flags[@]}"} -- plain) </dev/null >"$log" 2>&1; then
    tail -n 20 "$log" >&2
    echo "fabric: the program was not built" >&2
    exit 1
  fi
  keep "$crate/out/fabric_prog"
  if [ "$backend" = rattle ]; then
    rm -f "$crate/out/fabric_prog"
    [ -z "$aside" ] || mv -f "$aside" "$crate/out/fabric_prog"
  fi
}

if is_current "$built" && ! { [ -x "$program" ] && [ "$program" -nt "$built" ]; }; then
  keep "$built"
elif ! is_current "$program"; then
  build
fi
echo "$program"
