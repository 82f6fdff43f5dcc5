#!/usr/bin/env bash
# lies.sh [--check | [--anew] [--jobs N] [CRATE..]]: tries the wrong texts of lies/, each of which the prover must refuse.
#
# lies/CRATE/NAME.edit is an edit as in must-fail/, with a line `refused-by: PATH` more: the function that isn't proved with it. An edit
# is refused where a check of that function in the edited crate says of this very function that it is not proved, or that a goal of its
# contract or its calls was not proved; a line about another function doesn't count. NAME.record beside it keeps what the try was made
# of: the sum of the crate's own text, that of the edit, and the function.
#
#   no words   tries the edits whose record isn't that of the present text, and writes their records, each as soon as it is known
#   CRATE..    only those of these crates
#   --anew     also those whose record is current
#   --jobs N   N crates side by side (1 where nothing is said); each has a process of the prover, which takes one to two GB
#   --check    tries nothing: says whether each edit has a current record, and each record an edit
#
# Libraries below are taken as `rt ci` left them in crates/*/out, where no file that they are made of is newer; the others are proved and
# built first, which takes long. All is done on copies: the checkout gets records and nothing else.
set -u
export LC_ALL=C.UTF-8
top=$(cd "$(dirname "$(readlink -f "${BASH_SOURCE[0]}")")/.." && pwd)
work=$(mktemp -d)
trap 'kill $(jobs -p) 2>/dev/null; rm -rf "$work"' EXIT
trap 'exit 130' INT TERM

# The sum of a crate's own text: the files of src/, specs/ and proofs/ in the order of their names' bytes, and its line of crates.txt.
own_sum() {
  {
    grep "^$1[ :]" "$top/crates.txt"
    cd "$top/crates/$1" && find src specs proofs -type f -print0 2>/dev/null | LC_ALL=C sort -z | xargs -0 sha256sum
  } | sha256sum | cut -d ' ' -f 1
}

edit_sum() { sha256sum <"$1" | cut -d ' ' -f 1; }

refuser() { sed -n 's/^refused-by: //p' "$1"; }

# record_of CRATE EDIT: the record that the edit has where it was tried on the present text.
record_of() {
  printf 'crate: %s\nedit: %s\nrefused-by: %s\n' "$(own_sum "$1")" "$(edit_sum "$2")" "$(refuser "$2")"
}

is_current() { [ -f "${2%.edit}.record" ] && [ "$(record_of "$1" "$2")" = "$(cat "${2%.edit}.record")" ]; }

is_ours() { grep -q "^$1[ :]" "$top/crates.txt"; }

# deps CRATE: the libraries of its line; below_once CRATE: ours among those that it stands on, each once and after those that it uses.
deps() { sed -n "s/^$1\( [^:]*\)\{0,1\}://p" "$top/crates.txt"; }

below_once() {
  awk -F: -v start="$1" '
    function visit(name,  i, count, names) {
      if (name in seen) return
      seen[name] = 1
      count = split(below[name], names, " ")
      for (i = 1; i <= count; i++) if (names[i] in below) visit(names[i])
      if (name != start) print name
    }
    /^[a-z]/ { split($1, words, " "); below[words[1]] = $2 }
    END { visit(start) }' "$top/crates.txt"
}

# words CRATE SOURCE: the words that every check and build of the crate has.
words() {
  local name
  printf '%s\n' --crate-name "$1" "$2" --extern "std=$kit/rlibs/std.rlib" -L "dependency=$kit/rlibs" -L "dependency=$work/rlibs"
  for name in $(deps "$1"); do
    if is_ours "$name"; then
      printf '%s\n' --extern "$name=$work/rlibs/$name.rlib"
    else
      printf '%s\n' --extern "$name=$kit/rlibs/$name.rlib"
    fi
  done
  printf '%s\n' --antt-project "$kit/rattle/logic/antt-project.json" --logic-built "$kit/logic_built" --links "$1=" --jobs 1
}

# Whether `rt ci` left the library, and no file that it is made of is newer.
is_built() {
  local rlib=$top/crates/$1/out/rlib/$1.rlib name part
  [ -e "$rlib" ] || return 1
  for name in $(below_once "$1") "$1"; do
    for part in src specs proofs; do
      [ -d "$top/crates/$name/$part" ] || continue
      [ -z "$(find "$top/crates/$name/$part" -newer "$rlib" -print -quit)" ] || return 1
    done
  done
}

# copy_of CRATE FOLDER: the crate's own text, to change.
copy_of() {
  mkdir -p "$2"
  local part
  for part in src specs proofs; do
    [ ! -d "$top/crates/$1/$part" ] || cp -r "$top/crates/$1/$part" "$2/$part"
  done
}

# library NAME: has it in $work/rlibs.
library() {
  [ ! -e "$work/rlibs/$1.rlib" ] || return 0
  if is_built "$1"; then
    cp -r "$top/crates/$1/out/rlib/$1.rlib" "$work/rlibs/$1.rlib"
    return
  fi
  echo "building $1, which rt ci hasn't left" >&2
  copy_of "$1" "$work/below/$1"
  local given
  mapfile -t given < <(words "$1" src/lib.rt)
  if ! (cd "$work/below/$1" && "$rattle" build "${given[@]}" -o "$work/rlibs/$1.rlib") </dev/null >"$work/log" 2>&1; then
    tail -n 5 "$work/log" >&2
    rm -rf "$work/rlibs/$1.rlib"
    return 1
  fi
}

# apply EDIT FOLDER: changes the copy as the edit says, or prints why it can't.
apply() {
  local line path='' old='' new text after pairs=0
  while IFS= read -r line || [ -n "$line" ]; do
    case $line in
      'file: '*) path=${line#file: } ;;
      'old: '*) old=${line#old: } ;;
      'new:'*)
        new=${line#new:}
        new=${new# }
        if [ -z "$old" ] || ! [[ $path =~ ^(src|specs|proofs)/ ]] || [ ! -f "$2/$path" ]; then
          echo "a 'new:' line has no 'old:' line, or no file"
          return 1
        fi
        text=$(cat "$2/$path" && echo .)
        text=${text%.}
        after=${text#*"$old"}
        if [ "$after" = "$text" ] || [ "${after#*"$old"}" != "$after" ]; then
          echo "an 'old:' text isn't in $path once"
          return 1
        fi
        printf '%s' "${text%%"$old"*}$new$after" >"$2/$path"
        old=''
        pairs=$((pairs + 1))
        ;;
    esac
  done <"$1"
  [ "$pairs" != 0 ] || echo "it has no pair of an 'old:' and a 'new:' line"
  [ "$pairs" != 0 ]
}

# verdict SAID STATUS PATH: prints why what a check said isn't a refusal by that function, or nothing.
verdict() {
  local unread='^(\./)?(src|specs)/.*: error: .*(is not in scope|has no field|is no name|operand is missing|expected the end|cannot continue)'
  local line
  line=$(grep -m 1 -F "fn $3: " "$1")
  if grep -qE 'error\[[a-z-]+\]' "$1"; then
    echo "it doesn't compile: $(grep -m 1 -E 'error\[[a-z-]+\]' "$1")"
  elif grep -qE "$unread" "$1"; then
    echo "the prover can't read the edited text: $(grep -m 1 -E "$unread" "$1")"
  elif [ "$2" = 3 ]; then
    echo "the check met a limit, and gave no verdict: $line"
  elif [ "$line" = "fn $3: proved" ]; then
    echo "$3 is still proved"
  elif [ "$2" != 1 ] || [ -z "$line" ]; then
    echo "the check said nothing of $3, and ended with status $2: $(grep . "$1" | tail -n 1)"
  else
    case $line in
      "fn $3: not proved" | "fn $3: no proof: expected answers in "*"; \`search\` did not prove "*) ;;
      *) echo "nothing says that $3 itself isn't proved: $line" ;;
    esac
  fi
}

# try_lie CRATE EDIT: tries it, and writes its record or says why there is none.
try_lie() {
  local name why='' path given room source
  name=$1/$(basename "$2" .edit)
  path=$(refuser "$2")
  room=$work/tried/$name
  mkdir -p "$room"
  if [ "$(refuser "$2" | grep -c .)" != 1 ]; then
    why="it has no line, or several, 'refused-by: PATH'"
  else
    record_of "$1" "$2" >"$room/record"
    copy_of "$1" "$room/text"
    if why=$(apply "$2" "$room/text"); then
      source=src/lib.rt
      [ -f "$room/text/$source" ] || source=src/main.rt
      mapfile -t given < <(words "$1" "$source")
      (cd "$room/text" && "$rattle" check "${given[@]}" --only "$path") </dev/null >"$room/said" 2>&1
      why=$(verdict "$room/said" $? "$path")
    fi
  fi
  if [ -z "$why" ]; then
    cp "$room/record" "${2%.edit}.record.new" && mv "${2%.edit}.record.new" "${2%.edit}.record"
    echo "refused: $name by $path"
    echo "$name" >>"$work/passed"
  else
    rm -f "${2%.edit}.record"
    echo "failed: $name: $why"
    echo "$name" >>"$work/failed"
  fi
  rm -rf "$room"
}

try_crate() {
  local edit
  while IFS= read -r edit; do try_lie "$1" "$edit"; done <"$work/todo/$1"
}

told() {
  local passed failed
  passed=$(wc -l <"$work/passed")
  failed=$(wc -l <"$work/failed")
  echo "$passed passed, $failed failed"
  [ "$failed" = 0 ]
}

check() {
  local edit record name
  for edit in "$top"/lies/*/*.edit; do
    name=$(basename "$(dirname "$edit")")
    if is_current "$name" "$edit"; then
      echo "$edit" >>"$work/passed"
    else
      echo "failed: lies/$name/$(basename "$edit") has no record of the present text: tests/lies.sh $name"
      echo "$edit" >>"$work/failed"
    fi
  done
  for record in "$top"/lies/*/*.record; do
    if [ ! -e "$record" ] || [ -e "${record%.record}.edit" ]; then continue; fi
    echo "failed: ${record#"$top"/} is of no edit"
    echo "$record" >>"$work/failed"
  done
}

: >"$work/passed"
: >"$work/failed"
anew=false
jobs=1
names=()
while [ $# != 0 ]; do
  case $1 in
    --check)
      check
      told
      exit
      ;;
    --anew) anew=true ;;
    --jobs)
      jobs=${2:-}
      shift
      [[ $jobs =~ ^[1-9][0-9]?$ ]] || { echo "lies.sh: --jobs takes a number" >&2; exit 2; }
      ;;
    -*) echo "lies.sh: no word $1" >&2; exit 2 ;;
    *)
      if [ ! -d "$top/lies/$1" ] || ! is_ours "$1"; then
        echo "lies.sh: lies/ has no crate $1" >&2
        exit 2
      fi
      names+=("$1")
      ;;
  esac
  shift
done
[ ${#names[@]} != 0 ] || mapfile -t names < <(cd "$top/lies" && ls)

kit=$(dirname "$(rt doc)")
rattle=$kit/bin/rattle
mkdir -p "$work/rlibs" "$work/todo"
for name in "${names[@]}"; do
  for edit in "$top/lies/$name"/*.edit; do
    if $anew || ! is_current "$name" "$edit"; then echo "$edit" >>"$work/todo/$name"; fi
  done
done
for name in "${names[@]}"; do
  [ -e "$work/todo/$name" ] || continue
  for library in $(below_once "$name"); do
    library "$library" && continue
    echo "failed: $name: $library, below it, isn't proved"
    echo "$name" >>"$work/failed"
    continue 2
  done
  while [ "$(jobs -rp | wc -l)" -ge "$jobs" ]; do wait -n; done
  try_crate "$name" &
done
wait
told
