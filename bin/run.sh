#!/usr/bin/env bash
# usage: bin/run.sh PROGRAM [WORD ..] < FILE      runs a program of this repository: the proved one, or if none is built from the
#                                                 sources as they are, an unproved build of them, which is kept
#
# Prints to standard error whether the proved or the unproved build answers; set OPENAPI_CLEAN_QUIET to silence this. Standard
# output and the exit status are the program's own; 70 is the status if the tools failed.
set -eu
top=$(cd "$(dirname "${BASH_SOURCE[0]}")/.." && pwd)
name=$1
shift
program=$top/crates/$name/out/$name
rt=$(type -P rt) && rt=$(readlink -f "$rt") || rt=

# Prints the folders of the crates that the program consists of.
folders() {
  awk -v name="$name" '
    function visit(it,  i, number, below) {
      if (!(it in line) || it in seen) return
      seen[it]
      print "crates/" it
      number = split(line[it], below, " ")
      for (i = 1; i <= number; i++) visit(below[i])
    }
    { sub(/#.*/, "") }
    split($0, part, ":") == 2 { split(part[1], word, " "); line[word[1]] = part[2] }
    END { visit(name) }' "$top/crates.txt"
}

# Whether the kit and the sources of the program are older than a file, by times alone. What else is in a crate's folder is no
# source. (A folder is newer if a file was added or removed.)
is_newest() {
  local file=$1 no_source=$2 found
  # shellcheck disable=SC2046 # no name of a crate has a space
  found=$(cd "$top" && find $(folders) crates.txt $rt -regex "crates/[^/]*/\($no_source\)" -prune -o -cnewer "$file" -print -quit 2>&1) \
    && [ -z "$found" ]
}

# Whether bin/sources.py noted a hash of the sources for this very program, built with this kit.
has_sum() {
  local kit
  [ -f "$1.sum" ] && ! [ "$1" -nt "$1.sum" ] && { read -r _ && read -r kit; } < "$1.sum" && [ "${rt:-$kit}" = "$kit" ]
}

# Whether the proved program is of the sources as they are. (What `rt run` or `rt ci` built has no hash.)
is_proved() {
  local file=$program
  [ -x "$program" ] || return
  if has_sum "$program"; then file=$program.sum; fi
  is_newest "$file" 'out\|args\|stdin\|stdout\|status\|data'
}

# Whether the unproved program is of the sources as they are. It has no definitions and no proofs.
is_built() {
  [ -x "$program.unproved" ] && has_sum "$program.unproved" \
    && is_newest "$program.unproved.sum" 'out\|args\|stdin\|stdout\|status\|data\|specs\|proofs'
}

print() {
  [ -n "${OPENAPI_CLEAN_QUIET:-}" ] || echo "$name: $*" >&2
}

# Runs the sources as they are by `rt try`, for a kit in which no unproved program can be kept.
run_once() {
  local input said status=0
  input=$(mktemp) said=$(mktemp)
  trap 'rm -f "$input" "$said"' EXIT
  # (the program reports wrong arguments before it reads: a person who gives none is not kept waiting)
  if [ ! -t 0 ]; then cat > "$input"; fi
  (cd "$top/crates/$name" && rt try --steps 100000000000 --seconds 500 -- "$@") < "$input" 2> "$said" || status=$?
  if ! grep -q '^run=ended ' "$said"; then
    cat "$said" >&2
    exit 70
  fi
  grep -vE '^(run=|checked: )' "$said" >&2 || true
  exit $status
}

run_proved() {
  print 'the proved build answers'
  exec "$program" "$@"
}

status=0
if is_proved; then run_proved "$@"; fi
if ! is_built; then
  # (times decide nothing now, so hashes do)
  if "$top/bin/sources.py" "$program"; then run_proved "$@"; fi
  "$top/bin/unproved.py" "$name" < /dev/null || status=$?
fi
how="bin/prove.py $name proves and builds the program"
if [ "$name" = openapi_clean ]; then how='./openapi_clean --build proves and builds the program'; fi
case $status in
  0)
    print "an unproved build of the sources answers; $how"
    exec "$program.unproved" "$@" ;;
  75)
    print "an unproved run of the sources answers; $how"
    run_once "$@" ;;
  *) exit 70 ;;
esac
