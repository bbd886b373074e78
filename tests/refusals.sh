#!/usr/bin/env bash
# Runs `openapi_clean` with its Nth request for memory refused, for N from 1 until a run meets no refusal. Each run that met one
# must write nothing, print `out of memory` and end with status 3; the last must write what a run with ample memory does. The last
# line is `N passed, M failed`, in which each command on a file counts once. (`tests/tool.py` and `tests/commands.py` do the same
# with `openapi`.)
#
# usage: tests/refusals.sh [COMMAND FILE ..]      (with none: on the examples of the repository, and small inputs of each kind)
#
# The program is the one that `bin/prove.py` built.
set -eu
top=$(cd "$(dirname "${BASH_SOURCE[0]}")/.." && pwd)
program=$top/crates/openapi_clean/out/openapi_clean
if [ ! -x "$program" ]; then
  printf 'FAILED: %s is not built\n0 passed, 1 failed\n' "$program"
  exit 1
fi
passed=0 failed=0
work=$(mktemp -d)
trap 'rm -rf "$work"' EXIT

if [ $# -eq 0 ]; then
  info='"info":{"title":"t","version":"1"},"openapi":"3.0.3"'
  item='{"description":"a path item","trace":{"responses":{}},"get":{"responses":{}},"post":{"responses":{}},"delete":{"responses":{}}}'
  kind='{"type":"integer","exclusiveMinimum":false,"required":[]}'
  echo '{"name":"a","wat":1,"x-q":[]}' > "$work/short-tag.json"
  echo "$kind" > "$work/short-schema.json"
  echo "{$info,\"paths\":{\"/a\":$item,\"/r\":{\"\$ref\":\"#/x\"}}}" > "$work/short-paths.json"
  echo "{$info,\"paths\":{},\"components\":{\"schemas\":{\"S\":$kind}}}" > "$work/short-schemas.json"
  set -- tag "$top/examples/tag.json" schema "$top/examples/schema.json" \
    document "$top/examples/small.json" settle "$top/examples/small.json" operations "$top/examples/small.json" \
    document "$top/examples/petstore.json" settle "$top/examples/petstore.json" operations "$top/examples/petstore.json" \
    tag "$work/short-tag.json" schema "$work/short-schema.json" document "$work/short-paths.json" operations "$work/short-paths.json" \
    settle "$work/short-schemas.json"
fi

cc -shared -fPIC -O1 -o "$work/refuse.so" "$top/tests/refuse.c" -ldl

# Refuses each request of a command on one input, one after another, and prints the result; ends with 1 at the first that is not
# reported.
refuse_each() {
  local word=$1 input=$2 want met=0 n status said name
  name="$word on $(basename "$input")"
  want=$("$program" "$word" < "$input")
  for ((n = 1; ; n++)); do
    status=0
    REFUSE=$n LD_PRELOAD=$work/refuse.so "$program" "$word" \
      < "$input" > "$work/out" 2> "$work/err" 9> "$work/met" || status=$?
    if [ ! -s "$work/met" ]; then break; fi
    met=$((met + 1))
    said=$(cat "$work/err")
    if [ $status -ne 3 ] || [ -s "$work/out" ] || [ "$said" != 'out of memory' ]; then
      echo "FAILED: request $n of $name refused: status $status, printed '$said'"
      return 1
    fi
  done
  if [ $status -ne 0 ] || [ "$(cat "$work/out")" != "$want" ] || [ $met -eq 0 ]; then
    echo "FAILED: $name: with none refused, status $status, after $met refusals"
    return 1
  fi
  echo "$name: each of $met requests for memory was refused and reported as out of memory"
}

while [ $# -gt 1 ]; do
  if refuse_each "$1" "$2"; then passed=$((passed + 1)); else failed=$((failed + 1)); fi
  shift 2
done
echo "$passed passed, $failed failed"
[ $failed -eq 0 ]
