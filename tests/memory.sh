#!/usr/bin/env bash
# Makes each call that `openapi_cases memory` knows, and refuses the Nth request for memory of the call, for N from 1 until a run
# meets no refusal. Each run that met one must print `refused: out of memory`. The last must print `answered`, which also means
# that the values borrowed by the call are unchanged. Every run must have freed each block that it allocated. `to_value` may
# answer too if a request was refused: the map of `serde_json` sorts its members, and a sort of few works without
# the memory that it requests. The last line is `N passed, M failed`, in which each call on a JSON value counts once.
#
# usage: tests/memory.sh [--unproved] [CALL [SAMPLE]]      (with none: each call)
#
# The program is the one that `bin/prove.py openapi_cases` built; with --unproved the one that `bin/unproved.py openapi_cases`
# built.
set -eu
top=$(cd "$(dirname "${BASH_SOURCE[0]}")/.." && pwd)
program=$top/crates/openapi_cases/out/openapi_cases
if [ "${1:-}" = --unproved ]; then
  program=$program.unproved
  shift
fi
if [ ! -x "$program" ]; then
  printf 'FAILED: %s is not built\n0 passed, 1 failed\n' "$program"
  exit 1
fi
passed=0 failed=0 all=0
work=$(mktemp -d)
trap 'rm -rf "$work"' EXIT
cc -shared -fPIC -O1 -o "$work/refuse.so" "$top/tests/refuse.c" -ldl

# Refuses each request of one call, one after another, and prints the result; ends with 1 at the first that is not reported.
refuse_each() {
  local n status told met wanted spared=0
  for ((n = 1; ; n++)); do
    status=0
    told=$(MARKED=1 REFUSE=$n LD_PRELOAD=$work/refuse.so "$program" memory "$@" 2>&1 9> "$work/said") || status=$?
    met=$(cat "$work/said")
    case $met in
      $'refused\nkept 0') wanted='refused: out of memory' ;;
      'kept 0') wanted=answered ;;
      *) wanted='every block freed' ;;
    esac
    if [[ $1 = to_value && $status -eq 0 && $told = answered && $met = $'refused\nkept 0' ]]; then
      spared=$((spared + 1))
      continue
    fi
    if [ $status -ne 0 ] || [ "$told" != "$wanted" ]; then
      echo "FAILED: $* with request $n refused: status $status, printed '$told', wanted '$wanted', observed '${met//$'\n'/, }'"
      return 1
    fi
    if [ "$told" = answered ]; then break; fi
  done
  if [ $n -eq 1 ]; then
    echo "FAILED: $* made no request"
    return 1
  fi
  all=$((all + n - 1))
  if [ $spared -eq $((n - 1)) ]; then
    echo "FAILED: $* reported no refusal"
    return 1
  fi
  echo "$*: each of $((n - 1)) requests for memory was refused, and reported as out of memory but for $spared"
}

count() {
  if refuse_each "$@"; then passed=$((passed + 1)); else failed=$((failed + 1)); fi
}

if [ $# -gt 0 ]; then
  count "$@"
else
  for sample in schema responses refused document operation tag; do
    for call in from_value copy clone to_value node_from_json json_from_node node_from_json_in_order \
      json_from_node_in_order pretty_from_node pretty_from_node_in_order position_of position_below positions_of from_json from_json_in_order from_node settle \
      to_node; do
      # (the refused one is never an object that could be written)
      if [ "$sample $call" != 'refused to_node' ]; then count "$call" "$sample"; fi
    done
  done
  for sample in schema refused document; do
    for call in faults dropped_members; do count "$call" "$sample"; done
  done
  count references document
  for call in to_json to_json_in_order to_json_pretty; do count "$call" document; done
  count locate refused
  for call in ref_ boxed_item insert entry extend collect; do count "$call"; done
fi
echo "$all requests for memory were refused in all"
echo "$passed passed, $failed failed"
[ $failed -eq 0 ]
