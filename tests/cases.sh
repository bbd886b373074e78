#!/usr/bin/env bash
# Checks the result of each case of tests/cases. The last line is `N passed, M failed`.
#
# usage: tests/cases.sh [--unproved] [FILE ..]      (files of tests/cases; with none: all of them)
#
# The program is the one that `bin/prove.py openapi_cases` built; with --unproved the one that `bin/unproved.py openapi_cases`
# built.
set -eu
top=$(cd "$(dirname "${BASH_SOURCE[0]}")/.." && pwd)
program=$top/crates/openapi_cases/out/openapi_cases
if [ "${1:-}" = --unproved ]; then
  program=$program.unproved
  shift
fi
if [ ! -x "$program" ]; then
  printf 'FAILED: %s is not built\n0 passed, 1 failed\n' "$program"
  exit 1
fi
cd "$top/tests/cases"
if [ $# -eq 0 ]; then set -- *.txt; fi
said=$(mktemp)
trap 'rm -f "$said"' EXIT
status=0
"$program" "$@" > "$said" || status=$?
cat "$said"
# a line `FILE: N` counts the cases of a file, and a line `FILE:LINE: REQUEST` is a case with another result
all=$(sed -nE 's/^[a-z_]+\.txt: ([0-9]+)$/\1/p' "$said" | awk '{ n += $1 } END { print n + 0 }')
failed=$(grep -cE '^[a-z_]+\.txt:[0-9]+: ' "$said" || true)
if [ $status -ne 0 ] && [ "$failed" -eq 0 ]; then failed=1; fi
if [ "$all" -eq 0 ]; then failed=$((failed + 1)); fi
echo "$((all - failed > 0 ? all - failed : 0)) passed, $failed failed"
[ "$failed" -eq 0 ]
