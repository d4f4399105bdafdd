#!/usr/bin/env bash
# Runs the program `search` on each case and compares what it prints. A case is a folder with
#   list, text      the list and the text; or `both`, the two divided by a line '---'
#   places          what must be printed, worked out by hand (the reasons stand in the list's comments)
#   message         instead of places: what must be printed on standard error, with status 1
set -uo pipefail
cd "$(dirname "$0")"
program=../../crates/search/out/search
[ -x "$program" ] || { echo "no $program: run 'tools/build search' first"; exit 1; }
passed=0
failed=0
for case in */; do
    case=${case%/}
    out=$(mktemp)
    err=$(mktemp)
    if [ -e "$case/both" ]; then
        "$program" < "$case/both" > "$out" 2> "$err"
    else
        "$program" "$case/list" < "$case/text" > "$out" 2> "$err"
    fi
    status=$?
    if [ -e "$case/message" ]; then
        ok=$([ $status -eq 1 ] && [ ! -s "$out" ] && diff "$case/message" "$err" > /dev/null && echo yes)
    else
        ok=$([ $status -eq 0 ] && diff "$case/places" "$out" > /dev/null && echo yes)
    fi
    if [ "${ok:-no}" = yes ]; then
        passed=$((passed + 1))
    else
        failed=$((failed + 1))
        echo "search: case $case: status $status"
        diff "$case/places" "$out" 2> /dev/null
        diff "$case/message" "$err" 2> /dev/null
    fi
    rm -f "$out" "$err"
done
echo "search: $passed cases passed, $failed failed"
[ $failed -eq 0 ] && [ $passed -gt 0 ]
