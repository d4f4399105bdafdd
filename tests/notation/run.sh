#!/usr/bin/env bash
# Texts in the readable form that are refused, each with the line, the column and what is expected there, counted by hand, and
# texts at each limit and one past it. They are read by the program `search`, over an empty text.
#   mistakes    a line for each: 'LINE COLUMN|what is expected|the text', with \n for a line's end and \\ for a backslash
set -uo pipefail
cd "$(dirname "$0")"
program=../../crates/search/out/search
[ -x "$program" ] || { echo "no $program: run 'tools/build search' first"; exit 1; }
list=$(mktemp)
said=$(mktemp)
trap 'rm -f "$list" "$said"' EXIT
passed=0
failed=0

count() { # NAME OK
    if [ "$2" = yes ]; then
        passed=$((passed + 1))
    else
        failed=$((failed + 1))
        echo "notation: $1: $(cat "$said")"
    fi
}
refused() { # NAME LINE COLUMN EXPECTED, the list is in $list
    "$program" "$list" < /dev/null > /dev/null 2> "$said"
    status=$?
    count "$1" "$([ $status -eq 1 ] && [ "$(cat "$said")" = "search: $list: line $2, column $3: expected $4" ] && echo yes || echo no)"
}
read_well() { # NAME LINES, how many patterns are printed
    lines=$("$program" "$list" < /dev/null 2> "$said" | wc -l)
    count "$1" "$([ ! -s "$said" ] && [ "$lines" -eq "$2" ] && echo yes || echo no)"
}
repeat() { # TEXT TIMES
    printf "%0.s$1" $(seq "$2")
}

while IFS='|' read -r place expected text; do
    # a text may hold the divider itself
    printf '%b' "$text" > "$list"
    refused "$text" "${place% *}" "${place#* }" "$expected"
done < mistakes

for i in $(seq 32); do echo "p$i: empty"; done > "$list"
read_well '32 patterns' 32
echo 'p33: empty' >> "$list"
refused '33 patterns' 33 1 'at most 32 patterns'

# a byte for each 'not' and one for the word: 4,096 in all, then one more
{ printf 'a: '; repeat '!' 4095; echo empty; } > "$list"
read_well '4,096 bytes' 1
{ printf 'a: '; repeat '!' 4096; echo empty; } > "$list"
refused '4,097 bytes' 1 4105 'patterns of at most 4096 bytes in all'

{ printf 'a: '; repeat '(' 500; printf empty; repeat ')' 500; } > "$list"
read_well '500 brackets' 1
{ printf 'a: '; repeat '(' 501; printf empty; repeat ')' 501; } > "$list"
refused '501 brackets' 1 504 'brackets at most 500 deep'

head -c 16777217 /dev/zero | tr '\0' ' ' > "$list"
refused 'a text one byte too long' 1 1 'a text of at most 16777216 bytes'

echo "notation: $passed cases passed, $failed failed"
[ $failed -eq 0 ] && [ $passed -gt 0 ]
