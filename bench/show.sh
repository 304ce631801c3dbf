#!/usr/bin/env bash
# Times `cqlp show` and `cqlp rows` on the pages that pages.py makes, beside a writer of the same text in Rust that is written by hand
# (show.rs), and sees that both write the same bytes. It prints the best of five runs of each, the processor's time, in MB of text a
# second, and their ratio; where valgrind is there, also the instructions for each byte of the text of a smaller page.
set -euo pipefail

here=$(dirname -- "$(readlink -f -- "${BASH_SOURCE[0]}")")
program=${CQLP:-$here/../crates/cqlp/out/cqlp}
room=$(mktemp -d)
trap 'rm -rf "$room"' EXIT

if [ -z "${CQLP:-}" ]; then "$here/../prove"; fi
rustc --edition 2021 -O -C codegen-units=1 -o "$room/by_hand" "$here/show.rs"

# The milliseconds of the processor that a program takes for a page, the best of five.
best() {
    local TIMEFORMAT='%3U %3S' least= one
    for _ in 1 2 3 4 5; do
        one=$({ time "$1" "$2" "$3" >/dev/null 2>&1; } 2>&1 | awk '{print ($1 + $2) * 1000}')
        if [ -z "$least" ] || [ "$one" -lt "$least" ]; then least=$one; fi
    done
    echo $((least > 0 ? least : 1))
}

instructions() {
    valgrind --tool=callgrind --callgrind-out-file=/dev/null "$1" "$2" "$3" 2>&1 >/dev/null | sed -n 's/.*Collected : //p'
}

ratio() {
    awk -v a="$1" -v b="$2" 'BEGIN { printf "%.2f", a / b }'
}

fewer=(rows 10000 collections 2000 columns 100 kinds 1000)
for ((k = 0; k < ${#fewer[@]}; k += 2)); do
    page=${fewer[k]}
    python3 "$here/pages.py" "$page" >"$room/page"
    python3 "$here/pages.py" "$page" "${fewer[k + 1]}" >"$room/fewer"
    for command in show rows; do
        "$program" "$command" "$room/page" >"$room/text" 2>/dev/null
        "$room/by_hand" "$command" "$room/page" | cmp - "$room/text"
        bytes=$(stat -c %s "$room/text")
        ours=$(best "$program" "$command" "$room/page")
        theirs=$(best "$room/by_hand" "$command" "$room/page")
        echo "$command $page: $((bytes / ours / 1000)) MB/s, by hand $((bytes / theirs / 1000)), ratio $(ratio "$theirs" "$ours")"
        if command -v valgrind >/dev/null; then
            bytes=$("$program" "$command" "$room/fewer" 2>/dev/null | wc -c)
            ours=$(instructions "$program" "$command" "$room/fewer")
            theirs=$(instructions "$room/by_hand" "$command" "$room/fewer")
            echo "  $(ratio "$ours" "$bytes") instructions a byte, by hand $(ratio "$theirs" "$bytes")"
        fi
    done
done
