#!/usr/bin/env bash
# Counts, by valgrind, the instructions of one cell of a page that pages.py makes: of the decoder alone, with a column for each, with batches, and read as a
# page. They are what a longer page costs more than a shorter one, for each cell that it has more. The program is columns/, which cargo compiles over dist/rust.
set -euo pipefail

here=$(dirname -- "$(readlink -f -- "${BASH_SOURCE[0]}")")
program=$here/out/release/columns
room=$(mktemp -d)
trap 'rm -rf "$room"' EXIT

cargo build --release --offline --quiet --manifest-path "$here/columns/Cargo.toml" --target-dir "$here/out"

# The cells of a page, and the instructions that the program takes for it.
count() {
    python3 "$here/pages.py" "$1" "$3" >"$room/page"
    "$program" "$1" "$2" <"$room/page"
    valgrind --tool=callgrind --callgrind-out-file=/dev/null "$program" "$1" "$2" <"$room/page" 2>&1 >/dev/null | sed -n 's/.*Collected : //p'
}

rows=(columns 50 150 rows 3000 9000 kinds 500 1500)
for ((k = 0; k < ${#rows[@]}; k += 3)); do
    page=${rows[k]}
    for way in alone each batches pages; do
        { count "$page" "$way" "${rows[k + 1]}"; count "$page" "$way" "${rows[k + 2]}"; } | xargs |
            awk -v name="$page, $way" '{ printf "%s: %.0f instructions a cell\n", name, ($4 - $2) / ($3 - $1) }'
    done
done
