#!/usr/bin/env bash
# Times the encoder on the pages that pages.py makes, as values in memory. The program in pages/, which cargo compiles over dist/rust, writes
# each page once and 21 times into a Vec, whole, cell by cell or by `append`, and so does encode.rs, an encoder written by hand, with and without a
# check of what it writes. A twentieth of the difference, in time of the processor, is the time of one writing: of the best of five of each,
# and printed with its MB/s.
set -euo pipefail

here=$(dirname -- "$(readlink -f -- "${BASH_SOURCE[0]}")")
program=$here/out/release/pages
room=$(mktemp -d)
trap 'rm -rf "$room"' EXIT

cargo build --release --offline --quiet --manifest-path "$here/pages/Cargo.toml" --target-dir "$here/out"
rustc --edition 2021 -O -C codegen-units=1 -o "$room/by_hand" "$here/encode.rs"

# The milliseconds of the processor that a program takes for a line.
spent() {
    local TIMEFORMAT='%3U %3S'
    { time "$1" <<<"$2" >"$room/printed" 2>/dev/null; } 2>&1 | awk '{print ($1 + $2) * 1000}'
}

# The microseconds of one writing of a page: the best of five with many writings less the best of five with one.
once() {
    local least_one= least_many= one many page=$2 how=${3:-}
    for _ in 1 2 3 4 5; do
        one=$(spent "$1" "$page 1 $how")
        many=$(spent "$1" "$page 21 $how")
        if [ -z "$least_one" ] || [ "$one" -lt "$least_one" ]; then least_one=$one; fi
        if [ -z "$least_many" ] || [ "$many" -lt "$least_many" ]; then least_many=$many; fi
    done
    echo $((least_many > least_one ? (least_many - least_one) * 50 : 1))
}

print_time() {
    echo "  $1: $2 us, $((bytes / $2)) MB/s"
}

for page in 'rows 1000000' 'collections 200000' 'columns 5000' 'blobs 96'; do
    by_hand=$(once "$room/by_hand" "$page")
    bytes=$(sed 's/.*: \([0-9]*\) bytes.*/\1/' "$room/printed")
    echo "$page, $bytes bytes"
    print_time 'by hand' "$by_hand"
    print_time 'by hand, checked' "$(once "$room/by_hand" "$page" checked)"
    print_time encode "$(once "$program" "$page")"
    print_time 'cell by cell' "$(once "$program" "$page" cells)"
    print_time append "$(once "$program" "$page" append)"
done
