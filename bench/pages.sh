#!/usr/bin/env bash
# Times the program in pages/, which cargo compiles over dist/rust, where it reads a stream in pieces of 4,096 bytes and counts its events, on
# the pages that pages.py makes: with their metadata, and without it, where the same types are given. Where valgrind is there, it
# counts instructions for each event on a smaller page of each kind.
set -eu

here=$(dirname -- "$(readlink -f -- "${BASH_SOURCE[0]}")")
program=$here/out/release/pages
room=$(mktemp -d)
trap 'rm -rf "$room"' EXIT

cargo build --release --offline --quiet --manifest-path "$here/pages/Cargo.toml" --target-dir "$here/out"

# Times the program on a page; the words after it are the program's.
measure() {
    local page=$1
    shift
    echo "$(stat -c %s "$page") bytes, $("$program" count "$@" <"$page")"
    for _ in 1 2 3; do
        start=$(date +%s%N)
        "$program" count "$@" <"$page" >/dev/null
        spent=$(($(date +%s%N) - start))
        echo "  $((spent / 1000000)) ms, $(($(stat -c %s "$page") * 1000 / (spent + 1))) MB/s"
    done
    if [ -x /usr/bin/time ]; then
        /usr/bin/time -f '  %M KiB resident' "$program" count "$@" <"$page" 2>&1 >/dev/null
    fi
}

# Counts instructions on a smaller page.
count() {
    local page=$1
    shift
    if command -v valgrind >/dev/null; then
        events=$("$program" count "$@" <"$page" | cut -d' ' -f1)
        valgrind --tool=callgrind --callgrind-out-file="$room/calls" "$program" count "$@" <"$page" >/dev/null 2>"$room/log"
        echo "  $(($(sed -n 's/.*Collected : //p' "$room/log") / events)) instructions an event; by function:"
        callgrind_annotate "$room/calls" | grep -E '^ *[0-9,]+ \(' | sed -n '2,6s/ \[.*//; 2,6s/???://; 2,6p'
    fi
}

fewer=(rows 20000 collections 4000 columns 200 blobs 4)
for ((k = 0; k < ${#fewer[@]}; k += 2)); do
    page=${fewer[k]}
    types=$(python3 "$here/pages.py" "$page" types)
    python3 "$here/pages.py" "$page" >"$room/page"
    python3 "$here/pages.py" "$page" "${fewer[k + 1]}" >"$room/fewer"
    echo "$page: $(measure "$room/page")"
    count "$room/fewer"
    python3 "$here/pages.py" "$page" bare >"$room/page"
    python3 "$here/pages.py" "$page" bare "${fewer[k + 1]}" >"$room/fewer"
    echo "$page, types given: $(measure "$room/page" "$types")"
    count "$room/fewer" "$types"
done
