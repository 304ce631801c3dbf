#!/usr/bin/env bash
# Times cqlp on 200,000 mixed requests and responses (about 20 MB), with its lines to /dev/null: bench/mixed_frames.sh [FRAMES]
# Then it counts instructions on a tenth of them, where valgrind is there. The program is the proved one, or $CQLP.
set -eu

here=$(dirname -- "$(readlink -f -- "${BASH_SOURCE[0]}")")
frames=${1:-200000}
room=$(mktemp -d)
trap 'rm -rf "$room"' EXIT

python3 "$here/mixed_frames.py" "$frames" >"$room/frames"
python3 "$here/mixed_frames.py" "$((frames / 10))" >"$room/fewer"
program=${CQLP:-$here/../crates/cqlp/out/cqlp}
if [ -z "${CQLP:-}" ]; then "$here/../prove"; fi
echo "$frames frames, $(stat -c %s "$room/frames") bytes, $("$program" <"$room/frames" 2>/dev/null | wc -l) lines"

for _ in 1 2 3; do
    start=$(date +%s%N)
    "$program" <"$room/frames" >/dev/null 2>&1
    spent=$(($(date +%s%N) - start))
    echo "$((spent / 1000000)) ms, $(($(stat -c %s "$room/frames") * 1000 / (spent + 1))) MB/s"
done

if command -v valgrind >/dev/null; then
    valgrind --tool=callgrind --callgrind-out-file="$room/calls" "$program" <"$room/fewer" >/dev/null 2>"$room/log"
    count=$(sed -n 's/.*Collected : //p' "$room/log")
    lines=$("$program" <"$room/fewer" 2>/dev/null | wc -l)
    checked=$(valgrind --tool=callgrind --callgrind-out-file=/dev/null "$program" check "$room/fewer" 2>&1 >/dev/null | sed -n 's/.*Collected : //p')
    echo "$((checked / lines)) instructions an event of check; $((count / $(stat -c %s "$room/fewer"))) a byte of show, by function:"
    callgrind_annotate "$room/calls" | grep -E '^ *[0-9,]+ \(' | head -9 | sed 's/ \[.*//; s/???://'
fi
