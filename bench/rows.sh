#!/usr/bin/env bash
# Times the rows of Rust types and `feed` beside readers by hand, the least of so many runs in turn: rows.sh [ROUNDS], 15 by default. The program is rows/,
# which cargo compiles over dist/rust; the pages are those of pages.py.
set -euo pipefail

here=$(dirname -- "$(readlink -f -- "${BASH_SOURCE[0]}")")
room=$(mktemp -d)
trap 'rm -rf "$room"' EXIT

cargo build --release --offline --quiet --manifest-path "$here/rows/Cargo.toml" --target-dir "$here/out"
for page in rows collections columns; do
    python3 "$here/pages.py" "$page" >"$room/$page"
done
"$here/out/release/rows" "${1:-15}" "$room"/{rows,collections,columns}
