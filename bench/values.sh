#!/usr/bin/env bash
# Times write_value of the library that dist/erase makes, beside a writer by hand (bench/values.rs).
set -euo pipefail

here=$(dirname -- "$(readlink -f -- "${BASH_SOURCE[0]}")")
room=$(mktemp -d)
trap 'rm -rf "$room"' EXIT

mkdir "$room/src"
cp "$here/values.rs" "$room/src/main.rs"
cat >"$room/Cargo.toml" <<END
[package]
name = "values"
version = "0.1.0"
edition = "2024"
[dependencies]
cqlp = { path = "$here/../dist/rust" }
[profile.release]
codegen-units = 1
[workspace]
END
cargo run -q --release --offline --manifest-path "$room/Cargo.toml" --target-dir "${CARGO_TARGET_DIR:-$room/target}"
