#!/usr/bin/env bash
# Times `cqlp capture` (lines, --summary, --streams) on captures that captures.py makes, of 300 MB: of 50 connections at a time, with 1.2 million packets;
# of 1,000 connections at a time; of pages, whole and with each second segment with bytes lost; of small requests; and of 3,000 and 30,000 connections. The
# program is the released one, which is compiled by the profile `dist`, or CQLP, and the proved one, crates/cqlp/out/cqlp or CQLP_PROVED, where it is there.
# They run in turn, and a line says how many times as long the proved one takes. And the example `streams` of the package for cargo, which hands on what each
# end of each connection sent, and writes nothing but a line for each direction.
# Beside them tcpflow, tcptrace and tshark, where they are installed, once each: files of both directions of each connection (tcpflow, tcptrace -e), their
# totals (tcptrace -n, tshark -z conv,tcp), and a line for each packet with a message (tshark -Y cql), and how many times as long that takes as lines do.
# The word after it is another size in MB, and those after that are the kinds of captures.
set -eu

here=$(dirname -- "$(readlink -f -- "${BASH_SOURCE[0]}")")
size=${1:-300}
kinds=("${@:2}")
[ $# -gt 1 ] || kinds=(mixed thousand whole lost small few many)
room=$(mktemp -d)
trap 'rm -rf "$room"' EXIT
export CARGO_TARGET_DIR=$here/../dist/out/rust
# As dist/release compiles it.
[ "$(uname -m)" != x86_64 ] || export RUSTFLAGS="${RUSTFLAGS:-} -C target-feature=+crt-static -C llvm-args=-x86-branches-within-32B-boundaries"
(cd "$here/../dist/rust" && cargo build --offline --profile dist --features cli --bin cqlp --example streams)
programs=("${CQLP:-$CARGO_TARGET_DIR/dist/cqlp}" "${CQLP_PROVED:-$here/../crates/cqlp/out/cqlp}")
[ -x "${programs[1]}" ] || unset 'programs[1]'
compilers=(cargo proved)

# Runs a command on a capture in a new folder, flows, and adds the processor time that it takes and its resident memory to a file.
spend() {
    local spent=$1
    shift
    rm -rf "$room/flows"
    mkdir "$room/flows"
    (cd "$room/flows" && "$here/spend.py" "$spent" "$@")
}

# Prints the least of the times in a file, and leaves it in another one.
print_least() {
    local name=$1 spent=$2
    awk -v name="$name" -v bytes="$(stat -c %s "$room/capture")" -v least="$3" '
        NR == 1 || $1 < best { best = $1 }
        $2 > most { most = $2 }
        END {
            printf "  %s: %.1f ms of the processor, %d MB/s, %.1f MiB resident\n", name, best, bytes / best / 1e3, most / 1024
            print best >least
        }' "$spent"
}

# Runs a command so many times.
measure() {
    local runs=$1 name=$2
    shift 2
    rm -f "$room/spent"
    for ((; runs > 0; runs--)); do
        spend "$room/spent" "$@"
    done
    print_least "$name" "$room/spent" "$room/best"
}

# Runs `cqlp capture` with these words of each program, ROUNDS times (9) in turn.
measure_both() {
    local name=$1 run at
    shift
    rm -f "$room"/spent.* "$room"/best.*
    for ((run = ${ROUNDS:-9}; run > 0; run--)); do
        for at in "${!programs[@]}"; do
            spend "$room/spent.$at" "${programs[at]}" capture "$@" "$room/capture"
        done
    done
    for at in "${!programs[@]}"; do
        print_least "$name, ${compilers[at]}" "$room/spent.$at" "$room/best.$at"
    done
    [ ! -e "$room/best.1" ] || paste "$room"/best.[01] | awk '$1 > 0 { printf "  proved / cargo: %.2f\n", $2 / $1 }'
}

beside() {
    local own=$1
    if command -v tcpflow >/dev/null; then
        measure 1 tcpflow tcpflow -q -r "$room/capture" -o "$room/flows"
    fi
    if command -v tcptrace >/dev/null; then
        measure 1 'tcptrace -n' tcptrace -n "$room/capture"
        measure 1 'tcptrace -e' tcptrace -n -e "$room/capture"
    fi
    if command -v tshark >/dev/null; then
        measure 1 'tshark -z conv,tcp' tshark -q -n -r "$room/capture" -z conv,tcp
        measure 1 'tshark -Y cql' tshark -n -r "$room/capture" -Y cql
        awk -v own="$own" 'own > 0 { printf "  that is %.1f times as long as the lines\n", $1 / own }' "$room/best"
    fi
}

for kind in "${kinds[@]}"; do
    python3 "$here/captures.py" "$kind" "$room/capture" "$size"
    echo "$kind: $(stat -c %s "$room/capture") bytes"
    own=0
    measure 3 'the example' "$CARGO_TARGET_DIR/dist/examples/streams" "$room/capture"
    if [ -x "${programs[0]}" ]; then
        # Of 1,000 connections at a time the program writes two files for nearly each segment.
        [[ $kind =~ ^(thousand|many)$ ]] || measure_both --streams --streams "$room/flows"
        measure_both --summary --summary
        measure_both --json --json
        measure_both --events --events
        measure_both --rows --rows --connection 1
        measure_both lines
        own=$(<"$room/best.0")
        "${programs[0]}" capture "$room/capture" 2>&1 >/dev/null | tail -n 1
    fi
    beside "$own"
done
for other in tcpflow tcptrace tshark; do
    command -v "$other" >/dev/null || echo "$other is not installed"
done
