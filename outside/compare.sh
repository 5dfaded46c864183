#!/usr/bin/env bash
# Compares what is proved with the outside implementation: bash outside/compare.sh CASES LISTS SEED
# So many cases go through the library for C and the event programs, so many lists of calls through `call_lists`, and a quarter as many and a hundred more
# through `call_lists_three`; they are the same whenever the numbers are.
# Each comparison ends at its first difference. Fails if one did, and if some kind of record, why, refusal, phase, event or mark was never seen.
set -euo pipefail
cd "$(dirname "$0")/.."
[ $# = 3 ] || { echo "bash outside/compare.sh CASES LISTS SEED" >&2; exit 2; }
make --no-print-directory all programs
export PROVED_LIB_DIR=$PWD/target/staticlib
cargo build --release --offline --quiet --features proved --manifest-path outside/Cargo.toml
programs=${CARGO_TARGET_DIR:-outside/target}/release
lists=$(mktemp)
trap 'wait; rm -f "$lists"' EXIT

# The lists go beside the cases: each comparison takes one processor.
{
    "$programs/call_lists" "$2" "$3" --require-all --program target/bin/call_lists &&
        "$programs/call_lists_three" "$(($2 / 4 + 100))" "$3" --require-all --program target/bin/call_lists_three
} >"$lists" 2>&1 &
alike=0
"$programs/compare" "$1" "$3" --require-all --program target/bin/event_log --program-three target/bin/event_log_three || alike=$?
wait $! || alike=$?
cat "$lists"
exit "$alike"
