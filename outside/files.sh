#!/usr/bin/env bash
# Makes every committed recording, vector and expected text anew: bash outside/files.sh [--check]
# With --check they are made in a folder beside, and compared with the committed ones.
set -euo pipefail
cd "$(dirname "$0")/.."
made=.
if [ "${1:-}" = --check ]; then
    made=$(mktemp -d)
    trap 'rm -rf "$made"' EXIT
    mkdir -p "$made/examples" "$made"/crates/{event_log,event_log_three,call_lists,call_lists_three,image_vectors}
fi

cargo build --release --offline --quiet --manifest-path outside/Cargo.toml
programs=${CARGO_TARGET_DIR:-outside/target}/release
python3 examples/recordings.py "$made/examples"
for recording in "$made"/examples/*.bin; do
    three=
    [[ $recording != *_three.bin ]] || three=--three
    "$programs/program" $three <"$recording" >"${recording%.bin}.txt"
done
"$programs/program" --files "$made/crates/event_log"
"$programs/program" --three --files "$made/crates/event_log_three"
"$programs/call_lists" --files "$made/crates/call_lists"
"$programs/call_lists_three" --files "$made/crates/call_lists_three"
python3 outside/image_vectors.py "$made/crates/image_vectors"

if [ "$made" != . ]; then
    count=0
    for file in "$made"/examples/* "$made"/crates/*/*; do
        cmp "${file#"$made/"}" "$file"
        count=$((count + 1))
    done
    echo "$count files, each as it is made"
fi
