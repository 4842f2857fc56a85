#!/usr/bin/env bash
# Compares the model's library for C with the independent implementation (docs/comparison.md). It is no part of the gate.
#
#     tools/compare.sh [SEED [RUNS]]    random runs and listings; before them, that each change made on purpose is noticed
#     tools/compare.sh speed            turns a second of both, as a table
#
# It proves and builds crates/model first (`rt lib`), and builds the harness with cargo, which loads nothing. The status is 0
# if there was no difference.
set -euo pipefail
cd "$(dirname "$0")/.."

told="$(mktemp)"
trap 'rm -f "$told"' EXIT
echo "rt lib in crates/model"
if ! (cd crates/model && rt lib) >"$told" 2>&1; then
    cat "$told"
    exit 1
fi
tail -n 1 "$told"

(cd bench/harness && cargo build --release --offline)
harness=bench/harness/target/release/harness

if [ "${1-}" = speed ]; then
    "$harness" speed
    exit
fi

# A comparison that can't fail shows nothing: each of these changes one answer of the independent side, and must be noticed.
for change in $("$harness" --break list); do
    status=0
    "$harness" --break "$change" 1 5000 >"$told" || status=$?
    if [ "$status" != 1 ] || ! grep -q '^DIFFERENCE' "$told" || ! grep -q '^Smallest prefix that shows it' "$told"; then
        echo "the change '$change' was not noticed: status $status"
        tail -n 5 "$told"
        exit 1
    fi
    echo "changed on purpose, and noticed: $change. $(grep -m 1 '^Smallest prefix' "$told")"
done

"$harness" "$@"
