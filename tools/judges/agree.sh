#!/usr/bin/env bash
# Compares both twins and the plain reader of demand 3 within one process, by both entries (readers/lists/src/bin/agree.rs): tools/judges/agree.sh [SEED [COUNT]].
# All lists to length 3, all bracket-matched ones of 4 to 6 over three alphabets, COUNT random ones to 2,048 tokens (a million), half as many bindings,
# and half as many lists for the checks.
set -euo pipefail
cd "$(dirname "${BASH_SOURCE[0]}")/../../readers"
CARGO_BUILD_JOBS=1 nice -n 10 cargo build --release --quiet
seed=${1:-1} count=${2:-1000000}
runs() {
    local length alphabet
    for length in 1 2 3; do echo "small $length"; done
    for length in 4 5 6; do for alphabet in 0 1 2; do echo "matched $length $alphabet"; done; done
    echo "random $seed 0 $count 2048"
    echo "pattern $seed 0 $((count / 2)) 2048"
    echo "checks $seed 0 $((count / 2)) 2048"
}
# Each run prints a line, and fails where something is unlike. The last line is the sum.
runs | while read -r run; do
    # shellcheck disable=SC2086
    nice -n 10 target/release/agree $run | tee /dev/stderr
done | awk -F ': |, ' '{ readings += $2; read += $3; clean += $4; abandoned += $5; early += $7; unlike += $8 }
    END { printf "all: %d readings, %d read, %d of them clean, %d heads abandoned, %d with the early commit, %d unlike\n", readings, read, clean, abandoned, early, unlike }'
