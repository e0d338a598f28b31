#!/usr/bin/env bash
# Holds one reader to another, answer by answer and word by word: tools/judges/same.sh [READER [OTHER]]. Both answer the lines of readers/twin/src/protocol.rs.
# Without READER it is the tuned twin, without OTHER the plain one.
set -euo pipefail
here=$(cd "$(dirname "${BASH_SOURCE[0]}")" && pwd)
readers=$here/../../readers
programs=$readers/target/release
lists=$programs/lists
(cd "$readers" && CARGO_BUILD_JOBS=1 nice -n 10 cargo build --release --quiet)
asked=$(mktemp)
trap 'rm -f "$asked"' EXIT
same() { # NAME COMMAND..
    local name=$1
    shift
    nice -n 10 "$@" > "$asked"
    cmp <(nice -n 10 "$reader" < "$asked") <(nice -n 10 "$other" < "$asked")
    echo "$(wc -l < "$asked") answers the same: $name"
}
reader=${1:-$programs/tuned}
other=${2:-$programs/twin}
for length in 1 2 3; do same "all lists of $length" "$lists" small "$length"; done
same "bracket-matched lists of 5" "$lists" matched 5 1
same "bracket-matched lists of 6" "$lists" matched 6 0
same "random lists to 64" "$lists" random 51 0 300000 64
same "random lists to 2,048" "$lists" random 52 0 20000 2048
same "bindings to 100" "$lists" pattern 53 0 100000 100
same "brackets and bytes for the checks" "$lists" checks 54 0 20000 2048
same "trees, heads and operators" python3 -B "$here/questions.py" 77 30000 "$lists" "$reader"
