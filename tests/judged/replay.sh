#!/usr/bin/env bash
# Replays the fixed list on a reader: tests/judged/replay.sh READER [WORD..]. READER answers the lines of readers/twin/src/protocol.rs.
set -euo pipefail
list=$(dirname "${BASH_SOURCE[0]}")/lists.txt
count=$(grep -vc '^#' "$list")
unlike=$(diff <(grep -v '^#' "$list" | sed 's/ > .*//' | "$@") <(grep -v '^#' "$list" | sed 's/.* > //') || true)
if [ -n "$unlike" ]; then
    head -20 <<< "$unlike"
    echo "the answers of $1 are not those of $list"
    exit 1
fi
echo "$count answers as in $list"
