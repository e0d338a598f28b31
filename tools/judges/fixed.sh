#!/usr/bin/env bash
# Makes tests/judged/lists.txt anew: judges made lists and keeps 5,000 answers on which all strict judges agree with the reader.
set -euo pipefail
here=$(cd "$(dirname "${BASH_SOURCE[0]}")" && pwd)
kept=$(mktemp)
trap 'rm -f "$kept"' EXIT
"$here/run.sh" --keep "$kept" small:1 small:2 small:3 matched:4:0 matched:4:1 matched:5:0 matched:5:2 random:101:60000:48 random:102:4000:300 pattern:103:15000:40
mkdir -p "$here/../../tests/judged"
python3 -B "$here/pick.py" 5000 "$kept" > "$here/../../tests/judged/lists.txt"
