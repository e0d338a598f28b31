#!/usr/bin/env bash
# Runs against the crate. A short part of the comparison with its own five files (tools/crate), where their folder is there: all operators, the three-way answer
# on all windows of 1 to 3 tokens, all lists of 1 to 3 and some random ones. Needs the archive, which tests/archive.sh builds. Then the judge for the crate's
# package, with stand-ins of its interface.
set -euo pipefail
cd "$(dirname "${BASH_SOURCE[0]}")/.."
said=$(mktemp)
trap 'rm -f "$said"' EXIT

# Without the folder there is one line.
status=0
OXC_SOURCE=/nowhere tools/crate/run.sh short > "$said" 2>&1 || status=$?
if [ "$status" != 3 ] || [ "$(wc -l < "$said")" != 1 ]; then
    cat "$said"
    echo "tools/crate/run.sh: a missing folder is not said in one line"
    exit 1
fi

status=0
tools/crate/run.sh short > "$said" 2>&1 || status=$?
case $status in
    0)
        grep -E '^(the five files|another text|run  |all  )' "$said"
        # The lists are fixed, and so are these counts: lists, comparisons, lists outside of the comparison, differences.
        if ! grep -qE '^all +7,330,429 +48,741,665 +13,531 +0 ' "$said"; then
            echo "tools/crate/run.sh short: other counts than those that are written down"
            exit 1
        fi
        ;;
    3) cat "$said" ;;
    *)
        cat "$said"
        echo "tools/crate/run.sh short failed"
        exit 1
        ;;
esac

if command -v node > /dev/null && [ -e "${ACORN:-/usr/share/nodejs/acorn}" ]; then
    node tests/oxc.js
else
    echo "the judge oxc-parser: not tried, Node or acorn is missing (apt-get install nodejs node-acorn)"
fi
