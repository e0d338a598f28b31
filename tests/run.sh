#!/usr/bin/env bash
# All tests. First those that need nothing built: a failure stops here. Then the toolchain's gate, which proves every crate, tries the must-fail
# edits and runs the programs; then what is run with the program that it has built, and with the archive. The last line is the gate's verdict.
set -euo pipefail
cd "$(dirname "${BASH_SOURCE[0]}")/.."

# A file of a program must be what a script prints.
made() { # FILE SCRIPT WORDS..
    local file=$1
    shift
    if python3 -B "$@" | cmp - "$file"; then
        echo "$file: as $* prints it"
    else
        echo "$file: not as $* prints it"
        echo "0 passed, 1 failed"
        exit 1
    fi
}

# A script must succeed.
passes() { # SCRIPT
    if ! bash "$1"; then
        echo "$1 failed"
        echo "0 passed, 1 failed"
        exit 1
    fi
}

python3 -B tests/names.py
python3 -B tests/grammar.py
python3 -B tests/contracts.py
python3 -B tools/believe.py --check
python3 -B tools/map.py --check
python3 -B tools/port.py
made crates/tokens_test/stdin tests/tokens.py --input
made crates/tokens_test/stdout tests/tokens.py
made crates/operators_test/stdout tests/operators.py
made crates/lookahead_test/stdin tests/lookahead.py --input
made crates/lookahead_test/stdout tests/lookahead.py
made crates/reader_test/stdin tests/reader.py --input
made crates/reader_test/stdout tests/reader.py
made crates/sheet/data/p1.sheet tests/sheet_files.py --p1
made examples/rms.sheet tests/sheet_files.py --example rms
made examples/sag.sheet tests/sheet_files.py --example sag
made examples/report.sheet tests/sheet_files.py --example report
made crates/printout_test/stdin tests/sheet_files.py --input
made crates/printout_test/stdout tests/sheet_files.py

# The gate. It passes a must-fail edit that cannot be applied, which shows nothing: here that is a failure.
log=$(mktemp)
trap 'rm -f "$log"' EXIT
rt ci </dev/null | tee "$log"
if ! grep -q '^rt: ok' "$log" || grep -q '^rt: ok.*, [0-9]* bad' "$log"; then
    echo "rt ci: a must-fail edit is bad, or there is no line 'rt: ok'"
    echo "0 passed, 1 failed"
    exit 1
fi
python3 -B tests/wrong.py
passes tests/sheet.sh
passes tests/archive.sh
passes tests/crate.sh
passes tests/tools.sh
grep -oE '^[0-9]+ passed, [0-9]+ failed' "$log" | tail -n 1
