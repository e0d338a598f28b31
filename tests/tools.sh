#!/usr/bin/env bash
# The tools for the bench: tools/sheet, its pictures and docs/GUIDE.md; and the sheets that are measured. Needs crates/sheet/out/sheet, what
# tests/archive.sh builds, and Node with Debian's acorn, which are installed if they are missing.
set -euo pipefail
cd "$(dirname "${BASH_SOURCE[0]}")/.."
source tests/need.sh
need node nodejs
need "${ACORN:-/usr/share/nodejs/acorn}" node-acorn
target/harness/release/sheets | node tests/bench_sheets.js
exec node tests/tools.js
