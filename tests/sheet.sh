#!/usr/bin/env bash
# The program `sheet` as its users meet it: files, standard input, examples, what cannot be opened or read, files that never end.
# It needs crates/sheet/out/sheet, which `rt run` in crates/sheet and the gate build.
set -uo pipefail
cd "$(dirname "${BASH_SOURCE[0]}")/.."
sheet=$PWD/crates/sheet/out/sheet
work=$(mktemp -d)
trap 'rm -rf "$work"' EXIT
p1=$PWD/crates/sheet/data/p1.sheet
failed=0

# What the last run wrote to its two streams, and its status, are as they must be.
wrote() { # WHAT STDOUT-FILE STDERR
    local status=$?
    if ! cmp "$work/out" "$2" || [ "$(cat "$work/err")" != "$3" ] || [ "$status" != 0 ]; then
        echo "sheet, $1: status $status, standard error: $(cat "$work/err")"
        failed=1
    fi
}

run() { timeout 20 "$sheet" "$@" >"$work/out" 2>"$work/err"; }

printf 'bad file\n' >"$work/bad"
: >"$work/nothing"
long=$(printf '%04096d' 0)

run "$p1"
wrote 'a file' crates/sheet/stdout ''
run <"$p1"
wrote 'standard input' crates/sheet/stdout ''
{ head -c 5 "$p1"; sleep 0.2; tail -c +6 "$p1"; } | run
wrote 'standard input in two pieces' crates/sheet/stdout ''
for example in rms sag report; do
    run "examples/$example.sheet"
    wrote "examples/$example.sheet" "examples/$example.txt" ''
done
run examples/rms.js
wrote 'a text' "$work/bad" ''
run <"$work/nothing"
wrote 'no bytes' "$work/bad" ''
run /dev/zero
wrote 'a file with no end' "$work/bad" ''
run < <(cat "$p1" /dev/zero 2>/dev/null)
wrote 'a sheet and more, with no end' "$work/bad" ''
# The longest file that can be a sheet's, and the same with one byte more.
python3 -B tests/sheet_files.py --longest >"$work/longest"
{ cat "$work/longest"; printf '\0'; } >"$work/longer"
wc -c <"$work/longest" >"$work/out"
: >"$work/err"
printf '8204\n' >"$work/want"
wrote 'the bytes of the longest file' "$work/want" ''
printf 'refused 1 0\n' >"$work/want"
run "$work/longest"
wrote 'the longest file' "$work/want" ''
run <"$work/longest"
wrote 'the longest file as standard input' "$work/want" ''
run "$work/longer"
wrote 'a byte more than the longest file' "$work/bad" ''
run <"$work/longer"
wrote 'a byte more than the longest file as standard input' "$work/bad" ''
run "$work/none.sheet"
wrote 'a file that is not there' "$work/nothing" "sheet: $work/none.sheet: No such file or directory"
run "$work"
wrote 'a folder' "$work/nothing" "sheet: $work: Is a directory"
run ''
wrote 'no name' "$work/nothing" 'sheet: : No such file or directory'
run "$long"
wrote 'a name that is too long' "$work/nothing" "sheet: $long: File name too long"
run "$p1" "$p1"
wrote 'two names' "$work/nothing" 'usage: sheet [FILE]'
"$sheet" "$p1" 2>"$work/err" >/dev/full
wrote 'a full disk' "$work/out" 'sheet: standard output: No space left on device'

if [ "$failed" = 0 ]; then
    echo "sheet: as its users meet it"
fi
exit "$failed"
