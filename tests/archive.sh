#!/usr/bin/env bash
# The archive for other languages: builds it over the crates that are proved already, and runs the tests in C and in Rust that link it. gcc and
# cargo are installed if they are missing; the oldest Rust that is enough is Debian 12's.
set -euo pipefail
cd "$(dirname "${BASH_SOURCE[0]}")/.."
source tests/need.sh
need gcc gcc
need cargo cargo
export RUSTFLAGS='-D warnings'
(cd crates/vuolmaset && rt lib) < /dev/null
mkdir -p target
if [ "$(nm -u crates/vuolmaset/out/libvuolmaset.a | sed -n 's/^ *U //p')" != memset ]; then
    echo "the archive wants other functions than include/vuolmaset.h says"
    exit 1
fi
gcc -std=c11 -O2 -Wall -Wextra -Wpedantic -Werror bindings/c/sheets.c crates/vuolmaset/out/libvuolmaset.a -o target/sheets_c
target/sheets_c
cargo test --quiet --offline --manifest-path bindings/rust/Cargo.toml --target-dir target/rust
echo "Rust: all as expected"

# The linked archive gives the answers that other parsers agreed on, and those of the sheets.
(cd readers && cargo build --quiet --offline --release -p archive --target-dir ../target/harness)
bash tests/judged/replay.sh target/harness/release/answer
python3 -B tests/sheets.py target/harness/release/answer

# What a reading and a conversion take grows as the list does: instructions, which are the same on a machine that does other work besides.
need valgrind valgrind
(cd bench/harness && cargo build --quiet --offline --release --features archive --bin count --bin search --bin sheets --target-dir ../../target/harness)
target/harness/release/count growth

# The stack. The bound from the object code is at most what the header and the crate name, and is lost where no call is counted. No list of a short
# search takes more than the bound for its brackets. The lists that take the most run on as much stack as is named, and on less they are stopped.
need objdump binutils
python3 -B tests/stack.py
python3 -B tools/stack.py --ways target/stack_ways > target/stack_table || { cat target/stack_table; exit 1; }
grep '^- ' target/stack_table
if python3 -B tools/stack.py --uncut > target/stack_uncut || ! grep -q '^- vuolmaset_read: no bound: a cycle' target/stack_uncut; then
    echo "tools/stack.py: no cycle where no call is counted"
    exit 1
fi
target/harness/release/search short target/stack_ways target/stack_lists 2> target/stack_progress || { cat target/stack_progress; exit 1; }
gcc -std=c11 -O2 -Wall -Wextra -Wpedantic -Werror -pthread bindings/c/stack.c crates/vuolmaset/out/libvuolmaset.a -o target/stack_c
target/stack_c < target/stack_lists
