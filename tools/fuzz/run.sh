#!/usr/bin/env bash
# Fuzzes the C entries with libFuzzer and AddressSanitizer (clang of Debian): tools/fuzz/run.sh [EXECUTIONS [SEED]].
# So many executions are made in all, a million if none are named: of 100, 70 with up to 64 tokens, 28 with up to 256, 2 with up to 4,400; JOBS
# processes at a time, one for each core. The last line says how many were made and how many findings there are; what was found is kept until the
# next run in target/fuzz/finding-*, with the log of its process, and fails the run.
# ARCHIVE names the archive; without it crates/vuolmaset/out/libvuolmaset.a is taken, which `rt lib` in crates/vuolmaset makes.
set -euo pipefail
root=$(cd "$(dirname "${BASH_SOURCE[0]}")/../.." && pwd)
archive=$(realpath -m "${ARCHIVE:-$root/crates/vuolmaset/out/libvuolmaset.a}")
cd "$root"
executions=${1:-1000000} seed=${2:-1} jobs=${JOBS:-$(nproc)}
[ -e "$archive" ] || (cd crates/vuolmaset && rt lib)

# clang with its runtime libraries, which newer Debians have in a package of their own.
install() { DEBIAN_FRONTEND=noninteractive apt-get install -y --no-install-recommends "$@" > /dev/null; }
has_runtime() { compgen -G "$(clang -print-resource-dir)/lib/linux/libclang_rt.fuzzer-*.a" > /dev/null; }
command -v clang > /dev/null || { apt-get update > /dev/null && install clang; }
has_runtime || install libclang-rt-dev || install "libclang-rt-$(clang -dumpversion | cut -d. -f1)-dev"

# The harness has no coverage instruments, which would cost most of the time: it tells libFuzzer itself what an input reached.
rm -rf target/fuzz
mkdir -p target/fuzz/start
clang -g -O2 -fsanitize=address,undefined -fno-sanitize-recover=undefined -Wall -Wextra -c tools/fuzz/fuzz.c -o target/fuzz/fuzz.o
clang -fsanitize=fuzzer,address,undefined target/fuzz/fuzz.o "$archive" -o target/fuzz/fuzz
# The answers that the judges agreed on are where it starts from.
python3 -B tools/fuzz/start.py tests/judged/*.txt target/fuzz/start

# The pieces of the whole, one a line: a number, the executions, and the longest input in bytes, four of them before the list.
pieces() {
    local number=0 share length left runs
    for share in 70:68 28:260 2:4404; do
        length=${share#*:} left=$((executions * ${share%:*} / 100))
        [ "$length" != 4404 ] || left=$((executions - executions * 70 / 100 - executions * 28 / 100))
        while [ "$left" -gt 0 ]; do
            runs=$((left < 500000 ? left : 500000))
            left=$((left - runs)) number=$((number + 1))
            echo "$number $runs $length"
        done
    done
}

# Makes one piece, and prints how many executions were made and how many findings.
piece() { # NUMBER RUNS LENGTH SEED
    local log=target/fuzz/log-$1 found=0 made
    mkdir -p "target/fuzz/found-$3"
    nice -n 10 target/fuzz/fuzz -runs="$2" -max_len="$3" -len_control=0 -seed="$(($4 * 10000 + $1))" -timeout=10 -print_final_stats=1 \
        -artifact_prefix="target/fuzz/finding-$1-" "target/fuzz/found-$3" target/fuzz/start > "$log" 2>&1 || found=1
    made=$(sed -n 's/^stat::number_of_executed_units: *//p' "$log")
    if [ "$found" = 1 ]; then mv "$log" "target/fuzz/finding-$1.log"; else rm "$log"; fi
    echo "${made:-0} $found"
}
export -f piece

# Adds up what the pieces print, and shows how far it is.
sum() {
    local all_made=0 all_found=0 made found
    while read -r made found; do
        all_made=$((all_made + made)) all_found=$((all_found + found))
        printf '\r%d of %d executions, %d findings, %d s ' "$all_made" "$executions" "$all_found" "$SECONDS" >&2
    done
    echo >&2
    echo "$all_made executions, $all_found findings"
    [ "$all_found" = 0 ] && [ "$all_made" -ge "$executions" ]
}

pieces | xargs -P "$jobs" -I '{}' bash -c "piece {} $seed" | sum
