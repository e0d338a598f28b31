#!/usr/bin/env bash
# Measures the archive beside both twins, and writes the tables of docs/PERFORMANCE.md between their marker comments; the text around them stays.
#
#     bench/run.sh              all parts: times instructions where stack size context
#     bench/run.sh PART..       some of them
#
# VUOLMASET_ARCHIVE names the archive; without it, it is the one that `rt lib` in crates/vuolmaset writes. ROUNDS: how often is timed, 300. The part stack
# also shows the bound of the archive's stack, and holds each list of its search to it, from two files that are made before, as tests/archive.sh does:
#
#     python3 -B tools/stack.py --ways target/stack_ways ARCHIVE > target/stack_table
set -euo pipefail
shopt -s inherit_errexit
export VUOLMASET_ARCHIVE
here=$(cd "$(dirname "${BASH_SOURCE[0]}")" && pwd)
VUOLMASET_ARCHIVE=$(realpath -m "${VUOLMASET_ARCHIVE:-$here/../crates/vuolmaset/out/libvuolmaset.a}")
document=$here/../docs/PERFORMANCE.md
bound=$here/../target/stack_table
ways=$here/../target/stack_ways
programs=$here/harness/target/release
rounds=${ROUNDS:-300}

# Debian's packages, where they are not there yet.
install_missing() {
    local need=()
    command -v valgrind > /dev/null || need+=(valgrind)
    command -v objdump > /dev/null || need+=(binutils)
    command -v lscpu > /dev/null || need+=(util-linux)
    command -v node > /dev/null || need+=(nodejs)
    [ -e /usr/share/nodejs/acorn ] || need+=(node-acorn)
    [ -e /usr/share/nodejs/@babel/parser ] || need+=(node-babel7)
    [ ${#need[@]} -gt 0 ] || return 0
    echo "installing ${need[*]}"
    { apt-get update && DEBIAN_FRONTEND=noninteractive apt-get install -y --no-install-recommends "${need[@]}"; } > /dev/null
}

# What stands in the document between the markers of a part.
section() { # PART
    sed -n "/^<!-- $1 -->\$/,/^<!-- end of $1 -->\$/p" "$document"
}

# Puts a text between the markers of a part.
fill() { # PART TEXT
    local new
    new=$(PART=$1 TEXT=$2 awk '
        $0 == "<!-- end of " ENVIRON["PART"] " -->" { print ""; inside = 0; found = 1 }
        !inside { print }
        $0 == "<!-- " ENVIRON["PART"] " -->" { print ""; print ENVIRON["TEXT"]; inside = 1 }
        END { exit !found }' "$document") || { echo "no markers of $1 in $document" >&2; return 1; }
    printf '%s\n' "$new" > "$document"
}

# Nanoseconds a token of the three readers, in turns.
part_times() {
    echo "Processor, as \`lscpu\` names it: $(lscpu | sed -n 's/^Model name: *//p'). Compiler of the twins: $(rustc --version | cut -d' ' -f1,2)."
    echo
    "$programs/bench" "$rounds"
}

# Instructions a token of the three readers, and how they grow.
part_instructions() { "$programs/count"; }

# Where they go on the real sheets, whose tokens the table before tells.
part_where() { python3 -B "$here/where.py" "$programs/count" "$(section instructions | awk -F'|' '$2 ~ /real sheets/ { print $3 + 0; exit }')"; }

# The deepest byte of a painted stack that each reader writes to; the bound from the object code; and the lists that come nearest to it.
part_stack() {
    local file
    for file in "$bound" "$ways"; do
        [ "$file" -nt "$VUOLMASET_ARCHIVE" ] || { echo "no bound of this archive in $file: the head of bench/run.sh says how it is made" >&2; return 1; }
    done
    "$programs/stack"
    echo
    echo "The bound from the object code, by frames and calls in bytes."
    echo
    cat "$bound"
    echo
    echo "The lists and trees that take the most, of all that were tried."
    echo
    "$programs/search" "$ways"
}

# The bytes of the archive's sections, by what they hold.
part_size() {
    echo "| of the archive's objects | sections | bytes |"
    echo "|---|---|--:|"
    size -A "$VUOLMASET_ARCHIVE" | awk '
        $1 ~ /^\.text/ { code += $2 }
        $1 ~ /^\.(rodata|data\.rel\.ro)/ { constant += $2; next }
        $1 ~ /^\.eh_frame/ { unwind += $2 }
        $1 ~ /^\.(data|bss|tdata|tbss)/ { state += $2 }
        END {
            printf "| code | `.text*` | %d |\n| read-only data | `.rodata*` | %d |\n", code, constant
            printf "| tables for unwinding | `.eh_frame` | %d |\n| data that can be written | `.data*`, `.bss*` | %d |\n", unwind, state
        }'
}

# The same sheets through parsers of JavaScript text. Long chains are read by recursion: as much stack as there is.
part_context() {
    ulimit -s unlimited 2> /dev/null || ulimit -s "$(ulimit -H -s)"
    local stack
    stack=$(ulimit -s)
    [ "$stack" != unlimited ] || stack=65536
    "$programs/sheets" | node --no-compilation-cache --stack-size=$((stack * 3 / 4)) "$here/context.js" 100 <(section times)
}

[ -e "$VUOLMASET_ARCHIVE" ] || { echo "no archive at $VUOLMASET_ARCHIVE: (cd crates/vuolmaset && rt lib) builds it" >&2; exit 1; }
install_missing
(cd "$here/harness" && cargo build --quiet --offline --release --features archive)
[ $# -gt 0 ] || set -- times instructions where stack size context
for part in "$@"; do
    echo "measuring: $part"
    declare -F "part_$part" > /dev/null || { echo "no such part: $part" >&2; exit 1; }
    text=$("part_$part")
    fill "$part" "$text"
done
