#!/usr/bin/env bash
# Holds a reader to acorn, babel, V8, TypeScript and SpiderMonkey, and to the plain reader of demand 3, over many token lists.
# JOBS processes, one for each core, at low priority; shows how far it is. Fails if a disagreement is of no known class (classes.js, docs/DIFFERENCES.md).
#
#     tools/judges/run.sh                          the usual runs: all lists to length 3, bracket-matched ones to 5, 20,000 random ones
#     tools/judges/run.sh million [SEED]           a million random ones, half of them up to 100 tokens, half up to 2,048
#     tools/judges/run.sh all [SEED]               all runs: bracket-matched ones to 6, the million random ones, 100,000 bindings
#     tools/judges/run.sh RUN..                    small:LENGTH | matched:LENGTH:ALPHABET | random:SEED:COUNT:LONGEST | pattern:SEED:COUNT:LONGEST
#
# oxc-parser of npm is a judge too where OXC_PARSER names the folder that it is installed in (tools/judges/oxc.sh installs it and calls this).
# READER names the reader: a program that answers the lines of readers/twin/src/protocol.rs. Without it the twin is asked.
set -euo pipefail
here=$(cd "$(dirname "${BASH_SOURCE[0]}")" && pwd)
readers=$here/../../readers
reader=$(realpath -m "${READER:-$readers/target/release/twin}")
cd "$here"

# Debian's parsers, where they are not there yet. What cannot be installed is left out.
need=()
[ -e /usr/share/nodejs/acorn ] || need+=(node-acorn)
[ -e /usr/share/nodejs/@babel/parser ] || need+=(node-babel7)
[ -e /usr/share/nodejs/typescript ] || need+=(node-typescript)
command -v gjs > /dev/null || need+=(gjs)
command -v node > /dev/null || need+=(nodejs)
if [ ${#need[@]} -gt 0 ]; then
    echo "installing ${need[*]}"
    { apt-get update && DEBIAN_FRONTEND=noninteractive apt-get install -y --no-install-recommends "${need[@]}"; } > /dev/null || echo "not all could be installed"
fi

(cd "$readers" && CARGO_BUILD_JOBS=1 nice -n 10 cargo build --release --quiet)

small=(small:1 small:2 small:3 matched:4:0 matched:4:1 matched:4:2 matched:5:0 matched:5:2)
million=("random:${2:-1}:500000:100" "random:${2:-1}:500000:2048")
case ${1:-usual} in
    usual) runs=("${small[@]}" random:1:20000:256 pattern:1:5000:100) ;;
    million) runs=("${million[@]}") ;;
    all) runs=("${small[@]}" matched:5:1 matched:6:0 matched:6:2 "${million[@]}" "pattern:${2:-1}:100000:300") ;;
    *) runs=("$@") ;;
esac
# Long chains are read by recursion: as much stack as there is.
ulimit -s unlimited 2> /dev/null || ulimit -s "$(ulimit -H -s)"
stack=$(ulimit -s)
[ "$stack" != unlimited ] || stack=65536
exec nice -n 10 node --stack-size=$((stack * 3 / 4)) judge.js --jobs "${JOBS:-$(nproc)}" --reader "$reader" "${runs[@]}"
