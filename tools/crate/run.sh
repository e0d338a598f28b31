#!/usr/bin/env bash
# Holds the archive to the crate's own five files, list by list: tools/crate/run.sh [--source FOLDER] [short RUN.. | all RUN.. | guesses RUN.. | RUN.. | one ..]
#
#     short      a few seconds, without building: what tests/crate.sh runs
#     all        everything of docs/DIFFERENCES.md, some minutes
#     guesses    what the stand-ins decide, decided in other ways
#     RUN        one of those that tools/crate/src/main.rs names
#
# FOLDER, or OXC_SOURCE, has arrow.rs, grammar.rs, operator.rs, binding.rs and object.rs of oxc_parser 0.156.0 (its src/js). They are compiled where they lie;
# nothing of them is in this repository. ARCHIVE names another archive than that of `rt lib` in crates/vuolmaset; READER=twin asks readers/twin instead. JOBS says
# how many threads there are, SECONDS_EACH when a run is stopped (600). Fails on a difference of no known class (src/compare/classes.rs).
set -euo pipefail
here=$(cd "$(dirname "${BASH_SOURCE[0]}")" && pwd)
root=$(cd "$here/../.." && pwd)
source=${OXC_SOURCE:-$root/../shared/docs/src/src/js}
if [ "${1:-}" = --source ]; then
    source=${2:?--source wants a folder}
    shift 2
fi
source=$(realpath -m "$source")

# What is missing is said in one line; status 3 tells the tests to leave this out.
leave_out() {
    echo "tools/crate: left out, $1"
    exit 3
}
while read -r _ file; do
    [ -f "$source/$file" ] || leave_out "no $file in $source (OXC_SOURCE names the folder src/js of oxc_parser 0.156.0)"
done < "$here/sums.txt"
command -v cargo > /dev/null || leave_out "no cargo"
printf '1.88\n%s\n' "$(rustc --version | cut -d' ' -f2)" | sort --check=quiet --version-sort || leave_out "rustc is older than 1.88, which the crate's text needs"

# Which text is run.
if other=$(cd "$source" && sha256sum --check --quiet "$here/sums.txt" 2> /dev/null); then
    echo "the five files of oxc_parser 0.156.0, at $source"
else
    echo "another text than oxc_parser 0.156.0 is run: $(cut -d: -f1 <<< "$other" | paste -sd' ') at $source"
fi

# Who is asked.
export OXC_SOURCE=$source
OXC_SUM=$(cd "$source" && cut -d' ' -f3 "$here/sums.txt" | xargs cat | sha256sum | cut -d' ' -f1)
export OXC_SUM
features=()
if [ "${READER:-archive}" = archive ]; then
    export VUOLMASET_ARCHIVE=${ARCHIVE:-$root/crates/vuolmaset/out/libvuolmaset.a}
    [ -f "$VUOLMASET_ARCHIVE" ] || leave_out "no archive at $VUOLMASET_ARCHIVE (cd crates/vuolmaset && rt lib)"
    features=(--features archive)
fi
target=${CRATE_TARGET:-$root/target/crate}
(cd "$here" && cargo build --quiet --offline --release "${features[@]}" --target-dir "$target")

parts=(read pattern object convert)
runs_of() { # LISTS..
    local part lists
    for part in "${parts[@]}"; do for lists in "$@"; do echo "$part:$lists"; done; done
}
mapfile -t short < <(printf '%s\n' operators three:windows:{1,2,3} three:looked:4 three:words:{2,3} && runs_of small:{1,2,3} random:1:20000:60)
mapfile -t more < <(printf '%s\n' three:looked:{5,6} three:wide:{4,5} three:words:4 && runs_of small:4 matched:{4,5,6}:{0,1,2} random:2:1000000:100 random:3:20000:2048 && echo object:random:4:2500000:100)
mapfile -t guessed < <(runs_of small:{1,2,3} matched:{4,5}:{0,1,2} random:4:200000:60)
case ${1:-short} in
    short) words=("${short[@]}" "${@:2}") ;;
    all) words=("${short[@]}" "${more[@]}" "${@:2}") ;;
    guesses) words=(guesses "${@:2}") && [ $# -gt 1 ] || words=(guesses "${guessed[@]}") ;;
    *) words=("$@") ;;
esac
exec nice -n 10 "$target/release/against" --jobs "${JOBS:-$(nproc)}" --seconds "${SECONDS_EACH:-600}" --printed "$root/crates/operators_test/stdout" "${words[@]}"
