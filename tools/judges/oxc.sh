#!/usr/bin/env bash
# Installs the package of the crate for Node, oxc-parser 0.156.0, and holds the reader to it beside the other judges: tools/judges/oxc.sh [RUN..], with the runs
# and variables of tools/judges/run.sh. It needs npm and its registry. The package goes into target/oxc, or where OXC_PARSER says; if it is there, nothing is
# installed.
set -euo pipefail
here=$(cd "$(dirname "${BASH_SOURCE[0]}")" && pwd)
export OXC_PARSER=${OXC_PARSER:-$(realpath -m "$here/../../target/oxc")}
if ! [ -d "$OXC_PARSER/node_modules/oxc-parser" ]; then
    command -v npm > /dev/null || { echo "tools/judges/oxc.sh: npm is missing (apt-get install npm)"; exit 1; }
    mkdir -p "$OXC_PARSER"
    npm install --silent --no-save --fetch-retries 1 --prefix "$OXC_PARSER" oxc-parser@0.156.0 || { echo "tools/judges/oxc.sh: oxc-parser 0.156.0 could not be installed in $OXC_PARSER"; exit 1; }
fi
exec "$here/run.sh" "$@"
