#!/usr/bin/env bash
# The prover's verdict over every crate: `rt ci`, as it stands at the top of the checkout. Beyond what that refuses, a
# must-fail edit that is bad is a failure too. What it says is kept in target/verdict; its last line is 'N passed, M failed'.
set -euo pipefail
cd "$(dirname "$0")/.."
mkdir -p target

rt ci 2>&1 | tee target/verdict
verdict=$(grep '^rt: ok' target/verdict) || { echo "verdict.sh: rt ci says of no crate that all is well" >&2; exit 1; }
if [[ $verdict =~ ,\ [0-9]+\ bad ]]; then
    echo "verdict.sh: a must-fail edit is bad, so it shows nothing of a contract: $verdict" >&2
    exit 1
fi
