#!/usr/bin/env bash
# The tools of the tests and benches: those that are missing are installed, on Debian and as root.
set -euo pipefail

# need PACKAGES COMMAND...: the packages are missing where the command fails
need() {
    "${@:2}" </dev/null >/dev/null 2>&1 || missing+=" $1"
}
look() {
    missing=
    need make make --version
    need "gcc libc6-dev" cc -fsyntax-only -include stdio.h -x c -
    need g++ c++ -fsyntax-only -include stddef.h -x c++ -
    need cargo cargo --version
    need python3 python3 --version
    need "valgrind libc6-dbg" valgrind -q true
}

look
if [ -n "$missing" ] && [ "$(id -u)" = 0 ] && command -v apt-get >/dev/null; then
    echo "== tools are missing: installing$missing"
    export DEBIAN_FRONTEND=noninteractive
    # Of the output only the errors are shown; lists of an earlier update may do.
    apt-get update -q >/dev/null || true
    apt-get install -y -q $missing >/dev/null || true
    look
fi
if [ -n "$missing" ]; then
    echo "tools.sh: tools are missing; on Debian, as root: apt-get update && apt-get install -y$missing" >&2
    exit 1
fi
