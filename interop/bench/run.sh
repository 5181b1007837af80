#!/usr/bin/env bash
# The benchmark: the proved store beside the tuned one, a plain copy, plain files, LMDB and SQLite.
# usage: interop/bench/run.sh [arguments of bench]
# Installs liblmdb-dev and libsqlite3-dev with apt-get if they are missing. `run.sh --help` tells the arguments.
# `./build boxstore` makes the archive; BOXSTORE_ARCHIVE_DIR names another folder to take it from.
set -euo pipefail
unset CDPATH
here=$(cd -- "$(dirname -- "$(readlink -f -- "${BASH_SOURCE[0]}")")" && pwd)

room=$(mktemp -d)
trap 'rm -rf "$room"' EXIT

# there HEADER LIBRARY: the C compiler finds them
there() {
    printf '#include <%s>\nint main(void) { return 0; }\n' "$1" | cc -x c - -o "$room/probe" "-l$2" 2>/dev/null
}

# the comparisons and the help need neither
case " $* " in
*' --check '* | *' --help '*) wanted= ;;
*) wanted=yes ;;
esac

missing=()
there lmdb.h lmdb || missing+=(liblmdb-dev)
there sqlite3.h sqlite3 || missing+=(libsqlite3-dev)
if [ -n "$wanted" ] && [ ${#missing[@]} -ne 0 ]; then
    export DEBIAN_FRONTEND=noninteractive
    # a new machine has no list of packages, or an old one
    { apt-get update -q; apt-get install -y -q "${missing[@]}"; } >/dev/null 2>&1 ||
        echo "run.sh: apt-get does not install ${missing[*]}; the benchmark goes without" >&2
fi

cd -- "$here/.."
cargo build --offline --quiet --profile bench-run -p bench
# Each block of a page or more begins at the same place of a page, on all sides alike: where two of them lie, modulo 4,096, makes a
# difference to the time of a copy.
export GLIBC_TUNABLES=glibc.malloc.mmap_threshold=4096
"${CARGO_TARGET_DIR:-target}/bench-run/bench" "$@"
