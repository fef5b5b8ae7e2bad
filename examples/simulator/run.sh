#!/bin/sh
# Builds and runs the simulator: run.sh [ARCHIVE]
# Without ARCHIVE it takes the repository's own, made again where it is missing or older than a crate's source.
set -eu

root=$(cd "$(dirname "$0")/../.." && pwd)
archive=${1:-$root/target/staticlib/libcapi.a}
. "$root/second/toolchain.sh"
. "$root/second/build.sh"

if [ $# = 0 ] && archive_is_old "$archive"; then
    echo "the static library is missing or older than a crate's source; tools/staticlib.sh makes it" >&2
    "$root/tools/staticlib.sh" capi >&2
fi
build_simulator "$archive"
exec $RUN "$out/simulator"
