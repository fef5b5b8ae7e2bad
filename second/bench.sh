#!/bin/sh
# Builds the benchmark and prints the model's and the second program's times: bench.sh [ARCHIVE]
set -eu

root=$(cd "$(dirname "$0")/.." && pwd)
archive=${1:-$root/target/staticlib/libcapi.a}
. "$root/second/toolchain.sh"
. "$root/second/build.sh"

build_bench "$archive"
if [ -n "$RUN" ]; then
    exec $RUN "$out/bench" --emulated
fi
exec "$out/bench"
