#!/bin/sh
# Proves the crates of the static libraries and writes the libraries to target/staticlib: staticlib.sh [NAME...]
# NAME is capi (libcapi.a, which the crate capi_c makes) or capi_replay (libcapi_replay.a, by capi_replay_c); both where none is named.
set -eu

root=$(cd "$(dirname "$0")/.." && pwd)
. "$root/second/build.sh"

need_rt || exit 2
[ $# -gt 0 ] || set -- capi capi_replay
mkdir -p "$root/target/staticlib"
for name; do
    case $name in
    capi) crate=capi_c ;;
    capi_replay) crate=capi_replay_c ;;
    *)
        echo "staticlib.sh: no static library $name; there are capi and capi_replay" >&2
        exit 2
        ;;
    esac
    archive=$root/target/staticlib/lib$name.a
    rm -f "$archive"
    (cd "$root/crates/$crate" && rt lib)
    cp "$root/crates/$crate/out/lib$crate.a" "$archive"
    echo "$archive"
done
