#!/bin/sh
# Hands every trace to the program and compares what it prints: run.sh [PROGRAM]
# The traces are those stored here, those that make.c makes for the run, and the recorded sessions.
# One line for each check, 'N passed, M failed' last, non-zero where a check fails.
# To store the traces anew: target/traces/make traces target/traces/made
set -u

root=$(cd "$(dirname "$0")/.." && pwd)
program=${1:-$root/crates/replay/out/replay}
. "$root/second/toolchain.sh"
. "$root/second/build.sh"

# Without the program there is nothing to check.
if [ ! -f "$program" ]; then
    echo "no program at $program: 'rt run </dev/null' in $root/crates/replay makes out/replay there." >&2
    echo "0 passed, 1 failed"
    exit 1
fi

work=$root/target/traces
rm -rf "$work" && mkdir -p "$work/stored" "$work/made" || exit 2
passed=0
failed=0

# expect NAME COMMAND...: the command has to succeed
expect() {
    name=$1
    shift
    if "$@" >"$work/log" 2>&1; then
        echo "ok $name"
        passed=$((passed + 1))
    else
        echo "FAILED $name"
        tail -n 30 "$work/log" | sed 's/^/    /'
        failed=$((failed + 1))
    fi
}

# build NAME: a program of this folder, which needs no library
build() {
    $CC $flags "$root/traces/$1.c" -o "$work/$1"
}

make_traces() {
    build make && $RUN "$work/make" "$work/stored" "$work/made"
}

recorder() {
    build recorder && $RUN "$work/recorder"
}

# The stored files are those that make.c writes: the same names, the same bytes.
stored_is_made() {
    (cd "$root/traces" && ls -- *.trace *.expected) >"$work/here"
    (cd "$work/stored" && ls -- *.trace *.expected) >"$work/there"
    diff "$work/here" "$work/there" || return 1
    while read -r file; do
        cmp "$root/traces/$file" "$work/stored/$file" || return 1
    done <"$work/here"
}

# replay TRACE: what it prints, byte for byte
replay() {
    $RUN_LINKED "$program" <"$1" >"$work/printed" && diff "${1%.trace}.expected" "$work/printed"
}

# The same trace from a pipe, its first five bytes first.
replay_in_pieces() {
    { dd bs=1 count=5 2>/dev/null && sleep 1 && cat; } <"$1" | $RUN_LINKED "$program" >"$work/printed" &&
        diff "${1%.trace}.expected" "$work/printed"
}

expect recorder recorder
expect make make_traces
expect stored stored_is_made
for trace in "$root"/traces/*.trace "$work"/made/*.trace "$root"/examples/sessions/*.trace; do
    expect "$(basename "$trace" .trace)" replay "$trace"
done
expect pieces replay_in_pieces "$root/traces/each-kind.trace"
expect pieces-of-61440 replay_in_pieces "$work/made/bytes-61440.trace"

echo "$passed passed, $failed failed"
[ "$failed" = 0 ]
