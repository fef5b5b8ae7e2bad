#!/bin/sh
# Records the sessions anew and compares every file with the stored one: check.sh [ARCHIVE]
# One line for each file, 'N passed, M failed' last, non-zero where one differs.
# To store them anew: target/sessions/record examples/sessions
set -u

root=$(cd "$(dirname "$0")/../.." && pwd)
archive=${1:-$root/target/staticlib/libcapi.a}
. "$root/second/toolchain.sh"
. "$root/second/build.sh"

work=$root/target/sessions
rm -rf "$work" && mkdir -p "$work" || exit 2
passed=0
failed=0

# expect NAME COMMAND...: the command has to succeed
expect() {
    name=$1
    shift
    if "$@"; then
        echo "ok $name"
        passed=$((passed + 1))
    else
        echo "FAILED $name"
        failed=$((failed + 1))
    fi
}

build_record() {
    need_archives "$archive" &&
        $CC $flags "$root/examples/sessions/record.c" "$archive" "$(replay_archive "$archive")" -o "$work/record"
}

# The program compares each session with its replay too, and ends with 1 where they differ.
record() {
    $RUN "$work/record" "$work"
}

expect build build_record
expect record record
for session in wake-up-call bit-13; do
    for ending in trace txt expected; do
        expect "$session.$ending" cmp "$root/examples/sessions/$session.$ending" "$work/$session.$ending"
    done
done

echo "$passed passed, $failed failed"
[ "$failed" = 0 ]
