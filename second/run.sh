#!/bin/sh
# Builds and runs every native check: run.sh [ARCHIVE]
# One line for each check, 'N passed, M failed' last, non-zero where a check fails.
set -u

root=$(cd "$(dirname "$0")/.." && pwd)
archive=${1:-$root/target/staticlib/libcapi.a}
. "$root/second/toolchain.sh"
. "$root/second/build.sh"

# Without the library there is nothing to check.
if ! need_archives "$archive"; then
    echo "0 passed, 1 failed"
    exit 1
fi

log=$out/log
tried=$out/tried
mkdir -p "$log"
passed=0
failed=0

# expect STATUS NAME COMMAND...: the command has to end with this status
expect() {
    wanted=$1 name=$2
    shift 2
    "$@" >"$log/$name.txt" 2>&1
    status=$?
    if [ "$status" = "$wanted" ]; then
        echo "ok $name"
        passed=$((passed + 1))
    else
        echo "FAILED $name"
        echo "    status $status, not $wanted"
        tail -n 30 "$log/$name.txt" | sed 's/^/    /'
        failed=$((failed + 1))
    fi
}

# The simulator's words have to be the stored ones.
simulator() {
    $RUN "$out/simulator" >"$out/simulator.txt" &&
        diff "$root/examples/simulator/expected.txt" "$out/simulator.txt"
}

# Every stored trace has its stored text.
stored() {
    for trace in "$root"/traces/*.trace "$root"/examples/sessions/*.trace; do
        $RUN "$out/replays" print <"$trace" | cmp - "${trace%.trace}.expected" || return 1
    done
}

# find_fault PROGRAM FAULT COMMAND: a fault counts as found only by a reported difference.
find_fault() {
    report=$($RUN "$out/$1" --fault "$2" "$3")
    found=$?
    echo "$report"
    echo "$report" | grep -q '^difference at ' && return "$found"
    return 0
}

# jobs_of PROGRAM: its gate and its faults
jobs_of() {
    for job_name in gate $(faults "$1"); do
        echo "$1:$job_name"
    done
}

# The comparisons and the search for each fault take longest, so two lanes run them beforehand: each takes the next that
# the other has not, and leaves what it printed and its status.
lane() {
    for job in $(jobs_of compare) $(jobs_of replays); do
        mkdir "$tried/$job" 2>/dev/null || continue
        case $job in
        *:gate) $RUN "$out/${job%:gate}" gate ;;
        *) find_fault "${job%%:*}" "${job#*:}" gate ;;
        esac >"$tried/$job/out" 2>&1
        echo $? >"$tried/$job/status"
    done
}

# told JOB: what a lane has left of it; a job that none has finished is a failure of its own
told() {
    cat "$tried/$1/out"
    return "$(cat "$tried/$1/status" 2>/dev/null || echo 2)"
}

# says NAME WORDS...: the report that a check left has a line for each of the words
says() {
    report=$log/$1.txt
    shift
    for words; do
        grep -q "$words" "$report" || { echo "no line '$words' in $report" && return 1; }
    done
}

# faults PROGRAM: the names of its faults, none where the program is not there
faults() {
    $RUN "$out/$1" faults 2>/dev/null | cut -d' ' -f1
}

# at_least COUNT PROGRAM: it has so many faults
at_least() {
    [ "$(faults "$2" | wc -l)" -ge "$1" ]
}

rm -f "$out/compare" "$out/replays" "$out/bench" "$out/replay_bench" "$out/simulator"
expect 0 header-c build_header_c
expect 0 header-cpp build_header_cpp
expect 0 build-compare build_compare "$archive"
expect 0 build-replays build_replays "$archive"
rm -rf "$tried" && mkdir "$tried"
lane &
lane
wait
expect 0 gate told compare:gate
expect 0 named $RUN "$out/compare" named
expect 0 null $RUN "$out/compare" null
expect 0 matters $RUN "$out/compare" matters
expect 0 fault-list at_least 95 compare
for fault in $(faults compare); do
    expect 1 "fault-$fault" told "compare:$fault"
done
expect 0 report-none says fault-none-is-zero '^  VI[SR]R: none$' '^  model  answers 2 none,' '^  second answers 1 vector 00H,'
expect 0 report-zero says fault-zero-is-none '^  VI[SR]R: 00H$' '^  model  answers 1 vector 00H,' '^  second answers 2 none,'
expect 0 report-posted says fault-posting-keeps-highest '^  posted: [0-9A-F][0-9A-F]H' '^  descriptor byte 0[01][0-9A-F]H: '
expect 0 report-none-posted says fault-posting-none-is-255 '^  posted: none$' '^  record byte 001H: .. | FF$'
expect 1 null-fault-page-length-after-bounds find_fault compare page-length-after-bounds null
expect 1 null-fault-highest-base-first find_fault compare highest-base-first null
expect 1 null-fault-descriptor-length-first find_fault compare descriptor-length-first null
expect 1 null-fault-descriptor-length-last find_fault compare descriptor-length-last null
expect 1 matters-fault-hlt-is-shut find_fault compare hlt-is-shut matters
expect 1 matters-fault-mov-ss-is-open find_fault compare mov-ss-is-open matters
expect 0 replay-gate told replays:gate
expect 0 replay-named $RUN "$out/replays" named
expect 0 replay-null $RUN "$out/replays" null
expect 0 replay-recorded $RUN "$out/replays" recorded
expect 0 replay-stored stored
expect 0 replay-fault-list at_least 52 replays
for fault in $(faults replays); do
    expect 1 "replay-fault-$fault" told "replays:$fault"
done
expect 0 report-line says replay-fault-bad-tells-last-good '^  the texts differ first in line ' '^  >  *[0-9]* at '
expect 0 report-buffer says replay-fault-short-buffer-touched '^  byte 0 of the buffer: A5 | 31$'
expect 1 replay-named-fault-limit-then-bad find_fault replays limit-then-bad named
expect 1 replay-null-fault-empty-is-done find_fault replays empty-is-done null
expect 0 build-bench build_bench "$archive"
expect 0 bench-agree $RUN "$out/bench" --agree
expect 0 build-replay-bench build_replay_bench "$archive"
expect 0 replay-bench-agree $RUN "$out/replay_bench" --agree
expect 0 build-simulator build_simulator "$archive"
expect 0 simulator simulator

echo "$passed passed, $failed failed"
[ "$failed" = 0 ]
