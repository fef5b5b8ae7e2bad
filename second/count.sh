#!/bin/sh
# Counts instructions per event: count.sh [--archive ARCHIVE] [--all | WORKLOAD...]
# or per record of a replayed trace: count.sh [--archive ARCHIVE] --replay [WORKLOAD...]
# A workload runs at two lengths; the difference leaves out what a start costs.
# With near-empty and full among the workloads, a last row counts a search over seven empty words.
set -eu

root=$(cd "$(dirname "$0")/.." && pwd)
archive=$root/target/staticlib/libcapi.a
if [ "${1:-}" = --archive ]; then
    archive=$2
    shift 2
fi
. "$root/second/toolchain.sh"
. "$root/second/build.sh"

# A round is a workload's few events, or a whole trace.
if [ "${1:-}" = --replay ]; then
    shift
    program=$out/replay_bench short=1 long=3 chosen=${*:---all}
    build_replay_bench "$archive"
else
    program=$out/bench short=200 long=1200 chosen=${*:-mix nesting near-empty full}
    build_bench "$archive"
fi
plugin=$out/count_plugin.so

# The plugin interface has a version; the first that the emulator takes is used.
make_plugin() {
    for version in 1 2 3 4 5 6; do
        cc -std=c11 -O2 -shared -fPIC -DVERSION=$version "$root/second/count_plugin.c" -o "$plugin" || return 1
        qemu-x86_64 -plugin "$plugin" "$program" --list >/dev/null 2>&1 && return 0
    done
    return 1
}

with_callgrind() {
    valgrind --tool=callgrind --callgrind-out-file=/dev/null "$program" --only "$@" 2>&1 |
        sed -n 's/^.*Collected *: *//p'
}

with_plugin() {
    qemu-x86_64 -plugin "$plugin" "$program" --only "$@" 2>&1 | sed -n 's/^instructions //p'
}

# The plugin belongs to the emulator, so the machine's own compiler builds it.
[ "$(uname -m)" = x86_64 ] || have cc || install_packages gcc libc6-dev

# Callgrind runs x86-64 code only on x86-64; elsewhere the emulator counts.
if [ "$(uname -m)" = x86_64 ] && have valgrind; then
    counter=with_callgrind
elif have qemu-x86_64 cc && make_plugin; then
    counter=with_plugin
else
    echo "instructions: not available; there is neither valgrind nor an emulator that takes plugins"
    exit 0
fi

# per_event RUNNER WORKLOAD EVENTS
per_event() {
    low=$($counter "$1" "$2" $short)
    high=$($counter "$1" "$2" $long)
    echo "$low $high $(((long - short) * $3))" | awk '{ printf "%.1f", ($2 - $1) / $3 }'
}

[ "$chosen" = --all ] && chosen=$($RUN "$program" --list | awk '{ print $1 }')
runners=$($RUN "$program" --runners)

# Figures compare equal work only.
$RUN "$program" --agree || exit 1

# row NAME FIGURE...: the figures, then the model's over each of the others
row() {
    echo "$@" | awk '{
        printf "%-13s", $1
        for (i = 2; i <= NF; i++) printf "%12s", $i
        for (i = 3; i <= NF; i++) printf "%13.2f", $2 / $i
        printf "\n" }'
}

# per_search NEAR-EMPTY FULL: both have the same three events, two of them with a search.
per_search() {
    echo "$1 $2" | awk '{ for (i = 1; i <= NF / 2; i++) printf " %.1f", ($i - $(i + NF / 2)) * 3 / 2 }'
}

printf '%-13s' instructions
printf '%12s' $runners
printf '%13s' $(echo $runners | awk '{ for (i = 2; i <= NF; i++) print "/" $i }')
printf '\n'
near_empty= full=
for workload in $chosen; do
    events=$($RUN "$program" --list | awk -v name="$workload" '$1 == name { print $2 }')
    if [ -z "$events" ]; then
        echo "count.sh: no workload $workload" >&2
        exit 2
    fi
    figures=
    for runner in $runners; do
        figures="$figures $(per_event $runner "$workload" "$events")"
    done
    row "$workload" $figures
    case $workload in
    near-empty) near_empty=$figures ;;
    full) full=$figures ;;
    esac
done
[ -z "$near_empty" ] || [ -z "$full" ] || row search $(per_search "$near_empty" "$full")
