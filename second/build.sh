# Builds the native programs into target/native; sourced with root set, after toolchain.sh.

out=$root/target/native
warnings='-Wall -Wextra -Wpedantic -Werror'
flags="-std=c11 -O2 $warnings -I$root/include -I$root/second"
mkdir -p "$out"

# Stops where rt is missing, since nothing else makes the static library.
need_rt() {
    command -v rt >/dev/null 2>&1 && return
    echo "rt isn't on PATH: it is the Rattle toolchain, which proves the crates and makes the library." >&2
    echo "$root/README.md names its commands and says where to read on." >&2
    return 1
}

# need_archive ARCHIVE: stops where the archive is missing, since every program links it.
need_archive() {
    [ -f "$1" ] && return
    echo "no static library at $1: in $root tools/staticlib.sh makes target/staticlib/libcapi.a" >&2
    echo "and libcapi_replay.a beside it." >&2
    need_rt
    return 1
}

# replay_archive ARCHIVE: the archive of gg_replay, which lies beside that of the other functions
replay_archive() {
    printf '%s/libcapi_replay.a' "$(dirname "$1")"
}

# need_archives ARCHIVE: stops where it or the one beside it is missing
need_archives() {
    need_archive "$1" && need_archive "$(replay_archive "$1")"
}

# archive_is_old ARCHIVE: whether it is missing or older than a source that the library is made from
archive_is_old() {
    [ -f "$1" ] || return 0
    [ -n "$(find "$root/crates.txt" "$root/crates" -path "$root/crates/*/out" -prune -o -newer "$1" \
        \( -name '*.rt' -o -name '*.antt' -o -name crates.txt \) -print)" ]
}

# The named sources of this folder, as paths.
sources() {
    for source_name; do
        printf '%s ' "$root/second/$source_name.c"
    done
}

# The header is held to both languages by one source, compiled as C11 and as C++11.
build_header_c() {
    $CC -std=c11 $warnings -I"$root/include" -c "$root/second/header.c" -o "$out/header_c.o"
}

build_header_cpp() {
    $CXX -x c++ -std=c++11 $warnings -I"$root/include" -c "$root/second/header.c" -o "$out/header_cpp.o"
}

# build_compare ARCHIVE
build_compare() {
    need_archive "$1" &&
        $CC $flags $(sources oracle bounds open edge faults fault_rows options trial generate junk sweep question \
            posting session audit show tally stage named named_posting null matters compare) "$1" -o "$out/compare"
}

# What makes traces, and what that makes use of.
trace_sources() {
    sources trial generate junk sweep question posting trace author replay_faults fault_rows
}

# build_replays ARCHIVE
build_replays() {
    need_archives "$1" &&
        $CC $flags $(sources oracle bounds open edge faults show replay attempt traces listing replay_tally \
            replay_named recorded options replays) $(trace_sources) "$1" "$(replay_archive "$1")" -o "$out/replays"
}

# The second program's rules, boundary and replay once more, searching by words, each function under its own name.
build_words() {
    renamed=
    for function_name in oracle_step oracle_external_interrupt oracle_leave oracle_highest edge_cpu \
        edge_happening second_step second_external_interrupt second_leave second_highest second_fresh \
        second_replay; do
        renamed="$renamed -D$function_name=${function_name}_words"
    done
    for source_name in oracle edge replay; do
        $CC $flags -DWITHOUT_FAULTS -DSCAN_WORDS $renamed -c "$root/second/$source_name.c" \
            -o "$out/${source_name}_words.o" || return 1
    done
}

# build_bench ARCHIVE: the second program without faults, searching by bits and once more by words
build_bench() {
    need_archive "$1" && build_words &&
        $CC $flags -DWITHOUT_FAULTS $(sources oracle bounds open edge workload counter bench) \
            "$out/oracle_words.o" "$out/edge_words.o" "$1" -o "$out/bench"
}

# build_replay_bench ARCHIVE: the replays, in the same manner
build_replay_bench() {
    need_archives "$1" && build_words &&
        $CC $flags -DWITHOUT_FAULTS $(sources oracle bounds open edge replay replay_bench) \
            $(trace_sources) "$out/oracle_words.o" "$out/replay_words.o" "$1" "$(replay_archive "$1")" \
            -o "$out/replay_bench"
}

# build_simulator ARCHIVE
build_simulator() {
    need_archive "$1" &&
        $CC $flags "$root/examples/simulator/simulator.c" "$1" -o "$out/simulator"
}
