# Sets CC, CXX and RUN, with which x86-64 programs are built and run, and RUN_LINKED, with which one that rt has linked to
# the C library is run; sourced by the other scripts.
# The static library is x86-64, so an Arm machine builds for x86-64 and runs in an emulator.

# Installs the named Debian packages; only root may.
install_packages() {
    if [ "$(id -u)" != 0 ]; then
        echo "missing packages: $*; install them or run as root" >&2
        exit 2
    fi
    export DEBIAN_FRONTEND=noninteractive
    { apt-get update && apt-get install -y --no-install-recommends "$@"; } >&2 || exit 2
}

# Whether every named command is there.
have() {
    for have_name; do
        command -v "$have_name" >/dev/null 2>&1 || return 1
    done
}

case "$(uname -m)" in
x86_64)
    CC=${CC:-cc}
    CXX=${CXX:-c++}
    RUN=
    RUN_LINKED=
    have "${CC%% *}" "${CXX%% *}" || install_packages gcc g++ libc6-dev
    ;;
aarch64)
    # -static spares the emulator a search for x86-64 libraries.
    CC='x86_64-linux-gnu-gcc -static'
    CXX='x86_64-linux-gnu-g++ -static'
    RUN=qemu-x86_64
    # The cross compiler's C library comes with a loader of its own.
    libraries=/usr/x86_64-linux-gnu/lib
    RUN_LINKED="qemu-x86_64 $libraries/ld-linux-x86-64.so.2 --library-path $libraries"
    have x86_64-linux-gnu-gcc x86_64-linux-gnu-g++ qemu-x86_64 ||
        install_packages gcc-x86-64-linux-gnu g++-x86-64-linux-gnu libc6-dev-amd64-cross qemu-user
    ;;
*)
    echo "the static library is x86-64, and there is no way to run it on $(uname -m)" >&2
    exit 2
    ;;
esac
