# Sourced by the scripts of this folder: the compilers that they need, and what is made before they begin.
#
# What links the library is compiled for the machine at hand, over the library that host/lib.sh makes for it. The trace program is for
# x86-64: on an Arm machine an emulator runs it. What is missing is installed from Debian's packages (as root).

have() { command -v "$1" >/dev/null 2>&1; }
installed() { dpkg-query -W -f '${Status}\n' "$1" 2>/dev/null | grep -q '^install ok installed$'; }
install_packages() {
    [ "$(id -u)" = 0 ] && have apt-get || return 1
    { apt-get update -q && apt-get install -q -y --no-install-recommends "$@"; } >&2
}

# Compilers for the machine at hand: CARGO, with a rustc of 1.63 or later, and CARD_CC and CARD_CXX.
tools() {
    case $(uname -m) in
    x86_64 | aarch64) ;;
    *)
        printf 'neither x86-64 nor aarch64: %s\n' "$(uname -m)" >&2
        return 1
        ;;
    esac
    have cargo && have rustc && have gcc && have g++ || install_packages cargo rustc gcc g++ libc6-dev || return 1
    CARGO=cargo
    CARD_CC=gcc
    CARD_CXX=g++
    export CARGO CARD_CC CARD_CXX
}

# Callgrind, which counts the instructions of a call. Without it the budget is not held, and its test says so.
counter() { have valgrind || install_packages valgrind; }

# RUNNER: what runs an x86-64 program. Nothing on an x86-64 machine, else an emulator; the C library that the program loads is there too.
runner() {
    RUNNER=
    export RUNNER
    [ "$(uname -m)" != x86_64 ] || return 0
    RUNNER=qemu-x86_64
    have "$RUNNER" && [ -e /lib64/ld-linux-x86-64.so.2 ] && return
    dpkg --add-architecture amd64 && install_packages qemu-user libc6:amd64
}

# On an Arm machine, for the x86-64 library itself: the same names for compilers of x86-64 programs, CARD_RUNNER for what runs them, and
# CARD_TARGET, which is handed to cargo as --target. The cargo is Debian's own, since it has the standard library for both machines.
x86_tools() {
    if ! { [ -x /usr/bin/rustc ] && [ -x /usr/bin/cargo ] && have x86_64-linux-gnu-gcc && have x86_64-linux-gnu-g++ && have qemu-x86_64 &&
        installed libstd-rust-dev:amd64 && installed libc6-dev:amd64; }; then
        dpkg --add-architecture amd64 || return 1
        install_packages cargo rustc libstd-rust-dev:amd64 gcc-x86-64-linux-gnu g++-x86-64-linux-gnu libc6-dev:amd64 qemu-user || return 1
    fi
    CARGO=/usr/bin/cargo
    RUSTC=/usr/bin/rustc
    RUSTDOC=/usr/bin/rustdoc
    CARD_CC="x86_64-linux-gnu-gcc -static"
    CARD_CXX="x86_64-linux-gnu-g++ -static"
    CARD_RUNNER=qemu-x86_64
    CARD_TARGET=x86_64-unknown-linux-gnu
    CARGO_TARGET_X86_64_UNKNOWN_LINUX_GNU_LINKER=x86_64-linux-gnu-gcc
    CARGO_TARGET_X86_64_UNKNOWN_LINUX_GNU_RUNNER=$CARD_RUNNER
    CARGO_TARGET_X86_64_UNKNOWN_LINUX_GNU_RUSTFLAGS="-C target-feature=+crt-static"
    export CARGO RUSTC RUSTDOC CARD_CC CARD_CXX CARD_RUNNER CARGO_TARGET_X86_64_UNKNOWN_LINUX_GNU_LINKER
    export CARGO_TARGET_X86_64_UNKNOWN_LINUX_GNU_RUNNER CARGO_TARGET_X86_64_UNKNOWN_LINUX_GNU_RUSTFLAGS
}

# CARD_LIB: the library for the machine at hand, made first if that was not done yet, or the one that CARD_LIB names already: library ROOT.
library() {
    if [ -z "${CARD_LIB:-}" ]; then CARD_LIB=$(cd "$1" && library_path=$(host/lib.sh) && echo "$(pwd)/$library_path") || return 1; fi
    export CARD_LIB
}

# Whether what `rt` made is there and no source is newer. What rt leaves beside the sources (crates/*/out) is none.
fresh() { [ -e "$1" ] && [ -z "$(find crates/*/src crates/*/specs crates/*/proofs crates.txt -newer "$1" -print -quit 2>/dev/null)" ]; }

# Runs `rt WORDS` in a crate's folder, which proves and builds FILE, and shows on standard error how far it is: built FILE NAME CRATE WORDS..
# RT names another rt than the one on the path.
built() {
    built_file=$1
    built_name=$2
    built_crate=$3
    shift 3
    printf '%s: proving and building first: `rt %s` in crates/%s. From nothing this takes some minutes; a line is shown for each crate.\n' "$built_name" "$*" "$built_crate" >&2
    built_log=$(mktemp) || return 1
    rm -f "$built_file"
    { (cd "crates/$built_crate" && "${RT:-rt}" "$@" </dev/null 2>&1) || echo "$built_log failed"; } | tee "$built_log" | grep --line-buffered '^crate ' >&2
    if grep -q "^$built_log failed\$" "$built_log" || [ ! -e "$built_file" ]; then
        grep -v -e '^crate ' -e '^checked ' -e '^statements ' -e '^library ' -e ': proved$' "$built_log" >&2
        rm -f "$built_log"
        printf '%s: `rt %s` in crates/%s failed\n' "$built_name" "$*" "$built_crate" >&2
        return 1
    fi
    rm -f "$built_log"
}

# PLAY: the trace program, proved and built first if that was not done yet, or the one that PLAY names already: trace_program NAME, in the
# repository's folder. `rt ci` leaves it built; `rt run` builds it, and then runs it on nothing.
trace_program() {
    if [ -z "${PLAY:-}" ]; then
        PLAY=$(pwd)/crates/play/out/play
        fresh "$PLAY" || built "$PLAY" "$1" play run || return 1
    fi
    export PLAY
}
