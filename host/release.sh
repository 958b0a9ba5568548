#!/bin/sh
# Packs the libraries for all processors, their header and the tools: target/release/card-VERSION.tar.gz, and its checksum beside it.
#
#   host/release.sh
#
# The tools (mend, logic, trace) are static programs for x86-64 Linux and for the machine at hand, the trace program (play) one for x86-64
# alone. What is missing is made first. Before the archive's name is printed it is tried:
# unpacked in an empty folder, with rt not on the path, the checksums hold, the C example links and runs, a trace is played and a store mended.
set -u
[ $# -eq 0 ] || {
    echo 'release.sh' >&2
    exit 2
}
cd "$(dirname "$0")/.." || exit 2
. host/tools.sh
fail() {
    printf 'release: %s\n' "$*" >&2
    exit 1
}
version=$(sed -n 's/^#define CARD_VERSION \([0-9]*\)u$/\1/p' host/card.h)
here=$(uname -m)-linux
name=card-$version
out=$(pwd)/target/release
to=$out/$name

# The Rust tools as static programs that know no path of this machine, by the cargo in force: rust_tools MACHINE TRIPLE.
rust_tools() {
    CARGO_ENCODED_RUSTFLAGS=$(printf -- '-C\037target-feature=+crt-static\037--remap-path-prefix=%s=.' "$(pwd)")
    export CARGO_ENCODED_RUSTFLAGS
    $CARGO build --release --offline --quiet --manifest-path host/Cargo.toml --target-dir "target/release/build" --target "$2" -p mend_store -p logic -p trace_text || return 1
    cp "target/release/build/$2/release/mend" "target/release/build/$2/release/logic" "$to/bin/$1/" &&
        cp "target/release/build/$2/release/trace_text" "$to/bin/$1/trace"
}

tools_for() { # MACHINE
    mkdir -p "$to/bin/$1" || return 1
    CARD_LIB=$(pwd)/$(host/lib.sh "$1") && export CARD_LIB || return 1
    case $1 in
    "$here") (tools && rust_tools "$1" "$(uname -m)-unknown-linux-gnu") || return 1 ;;
    *) (x86_tools && rust_tools "$1" "$CARD_TARGET") || return 1 ;;
    esac
    [ "$1" != x86_64-linux ] || cp "$(host/lib.sh --play "$1")" "$to/bin/$1/play"
}

rm -rf "$to" "$out/$name.tar.gz" "$out/$name.tar.gz.sha256"
mkdir -p "$to/include" "$to/examples" "$to/lib" || exit 1
for target in x86_64-linux aarch64-linux riscv64-linux armv7-linux thumbv7em-none thumbv7em-none-Oz riscv32-none; do
    made_lib=$(host/lib.sh "$target") || fail "no library for $target"
    mkdir -p "$to/lib/$target/pkgconfig" && cp "$made_lib" "$to/lib/$target/" || exit 1
    cat >"$to/lib/$target/pkgconfig/card.pc" <<PC
prefix=\${pcfiledir}/../../..

Name: card
Description: Proved priority queues for a network card ($target)
Version: $version
Cflags: -I\${prefix}/include
Libs: -L\${prefix}/lib/$target -lcard
PC
done
cp host/card.h "$to/include/" && cp -r host/examples/pops.c host/examples/pops.txt host/examples/bare "$to/examples/" &&
    cp host/examples/worked.txt crates/play/stdin "$to/examples/" && mv "$to/examples/stdin" "$to/examples/sample.pft" &&
    cp docs/FIRMWARE.md "$to/" || exit 1
cat >"$to/README" <<TEXT
The card's library of proved priority queues, version $version, for machines without the kit that proves it.

  include/card.h           the functions, for C99 and C++, with a comment for each
  lib/TARGET/libcard.a     the library for a processor; lib/TARGET/pkgconfig/card.pc names it to pkg-config
  bin/MACHINE/             static tools: mend mends a store's file, trace makes traces from text and back, logic draws
                           waveforms and holds a test bench's dump to the model; play, for x86-64 alone, plays a trace
                           from standard input
  examples/                a program in C, what it needs on a bare Cortex-M4 or RISC-V, traces
  FIRMWARE.md              stack, code size, what a power cut leaves; its paths are the repository's, host/examples being examples here
  SHA256SUMS               sha256sum -c SHA256SUMS

A program:   cc -Iinclude examples/pops.c lib/\$(uname -m)-linux/libcard.a -o pops
A store:     bin/\$(uname -m)-linux/mend STORE ORDER LEVELS

lib/x86_64-linux has the object that was proved and built. The others are the same proved code through another back
end of the same compiler; they were held to it, call by call, under an emulator.
TEXT
tools_for x86_64-linux || fail 'no tools for x86-64'
if [ "$here" != x86_64-linux ]; then tools_for "$here" || fail "no tools for $here"; fi
(cd "$to" && find . -type f ! -name SHA256SUMS | LC_ALL=C sort | xargs sha256sum >SHA256SUMS) || exit 1
(cd "$out" && tar --sort=name --mtime='2020-01-01 UTC' --owner=0 --group=0 --numeric-owner -czf "$name.tar.gz" "$name" && sha256sum "$name.tar.gz" >"$name.tar.gz.sha256") || exit 1
rm -rf "$to"

# The trial, as one who has the archive alone.
room=$(mktemp -d) || exit 1
trap 'rm -rf "$room"' EXIT
(
    cd "$room" && PATH=/usr/bin:/bin && export PATH && unset CARD_LIB PLAY
    ! have rt || fail 'rt is on the path of the trial'
    tar -xzf "$out/$name.tar.gz" && cd "$name" && sha256sum --quiet -c SHA256SUMS || fail 'the checksums do not hold'
    flags="-Iinclude -Llib/$here -lcard"
    ! have pkg-config || flags=$(PKG_CONFIG_PATH=lib/$here/pkgconfig pkg-config --cflags --libs card) || fail 'pkg-config does not find it'
    # shellcheck disable=SC2086
    gcc -std=c99 -Iinclude examples/pops.c $flags -o pops && ./pops | cmp - examples/pops.txt || fail 'the C example does not run'
    bin=bin/$here
    "$bin/trace" to-trace examples/worked.txt worked.pft || fail 'a trace is not made'
    [ "$here" != x86_64-linux ] || "$bin/play" <worked.pft | grep -q '^3 out 5 50$' || fail 'a trace is not played'
    "$bin/logic" dump examples/worked.txt own.dump && "$bin/logic" hold examples/worked.txt own.dump >/dev/null || fail 'a dump is not held'
    # order 2, one level: rank 5, tag 50, length 64 and a count of 2, under which there is nothing; then an empty slot
    printf '\005\000\000\000\062\000\000\000\100\000\000\000\002\000\000\000' >store && head -c 16 /dev/zero >>store
    "$bin/mend" store 2 1 >said && grep -q '^slot 0 is broken: level 1, node 0, slot 0$' said && [ -s store.mended ] &&
        mv store.mended whole && "$bin/mend" whole 2 1 | grep -q '^no slot is broken$' || fail 'a store is not mended'
) || exit 1
echo "target/release/$name.tar.gz"
