#!/bin/sh
# The library for a processor: target/lib/TARGET/libcard.a.
#
#   host/lib.sh [-Oz] [TARGET]             makes it where that was not done yet, and prints its name; without a target, for the machine at hand
#   host/lib.sh --check [-Oz] TARGET ..    makes it, and runs on it the soak, the example and the measure of the stack
#   host/lib.sh --stack [-Oz] TARGET ..    makes it, and prints the table of the stack as docs/FIRMWARE.md has it
#   host/lib.sh --size [-Oz] TARGET ..     makes it, and prints the bytes of code of each queue, linked without what it does not call
#   host/lib.sh --play TARGET              makes the trace program for it, a static one, and prints its name: for x86_64-linux alone
#
# TARGET is x86_64-linux, aarch64-linux, riscv64-linux, armv7-linux, thumbv7em-none (Cortex-M4) or riscv32-none. -Oz is for little code; the
# library is then that of TARGET-Oz, and a target may be named so too.
#
# The library is the crate card_c, an export for each function that host/card.h declares: a thin call of the function that is proved below
# it. `rt lib` proves it and builds it for every x86-64: x86_64-linux has the object of that archive itself. For another target it is built
# once more, and the module is kept that the prover's compiler hands to its back end; the library is this module, compiled by the same
# compiler for another processor. So it is the code that is proved, and what is trusted is another back end; --check holds what it makes to
# the lines that all libraries must write, under an emulator where the processor is another one. Compilers and emulators that a check lacks
# are installed from Debian's packages (as root).
set -u
cd "$(dirname "$0")/.." || exit 2
. host/tools.sh
TARGETS='x86_64-linux aarch64-linux riscv64-linux armv7-linux thumbv7em-none riscv32-none'
LIB=target/lib

fail() {
    printf 'lib: %s\n' "$*" >&2
    exit 1
}
usage() {
    printf 'lib.sh [-Oz] [TARGET], lib.sh --check|--stack|--size|--play [-Oz] TARGET ..\n' >&2
    exit 2
}

# What a target needs. For the library: the compiler's words. For a program in C: its compiler, what runs it, and the packages of both.
target() {
    run='' bare='' emulator='' level=-O3
    case $1 in *-Oz) level=-Oz ;; esac
    case ${1%-Oz} in
    x86_64-linux)
        words='--target=x86_64-unknown-linux-gnu -march=x86-64 -fPIC'
        cc='x86_64-linux-gnu-gcc -static' from='gcc-x86-64-linux-gnu libc6-dev-amd64-cross' run=qemu-x86_64
        ;;
    aarch64-linux)
        words='--target=aarch64-unknown-linux-gnu -fPIC'
        cc='aarch64-linux-gnu-gcc -static' from='gcc-aarch64-linux-gnu libc6-dev-arm64-cross' run=qemu-aarch64
        ;;
    riscv64-linux)
        words='--target=riscv64-unknown-linux-gnu -march=rv64gc -mabi=lp64d -fPIC'
        cc='riscv64-linux-gnu-gcc -static' from='gcc-riscv64-linux-gnu libc6-dev-riscv64-cross' run=qemu-riscv64
        ;;
    armv7-linux)
        words='--target=armv7-unknown-linux-gnueabihf -march=armv7-a -fPIC'
        cc='arm-linux-gnueabihf-gcc -static' from='gcc-arm-linux-gnueabihf libc6-dev-armhf-cross' run=qemu-arm
        ;;
    thumbv7em-none)
        words='--target=thumbv7em-none-gnueabi -mcpu=cortex-m4'
        cc='arm-none-eabi-gcc -mcpu=cortex-m4 -mthumb' from=gcc-arm-none-eabi bare=cortex-m4
        run='qemu-system-arm -M mps2-an386' emulator=qemu-system-arm
        ;;
    riscv32-none)
        words='--target=riscv32-unknown-elf -march=rv32imac -mabi=ilp32'
        cc='riscv64-unknown-elf-gcc -march=rv32imac -mabi=ilp32' from=gcc-riscv64-unknown-elf bare=riscv32
        run='qemu-system-riscv32 -M virt -bios none' emulator=qemu-system-misc
        ;;
    *) fail "there is no target ${1%-Oz}; there are: $TARGETS" ;;
    esac
    [ "${1%-Oz}" != "$(here)" ] || { from='gcc libc6-dev' run=''; }
    emulator=${emulator:-qemu-user}
}

# The target that is the machine at hand.
here() { echo "$(uname -m)-linux"; }

# The kit's folder, and that of its compiler.
kit() {
    have rt || fail 'the library is proved and built by rt, the command of the Rattle kit, and rt is not on the path'
    kit=$(dirname "$(rt doc)")
    tools=$kit/toolchain/bin
    [ -x "$tools/clang" ] || fail "there is no compiler $tools/clang in the Rattle kit"
}

# Links in a folder to what another has, but for some names: linked FROM TO NAME ..
linked() {
    linked_from=$1 linked_to=$2
    shift 2
    mkdir -p "$linked_to" || return 1
    for linked_one in "$linked_from"/*; do
        case " $* " in *" ${linked_one##*/} "*) ;; *) ln -s "$linked_one" "$linked_to/" || return 1 ;; esac
    done
}

# Has the library built once more, and keeps the module of it: kept MODULE. The kit is then another folder, of links to the kit's own, but
# for its clang, which keeps what it is handed and is then the kit's, and for rt's own two files, by whose place rt knows its kit.
kept() {
    kit
    room=$(mktemp -d) || exit 1
    trap 'rm -rf "$room"' EXIT
    linked "$kit" "$room/kit" bin toolchain && linked "$kit/bin" "$room/kit/bin" rt rtlib.py && cp "$kit/bin/rt" "$kit/bin/rtlib.py" "$room/kit/bin/" &&
        linked "$kit/toolchain" "$room/kit/toolchain" bin && linked "$tools" "$room/kit/toolchain/bin" clang ||
        fail 'the kit cannot be linked to'
    {
        printf '#!/bin/sh\nfor word; do case $word in *.bc) cp "$word" "%s" || exit 1 ;; esac; done\n' "$room/new.bc"
        printf 'exec "%s/clang" "$@"\n' "$tools"
    } >"$room/kit/toolchain/bin/clang"
    chmod +x "$room/kit/toolchain/bin/clang"
    RT=$room/kit/bin/rt archive || exit 1
    mv "$room/new.bc" "$1" || fail "the prover's compiler was handed no module"
    rm -rf "$room"
    trap - EXIT
}

# Compiles a module for a target: compiled MODULE TARGET OBJECT. Its lines about x86-64 go, and nothing else in it is about a
# processor. On RISC-V the callers of a function take its 32 bits as sign-extended, which the function has to be told.
compiled() {
    kit
    target "$2"
    "$tools/clang" --target=x86_64-unknown-linux-gnu -S -emit-llvm -Xclang -disable-llvm-passes -x ir "$1" -o "$3.x86.ll" || return 1
    {
        printf '%s\n' '/^target /d' 's/ "target-cpu"="x86-64"//'
        case $2 in riscv*) printf '%s\n' '/^define internal/!s/^define \(.*\)i32 @/define \1signext i32 @/' ;; esac
        [ "$level" = -O3 ] || printf '%s\n' '/^attributes .*"probe-stack"/s/ = { /&minsize optsize /'
    } >"$3.sed"
    sed -f "$3.sed" "$3.x86.ll" >"$3.ll"
    if grep -q x86 "$3.ll"; then fail "the module of $1 has more of x86-64 in it than its target lines"; fi
    # shellcheck disable=SC2086
    "$tools/clang" $words "$level" -ffunction-sections -fdata-sections -mllvm -trap-unreachable -mllvm -no-trap-after-noreturn \
        --no-default-config -fno-crash-diagnostics -Werror -Wno-override-module -c -x ir "$3.ll" -o "$3" || return 1
    rm -f "$3.x86.ll" "$3.sed" "$3.ll"
}

# Has the library proved and built for every x86-64: ARCHIVE. (`rt lib` by itself builds it for newer ones.)
ARCHIVE=crates/card_c/out/libcard_c.a
archive() { built "$ARCHIVE" lib card_c lib --cpu=x86-64; }

# The object of that archive, $LIB/card.o, made where that was not done yet.
proved() {
    if fresh "$LIB/card.o"; then return; fi
    archive || exit 1
    [ "$("$tools/llvm-ar" t "$ARCHIVE" | wc -l)" -eq 1 ] && "$tools/llvm-ar" p "$ARCHIVE" >"$LIB/card.o" || fail "$ARCHIVE has not one object"
}

# The library's object for a target: object TARGET FILE. The module is kept once what stands below the library is proved, by the kit's own rt.
object() {
    proved
    if [ "$1" = x86_64-linux ]; then
        cp "$LIB/card.o" "$2"
    else
        fresh "$LIB/card.bc" || kept "$LIB/card.bc"
        compiled "$LIB/card.bc" "$1" "$2"
    fi
}

# Makes the library for a target, and sets `made_lib` and its folder.
for_target() {
    folder=$LIB/$1
    made_lib=$folder/libcard.a
    if fresh "$made_lib" && [ -z "$(find host/lib.sh host/card.h -newer "$made_lib")" ]; then return; fi
    kit
    mkdir -p "$folder" || exit 1
    [ "$1" = x86_64-linux ] ||
        printf 'lib: %s: the proved module through another back end of the compiler, which is trusted as the one for x86-64 is\n' "$1" >&2
    rm -f "$made_lib.new"
    object "$1" "$folder/card.o" && "$tools/llvm-ar" rcs "$made_lib.new" "$folder/card.o" || fail "the library is not compiled for $1"
    rm "$folder/card.o"
    mv "$made_lib.new" "$made_lib"
}

# The compiler of a target's programs is there, and what runs them.
ready() { # TARGET
    target "$1"
    # shellcheck disable=SC2086
    have "${cc%% *}" || install_packages $from || fail "$1: there is no compiler ${cc%% *} (Debian's packages: $from)"
    [ -z "$run" ] || have "${run%% *}" || install_packages "$emulator" || fail "$1: there is no emulator ${run%% *} (Debian's package: $emulator)"
}

# The trace program as a static one, of the object that `rt run` leaves and of the C code that the kit has for its programs. Both are for
# x86-64 alone: the kit has that C code for no other processor.
play() {
    [ "$1" = x86_64-linux ] || fail "$1: the trace program is made for x86_64-linux alone, since the kit has the C code of its programs for no other processor"
    ready "$1"
    kit
    folder=$LIB/$1
    mkdir -p "$folder" || exit 1
    if ! fresh "$folder/play"; then
        built crates/play/out/play lib play run --cpu=x86-64 || exit 1
        $cc crates/play/out/play.o "$kit/c/libos_c.a" "$kit/c/liblibc_c.a" -o "$folder/play" || fail "the trace program is not linked for $1"
    fi
    echo "$folder/play"
}

small='' task=''
while [ $# -gt 0 ]; do
    case $1 in
    -Oz) small=-Oz ;;
    --check | --stack | --size | --play) task=${1#--} ;;
    -*) usage ;;
    *) break ;;
    esac
    shift
done
if [ -n "$task" ]; then
    [ $# -gt 0 ] || usage
    . host/lib_check.sh
    for one; do "$task" "$one$small"; done
    [ "$task" != stack ] || table
else
    [ $# -le 1 ] || usage
    target "${1:-$(here)}$small"
    for_target "${1:-$(here)}$small"
    echo "$made_lib"
fi
