#!/bin/sh
# Holds the library, the trace program and the tools of this folder to the plain models and to their pages: `cargo test`.
#
#   host/run.sh [SEED]
#
# The library and the trace program are proved and built first, if that was not done yet. The same seed makes the same calls. What
# passed and failed is counted by cargo, part by part (`test result: ..`); the gate adds the parts up.
#
# On an Arm machine that is the library which host/lib.sh makes for it, so that two million calls run as fast as the machine does; the soak,
# the programs in C and a shorter comparison are then run once more on the library for x86-64, by an emulator.
#
# CARD_LIB and PLAY name a static library and a trace program that are there already; each is then used as it is, and a line says so.
set -u
cd "$(dirname "$0")/.." || exit 2
. host/tools.sh

# a seed is a number, and there is one at most
case $#$* in
0 | 1[0-9]*) ;;
*)
    echo 'run.sh [SEED]' >&2
    exit 2
    ;;
esac
x86=
[ -n "${CARD_LIB:-}" ] || [ "$(uname -m)" = x86_64 ] || x86=yes
{ tools && runner && { [ -z "$x86" ] || (x86_tools); }; } || {
    echo 'host: FAILED: compilers and, where one is needed, an emulator'
    exit 1
}
counter || echo 'host: there is no valgrind, and the budget of a call is not held'
[ -z "${CARD_LIB:-}" ] || echo "host: the static library is taken from CARD_LIB: $CARD_LIB"
# what needs no library is compiled while the library is proved
(cd host && $CARGO test --offline --no-run -p models -p trace_text -p checks >/dev/null 2>&1) &
library . || exit 1
[ -z "${PLAY:-}" ] || echo "host: the trace program is taken from PLAY: $PLAY"
trace_program host || exit 1
[ $# -eq 0 ] || export CARD_SEED="$1"

wait
root=$(pwd)
cd host || exit 2
. ./beside.sh
test_of --workspace
status=$?
if [ -n "$x86" ]; then
    # the x86-64 library itself, in a folder of its own, since another compiler makes its programs; the soak was one of the checks
    (
        CARD_LIB=$root/$("$root/host/lib.sh" x86_64-linux) && x86_tools || exit 1
        x86_test() { $CARGO test --offline --no-fail-fast --target-dir target/x86 "$@"; }
        x86_test -p checks --test c
        programs=$?
        x86_test --target "$CARD_TARGET" -p compare --test library -- --brief && [ "$programs" -eq 0 ]
    ) || status=1
fi
exit $status
