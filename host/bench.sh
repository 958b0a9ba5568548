#!/bin/sh
# Times the card's queues beside plain C of the same rules and beside plain Rust, and prints tables.
#
#   host/bench.sh [--brief] [--page] [--svg FILE] [PART]
#
# The first table is that of docs/SPEED.md: --page measures no other, and --svg draws it. PART is part of a row's name ("bucket",
# "tree, order 4", "cycle", "play"): only such rows are measured. Library and trace program are those for the machine at hand, so that
# their times are real; they are proved and built first, if that was not done yet. CARD_LIB and PLAY name a libcard.a and a trace program
# that are there already; a PLAY for x86-64 is run by an emulator on another machine, and a line says so. CARD_CC names the C compiler.
set -u
cd "$(dirname "$0")/.." || exit 2
. host/tools.sh
tools || exit 1
[ -z "${CARD_LIB:-}" ] || printf 'bench: the static library is taken from CARD_LIB: %s\n' "$CARD_LIB" >&2
library . || exit 1
runner && trace_program bench || exit 1
exec $CARGO run --release --offline --quiet --manifest-path host/Cargo.toml -p bench -- --play "$PLAY" "$@"
