#!/bin/sh
# Waveforms, pictures and a scoreboard for logic that is held against the clocked tree, cluster heap or lines: docs/HARDWARE.md says how.
#
#   host/logic.sh wave TRACE [VCD]
#   host/logic.sh show [--from A] [--to B] TRACE [HTML]
#   host/logic.sh show --svg CYCLE TRACE [SVG]
#   host/logic.sh dump TRACE [DUMP]
#   host/logic.sh hold [--strict] TRACE DUMP
#   host/logic.sh --heap PLACES LEVELS PART ..            (on the clocked cluster heap)
#   host/logic.sh --lines KIND LINES PLACES PART ..       (on the clocked lines)
#   host/logic.sh to-trace TEXT [TRACE], to-text TRACE [TEXT]
#
# The library is proved and built first, if that was not done yet; CARD_LIB names a libcard.a that is there already.
set -u
here=$(cd "$(dirname "$0")" && pwd) || exit 2
. "$here/tools.sh"
tools && library "$here/.." || exit 1
exec $CARGO run --release --offline --quiet --manifest-path "$here/Cargo.toml" -p logic -- "$@"
