#!/bin/sh
# Runs the test bench under Verilator: the design as it is must agree with the proved model in every cycle, and each planted fault must
# be found; then the design's dumps are held against the model by `logic hold`, which must say the same.
#
#   host/examples/sim/run.sh
#
# Verilator comes from Debian's packages where it is missing (as root). It is no part of the gate.
set -eu
here=$(cd "$(dirname "$0")" && pwd)
cd "$here/../../.."
. host/tools.sh
tools
library .
have verilator && have make && have perl || install_packages verilator make perl
work=$(pwd)/target/sim
rm -rf "$work"
mkdir -p "$work"
$CARGO build --quiet --offline --manifest-path host/Cargo.toml -p logic
logic=$(pwd)/host/target/debug/logic
wrong=0
for fault in 0 1 2 3 4; do
    folder=$work/fault$fault
    mkdir -p "$folder"
    verilator --binary -Wno-fatal -Wno-lint --top-module scoreboard -GFAULT="$fault" --Mdir "$folder/obj" -o scoreboard \
        -MAKEFLAGS "CXX='$CARD_CXX' LINK='$CARD_CXX'" -LDFLAGS "$CARD_LIB" \
        "$here/clocked_tree.sv" "$here/scoreboard.sv" >"$folder/log" 2>&1 || { cat "$folder/log"; exit 1; }
    (cd "$folder" && obj/scoreboard >said 2>&1) || { cat "$folder/said"; exit 1; }
    said=$(grep -v '^- ' "$folder/said" | head -n 1)
    (cd "$folder" && "$logic" hold --strict design.txt design.dump >held 2>&1) && held=0 || held=$?
    printf 'fault %s: %s | hold: %s\n' "$fault" "$said" "$(head -n 1 "$folder/held")"
    case $fault$said in
    0*' cycles agree') [ "$held" -eq 0 ] || wrong=1 ;;
    [1-9]*': expected '*) [ "$held" -eq 1 ] || wrong=1 ;;
    *) wrong=1 ;;
    esac
    # both name the same cycle
    case $fault in
    0) ;;
    *) [ "$(echo "$said" | sed -nE 's/^cycle ([0-9]+):.*/\1/p')" = "$(sed -nE '1s/^cycle ([0-9]+) differs.*/\1/p' "$folder/held")" ] || wrong=1 ;;
    esac
done
[ "$wrong" -eq 0 ] || { echo 'sim: FAILED'; exit 1; }
echo 'sim: the design agrees, and each planted fault is found'
