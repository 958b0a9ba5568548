#!/bin/sh
# Compiles the VHDL package of dump.vhd with GHDL, prints dumps by it, and holds them against the model. GHDL comes from Debian's packages
# where it is missing (as root). It is no part of the gate.
#
#   host/examples/sim/vhdl.sh
set -eu
here=$(cd "$(dirname "$0")" && pwd)
cd "$here/../../.."
. host/tools.sh
have ghdl || install_packages ghdl
work=$(pwd)/target/vhdl
rm -rf "$work"
mkdir -p "$work"
(cd "$work" && ghdl -a --std=08 "$here/dump.vhd" "$here/dump_test.vhd" && ghdl -e --std=08 dump_test && ghdl -r --std=08 dump_test)
host/logic.sh hold host/examples/worked.txt "$work/right.dump"
if host/logic.sh hold host/examples/worked.txt "$work/unknown.dump" >"$work/said"; then
    echo 'vhdl: FAILED: unknown bits agree'
    exit 1
fi
head -n 1 "$work/said"
[ "$(head -n 1 "$work/said")" = 'cycle 1 differs: level 1, node 0, slot 0, tag: expected 50, found x' ]
