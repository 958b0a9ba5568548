#!/bin/sh
# Says what is broken in a tree's store, and writes a mended one beside it.
#
#   host/mend.sh STORE ORDER LEVELS
#
# STORE is a file of 32-bit words, low byte first. The mended store goes to STORE.mended; no file is written over. The library is proved
# and built first, if that was not done yet; CARD_LIB names a libcard.a that is there already.
set -u
here=$(cd "$(dirname "$0")" && pwd) || exit 2
. "$here/tools.sh"
tools && library "$here/.." || exit 1
exec $CARGO run --release --offline --quiet --manifest-path "$here/Cargo.toml" -p mend_store -- "$@"
