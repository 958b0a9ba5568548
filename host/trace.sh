#!/bin/sh
# Turns lines of text into a trace, and back.
#
#   host/trace.sh to-trace TEXT [TRACE]
#   host/trace.sh to-text TRACE [TEXT]
#
# `-` is standard input; with no second name the result goes to standard output. The tool is a Rust program of this folder; it is built
# first, if that was not done yet.
set -u
here=$(cd "$(dirname "$0")" && pwd) || exit 2
if ! command -v cargo >/dev/null 2>&1; then
    . "$here/tools.sh"
    tools || exit 1
fi
exec "${CARGO:-cargo}" run --quiet --offline --manifest-path "$here/Cargo.toml" -p trace_text -- "$@"
