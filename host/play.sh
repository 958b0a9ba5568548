#!/bin/sh
# Plays a trace and shows its lines: the shipped sample, or the file that is named (`-` is standard input).
#
#   host/play.sh [TRACE]
#
# The program is proved and built first, if that was not done yet; PLAY names one that is there already. It is for x86-64; on an Arm
# machine an emulator runs it, from Debian's packages where it is missing (as root).
set -u
here=$(cd "$(dirname "$0")" && pwd) || exit 2
fail() {
    printf 'play: %s\n' "$*" >&2
    exit 1
}
if [ $# -gt 1 ]; then
    printf 'play.sh [TRACE]\n' >&2
    exit 2
fi
trace=${1:-$here/../crates/play/stdin}
# the name is the caller's: it is looked up before the folder is left
case $trace in
- | /*) ;;
*) trace=$(pwd)/$trace ;;
esac
if [ "$trace" != - ]; then
    [ -e "$trace" ] || fail "there is no file $trace"
    [ -f "$trace" ] && [ -r "$trace" ] || fail "$trace is no file that can be read"
fi
cd "$here/.." || exit 2
. host/tools.sh
trace_program play || exit 1
runner || fail "there is no emulator for an x86-64 program"
if [ "$trace" = - ]; then exec $RUNNER "$PLAY"; fi
exec $RUNNER "$PLAY" <"$trace"
