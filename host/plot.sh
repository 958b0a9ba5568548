#!/bin/sh
# Draws how flows of weights 1, 2 and 4 are served, from a run of the library's fair ranks.
#
#   host/plot.sh [FILE]
#
# FILE is docs/fair.svg where none is named, and `-` is standard output. The library is proved and built first, if that was not done yet;
# CARD_LIB names one that is there already. The same library draws the same picture.
set -u
[ $# -le 1 ] || {
    echo 'plot.sh [FILE]' >&2
    exit 2
}
here=$(pwd)
cd "$(dirname "$0")/.." || exit 2
. host/tools.sh
case ${1:-} in
'') file=docs/fair.svg ;;
- | /*) file=$1 ;;
*) file=$here/$1 ;;
esac
tools && library . || exit 1
draw() {
    $CARGO run --offline --quiet --manifest-path host/Cargo.toml -p card_host --example fair
}
if [ "$file" = - ]; then
    draw
else
    drawn=$(draw) && printf '%s\n' "$drawn" >"$file"
fi
