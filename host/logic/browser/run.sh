#!/bin/sh
# Opens the page of a run in a headless browser, moves it by keys, by its slider and by a link, reads slots back, and takes the picture
# of the docs. The browser is Debian's chromium, installed where it is missing (as root). It is no part of the gate: a browser is large.
#
#   host/logic/browser/run.sh
set -eu
here=$(cd "$(dirname "$0")" && pwd)
cd "$here/../../.."
. host/tools.sh
have chromium && have python3 || install_packages chromium fonts-dejavu-core python3
mkdir -p target
host/logic.sh show host/examples/pop.txt target/pop.html
host/logic.sh show --svg 10 host/examples/pop.txt docs/pop.svg
python3 host/logic/browser/look.py target/pop.html docs/show.png
