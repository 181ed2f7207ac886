#!/bin/sh
# Kills a served device at random moments while clients connect one after another, and checks the image after each
# kill, as tests/serving/killed.sh does a few times. Then the script serves a device with --save-each the same
# number of times, and kills the device immediately after a response, as tests/serving/save_each.sh does. It is not
# part of the gate. Needs python3.
#
#   tools/soak/kills.sh               1,000 kills, with seed 1
#   tools/soak/kills.sh 5000 7        5,000 kills, with seed 7
#
# The first line of the output reports whether everything was right. If something was wrong, the script keeps
# the last image, and prints its path. The second line reports when the kills happened, which differs from run
# to run. The other lines are about --save-each.
set -u

top=$(CDPATH='' cd "$(dirname "$0")/../.." && pwd -P) || exit 1
program=${PROGRAM:-$(cd "$top" && . tools/lib/program.sh)} || exit 1
folder=$(mktemp -d) || exit 1
cd "$folder" || exit 1

export PYTHONDONTWRITEBYTECODE=1
common=$top/tests/common
count=${1:-1000}
mkdir each
if "$top/tools/python.sh" "$common/kills.py" "$program" "$count" "${2:-1}" counts &&
    cd each && "$top/tools/python.sh" "$common/save_each.py" "$program" "$count"; then
    rm -rf "$folder"
else
    echo "The image is in $PWD"
    exit 1
fi
