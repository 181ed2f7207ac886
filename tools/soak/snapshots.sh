#!/bin/sh
# Plays random scripts on two devices of the library. The first device is never restored. The second one is
# restored from its state text into another handle at random moments, before one event in four. Both must return
# the same response to every event (tests/library/moved.c). Then both the library and the Python device try to
# restore every prefix of a state text, and the text with each byte changed (tests/library/snapshots.py). It is
# not part of the gate, and needs python3, a C compiler and the library in dist/.
#
#   tools/soak/snapshots.sh                 the scripts with the seeds 1 to 100, with 1,000 commands each
#   tools/soak/snapshots.sh 7               the script with seed 7
#   tools/soak/snapshots.sh 1 200 2000      the scripts with the seeds 1 to 200, with 2,000 commands each
#
# If the devices differ, it keeps the script, and prints its path. Its last line is `N agree, M differ`.
set -u

top=$(CDPATH='' cd "$(dirname "$0")/../.." && pwd -P) || exit 1
dist=${DIST:-$top/dist}
first=${1:-1}
last=${2:-${1:-100}}
count=${3:-1000}
folder=$(mktemp -d) || exit 1
agree=0
differ=0

# play SEED: plays the script for a seed on two devices.
play() {
    "$top/tools/python.sh" "$top/tests/at_random/random_script.py" "$1" "$count" "$folder" || exit 1
    "$top/tools/python.sh" "$top/tests/library/scripts.py" --lines "$folder/$1.tpm" >"$folder/lines" ||
        exit 1
    "$folder/moved" "$1" 4 <"$folder/lines"
}

cc -std=c11 -O1 -Wall -Wextra -Werror -I"$dist" -o "$folder/moved" "$top/tests/library/moved.c" \
    "$dist/libtpmsim.a" || exit 1
seed=$first
while [ "$seed" -le "$last" ]; do
    if play "$seed"; then
        agree=$((agree + 1))
        rm "$folder/$seed.tpm" "$folder/$seed.out"
    else
        differ=$((differ + 1))
        echo "DIFFERS: $folder/$seed.tpm"
    fi
    seed=$((seed + 1))
done
rm "$folder/lines" "$folder/moved"
[ "$differ" -gt 0 ] || rmdir "$folder"
"$top/tools/python.sh" "$top/tests/library/snapshots.py" "$dist/libtpmsim.so.0" || differ=$((differ + 1))
echo "$agree agree, $differ differ"
[ "$differ" -eq 0 ]
