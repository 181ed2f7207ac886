#!/bin/sh
# Writes random scripts, runs them, and compares the program's responses with those of the device in plain
# Python under clients/python/tpmsim/model. It is not part of the gate. Needs python3.
#
#   tools/soak/random_scripts.sh                 the scripts with the seeds 1 to 20, with 1,000 commands each
#   tools/soak/random_scripts.sh 7               the script with seed 7
#   tools/soak/random_scripts.sh 1 100 2000      the scripts with the seeds 1 to 100, with 2,000 commands each
#   PROFILE=complete tools/soak/random_scripts.sh    the same on devices of the complete profile
#
# If the responses differ, it prints the first different line, keeps the script and both outputs, and prints
# their paths. Its last line is `N agree, M differ`.
set -u

top=$(CDPATH='' cd "$(dirname "$0")/../.." && pwd -P) || exit 1
program=${PROGRAM:-$(cd "$top" && . tools/lib/program.sh)} || exit 1
first=${1:-1}
last=${2:-${1:-20}}
count=${3:-1000}
profile=${PROFILE:-symmetric}
option=
[ "$profile" = symmetric ] || option=--$profile
folder=$(mktemp -d) || exit 1
agree=0
differ=0

seed=$first
while [ "$seed" -le "$last" ]; do
    script=$folder/$seed
    "$top/tools/python.sh" "$top/tests/at_random/random_script.py" "$seed" "$count" "$folder" "$profile" || exit 1
    "$program" run ${option:+"$option"} "$script.tpm" >"$script.given"
    if cmp "$script.out" "$script.given"; then
        agree=$((agree + 1))
        rm "$script.tpm" "$script.out" "$script.given"
    else
        differ=$((differ + 1))
        echo "DIFFERS: $script.tpm"
    fi
    seed=$((seed + 1))
done
[ "$differ" -gt 0 ] || rmdir "$folder"
echo "$agree agree, $differ differ"
[ "$differ" -eq 0 ]
