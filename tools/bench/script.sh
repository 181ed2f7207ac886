#!/bin/sh
# Prints the script that run.sh, shares.sh and lines.sh measure: a Startup, and then GetRandom lines for 32
# bytes. The first argument is the number of lines. The commands are in hex or, if the second argument is `do`,
# in words.
set -eu

awk -v lines="$1" -v kind="${2:-cmd}" 'BEGIN {
    startup = kind == "do" ? "do Startup 0" : "cmd 80010000000c000001440000"
    random = kind == "do" ? "do GetRandom 32" : "cmd 80010000000c0000017b0020"
    print startup
    for (i = 0; i < lines; i++) print random
}'
