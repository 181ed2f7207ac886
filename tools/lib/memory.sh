# Functions for the scripts that store files in memory, which source this file.
# shellcheck shell=sh

# gigabytes_free: prints how many gigabytes of memory are free.
gigabytes_free() {
    awk '/^MemAvailable:/ { gigabytes = int($2 / 1000000) } END { print gigabytes + 0 }' /proc/meminfo
}

# folder_in_memory GIGABYTES: if this much memory is free, makes a folder in memory, and prints its path. Other
# users may enter the folder, and programs in it can be executed.
folder_in_memory() {
    [ "$(df -Pk /dev/shm | awk 'NR == 2 { print $4 }')" -ge $((1000000 * $1)) ] || return 1
    made=$(mktemp -d /dev/shm/tpmsim.XXXXXX) || return 1
    echo '#!/bin/sh' >"$made/runs" && chmod +x "$made" "$made/runs" && "$made/runs" &&
        echo "$made" && return
    rm -rf "$made"
    return 1
}

# folder_for_proofs NUMBER: if there is enough memory for NUMBER simultaneous proofs, makes a folder in memory
# for their files, and prints its path. Each proof needs 1 GB for its files and 3 GB for the prover.
folder_for_proofs() {
    [ "$(gigabytes_free)" -ge $((4 * $1)) ] && folder_in_memory "$1"
}
