#!/bin/sh
# Measures `tpmsim serve`: the time from its start with the image of a full device to its first response; its
# memory; the round-trip time of TPM2_GetRandom, compared with that of a loop in C that only reads and writes
# the same number of bytes; and the number of reads for a thousand commands that are sent at once. Needs
# python3, a C compiler, strace, and rt if tpmsim is not built yet. Not part of the gate.
set -eu

top=$(CDPATH='' cd "$(dirname "$0")/../.." && pwd -P)
program=$(cd "$top" && . tools/lib/program.sh) || exit 1
folder=$(mktemp -d)
trap 'rm -rf "$folder"' EXIT

cat >"$folder/bare.c" <<'C'
#include <string.h>
#include <sys/socket.h>
#include <sys/un.h>
#include <unistd.h>

int main(int count, char **words) {
    struct sockaddr_un address = {.sun_family = AF_UNIX};
    char command[4096], response[44] = {0};
    int listener = socket(AF_UNIX, SOCK_STREAM, 0);
    if (count != 2 || listener < 0) return 1;
    strncpy(address.sun_path, words[1], sizeof address.sun_path - 1);
    if (bind(listener, (struct sockaddr *)&address, sizeof address) || listen(listener, 1)) return 1;
    int connection = accept(listener, NULL, NULL);
    for (;;) {
        ssize_t size = read(connection, command, sizeof command);
        if (size <= 0) return 0;
        for (ssize_t at = 0; at + 12 <= size; at += 12)
            if (write(connection, response, sizeof response) != sizeof response) return 1;
    }
}
C
cc -O2 -o "$folder/bare" "$folder/bare.c"
"$top/tools/python.sh" "$top/tests/common/made.py" "$folder/scripts" full_device
"$top/tools/python.sh" "$top/tests/images/images.py" "$folder/scripts/tests/general/full_device.tpm" \
    "$folder/image"
python3 "$top/tools/bench/serving.py" "$program" "$folder/bare" "$folder/image"

cd "$folder"
strace -o calls -e trace=recvfrom "$program" serve --socket socket --image new \
    --entropy /dev/zero --locality 0 --connections 1 &
python3 "$top/tests/common/client.py" socket 65536 80010000000c000001440000 \
    "$(awk 'BEGIN { for (i = 1; i < 1000; i++) printf "80010000000c0000017b0020" }')" >responses
wait
echo "a thousand commands at once: $(wc -l <responses) responses, in" \
    "$(grep -c '^recvfrom' calls) reads"
