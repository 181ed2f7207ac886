#!/bin/sh
# Opens damaged images with a program, and compares its responses with those of the device in plain Python under
# clients/python/tpmsim/model. The images are: every prefix of the largest image of each version; the largest image of
# version 2 with each byte changed in at least three ways; and images of a full device with randomly altered
# bodies, but with the correct length and digest. If a device can be opened from such an image, the program also
# saves it again. This script is not part of the gate, but tests/images/images.sh is. Needs cc and python3, and
# takes some minutes.
#
#   tools/soak/images.sh             ten thousand altered bodies, with seed 1
#   tools/soak/images.sh 7           ten thousand altered bodies, with seed 7
#   tools/soak/images.sh 7 100       a hundred altered bodies, with seed 7
#
# If responses differ, it reports that, keeps the first outputs that differ, and prints their path. Its last
# line is `N agree, M differ`.
set -u

top=$(CDPATH='' cd "$(dirname "$0")/../.." && pwd -P) || exit 1
program=${PROGRAM:-$(cd "$top" && . tools/lib/program.sh)} || exit 1
program=$(cd "$(dirname "$program")" && pwd -P)/$(basename "$program")
folder=$(mktemp -d) || exit 1
cd "$folder" || exit 1

"$top/tools/python.sh" "$top/tests/common/damaged_images.py" "$program" full "$@" || exit 1
rm -rf "$folder"
