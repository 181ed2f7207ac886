# Runs the compiled keeper in the world that the theorem on devices in folders describes. keeper_world.c
# simulates 100,000 events, and fewer with sanitizers. Then it must detect the mistake of each wrong host.
tests=$(cd "$(dirname "$0")/.." && pwd -P)
. "$tests/common/cases.sh"
. "$tests/common/library.sh"
needs cc

refusing='-Wl,--wrap=malloc -Wl,--wrap=realloc'
# shellcheck disable=SC2086 # word splitting is intended
compile plain keeper_world "$archive" $refusing -O1
# shellcheck disable=SC2086 # word splitting is intended
compile checked keeper_world "$archive" $refusing -O1 $sanitizers
"$room/plain" 100000 1 2>"$room/counts" || cat "$room/counts"
"$room/checked" 10000 2 2>"$room/counts" || cat "$room/counts"
"$room/plain" wrong 40000
