# Tests the library's state texts. library/snapshots.py checks the results for valid and invalid texts.
# library/moved.c restores devices at random moments of random scripts, with and without sanitizers.
# tools/soak/snapshots.sh runs both programs for longer.
tests=$(cd "$(dirname "$0")/.." && pwd -P)
. "$tests/common/cases.sh"
. "$tests/common/library.sh"
needs cc python3

python3 "$sources/snapshots.py" "$shared" 7

compile moved moved "$archive"
# shellcheck disable=SC2086 # word splitting is intended
compile sanitized_moved moved $sanitizers "$archive"
for seed in 1 2 3 4; do
    python3 "$tests/at_random/random_script.py" "$seed" 300 . || exit 1
    python3 "$sources/scripts.py" --lines "$seed.tpm" || exit 1
done >lines
"$room/moved" 1 4 <lines
"$room/sanitized_moved" 2 4 <lines
