# Tests that images and seeds are cleared before their memory is freed. See attached/cleared.c.
tests=$(cd "$(dirname "$0")/.." && pwd -P)
. "$tests/common/cases.sh"
. "$tests/common/library.sh"
. "$tests/common/attached.sh"

for words in '' "$sanitizers"; do
    # shellcheck disable=SC2086 # word splitting is intended
    in_c $words -c -o "$room/cleared.o" "$callers/cleared.c"
    mkdir "$room/objects" "$room/work" || exit 1
    for part in "$hosts"/kept/*.c; do
        # shellcheck disable=SC2086 # word splitting is intended
        in_c $words -Dfree=free_checked -c -o "$room/objects/$(basename "$part" .c).o" "$part"
    done
    # shellcheck disable=SC2086 # word splitting is intended
    in_c $words -o "$room/cleared" "$room/cleared.o" "$room"/objects/*.o "$archive"
    (cd "$room/work" && timeout 600 "$room/cleared" 2>&1) || echo "status $?"
    rm -r "$room/objects" "$room/work"
done
