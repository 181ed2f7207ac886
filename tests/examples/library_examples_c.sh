# Checks that the examples in C print the same as those in Python, except for the text of a refusal.
tests=$(cd "$(dirname "$0")/.." && pwd -P)
. "$tests/common/cases.sh"
. "$tests/common/library.sh"
needs cc

for name in disk_key encrypted_session event_log lockout rollback_guard; do
    echo "== $name"
    # shellcheck disable=SC2086 # word splitting is intended
    cc -std=c11 -D_DEFAULT_SOURCE -Wall -Wextra -Werror $sanitizers -I"$dist" -o "$room/$name" \
        "$tests/../examples/c/$name.c" "$archive" && "$room/$name"
done
