# Tests the library from C++, with sanitizers. See library/caller.cpp.
tests=$(cd "$(dirname "$0")/.." && pwd -P)
. "$tests/common/cases.sh"
. "$tests/common/library.sh"
needs g++

# shellcheck disable=SC2086 # word splitting is intended
g++ -std=c++17 -Wall -Wextra -Werror $sanitizers -I"$dist" -o "$room/caller" "$sources/caller.cpp" \
    "$archive" && "$room/caller"
