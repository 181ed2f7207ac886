# Compiles devices.cpp and the program in clients/c/README.md, which both use tpmsim.hpp, with g++ and sanitizers.
# Also checks that the header in dist/ is the same as its source.
tests=$(cd "$(dirname "$0")/.." && pwd -P)
. "$tests/common/cases.sh"
. "$tests/common/library.sh"
. "$tests/common/cpp.sh"
needs g++

cmp "$tests/../clients/c/tpmsim.hpp" "$dist/tpmsim.hpp" && echo 'the header is that of the sources'
play_header g++

echo '== clients/c/README.md'
awk '/^```/ { shown = $0 == "```cpp"; next } shown' "$tests/../clients/c/README.md" >program.cpp
g++ -std=c++17 -Wall -Wextra -Werror -I"$dist" -o program program.cpp "$archive" && ./program

echo '== C++14'
g++ -std=c++14 -I"$dist" -o program program.cpp "$archive" 2>&1 | sed -n 's/.*\(error: #error.*\)/\1/p'
