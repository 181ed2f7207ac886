# Compiles devices.cpp, which uses tpmsim.hpp, with clang++ and sanitizers.
tests=$(cd "$(dirname "$0")/.." && pwd -P)
. "$tests/common/cases.sh"
. "$tests/common/library.sh"
. "$tests/common/cpp.sh"
needs clang++ compiler-rt

play_header clang++
