# A function for the tests of tpmsim.hpp, which read this file after cases.sh and library.sh.
# shellcheck shell=sh disable=SC2154 # cases.sh has `room` and `tests`, library.sh the rest

# play_header COMPILER: compiles tests/cpp/devices.cpp as C++17, and prints its output. Then it prints whether
# the output is the same with C++20. The part that throws no exception is also compiled with -fno-exceptions, as
# C++17 and as C++20. Warnings are errors.
play_header() {
    for words in -std=c++17 -std=c++20 '-std=c++17 -fno-exceptions' '-std=c++20 -fno-exceptions'; do
        # shellcheck disable=SC2086 # word splitting is intended
        if ! "$1" $words -Wall -Wextra -Wpedantic -Wconversion -Werror $sanitizers -pthread \
            -I"$tests/../clients/c" -o "$room/caller" "$tests/cpp/devices.cpp" "$archive"; then
            echo "$words: it is not compiled"
        elif ! "$room/caller" >printed; then
            echo "$words: it does not run"
        elif [ "$words" = -std=c++17 ]; then
            tee wanted <printed
        else
            tail -n "$(wc -l <printed)" wanted | cmp - printed && echo "$words: the same"
        fi
    done
}
