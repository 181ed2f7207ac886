# Installs the library in a folder, and builds programs with what pkg-config and CMake say about it: the shared library,
# the archive, a device in a folder, and the headers with names and logs.
tests=$(cd "$(dirname "$0")/.." && pwd -P)
. "$tests/common/cases.sh"
needs cc c++ cmake pkg-config python3
top=${tests%/*}
prefix=$room/prefix

# Without the headers of other libraries, the modules are not installed.
mkdir bin
printf '#!/bin/sh\nexit 1\n' >bin/cc && chmod +x bin/cc
PATH=$room/folder/bin:$PATH DESTDIR="$room/moved" PREFIX=/usr "$top/tools/install.sh" >said 2>&1 || cat said
PATH=$room/folder/bin:$PATH PREFIX=$prefix "$top/tools/install.sh" >said 2>&1 || cat said
export PKG_CONFIG_PATH="$prefix/lib/pkgconfig" LD_LIBRARY_PATH="$prefix/lib"

cat >kept.c <<'END_OF_C'
#include <stdio.h>
#include <tpmsim_kept.h>
#include <tpmsim_log.h>
#include <tpmsim_names.h>

int main(void) {
    static char reason[TPMSIM_KEPT_REASON_SIZE];
    tpmsim_kept_options options = {.folder = "state"};
    tpmsim_kept_device kept = {0};
    if (tpmsim_kept_open(&kept, &options, reason)) return puts(reason), 1;
    tpmsim_kept_close(&kept);
    puts(tpmsim_code_name(0x98e));
}
END_OF_C
echo '== pkg-config'
# shellcheck disable=SC2046 # word splitting is intended
cc -o kept kept.c $(pkg-config --cflags --libs tpmsim-kept) && ./kept && ls state

echo '== CMake'
mkdir project && cp kept.c project/
cat >project/main.cpp <<'END_OF_CPP'
#include <tpmsim.hpp>
int main() { return libtpmsim::Device().save().empty(); }
END_OF_CPP
cat >project/CMakeLists.txt <<'END_OF_CMAKE'
cmake_minimum_required(VERSION 3.13)
project(uses C CXX)
set(CMAKE_CXX_STANDARD 17)
find_package(tpmsim 0.1 CONFIG REQUIRED)
add_executable(kept kept.c)
target_link_libraries(kept PRIVATE tpmsim::kept)
add_executable(shared main.cpp)
target_link_libraries(shared PRIVATE tpmsim::tpmsim)
add_executable(static main.cpp)
target_link_libraries(static PRIVATE tpmsim::static)
END_OF_CMAKE
unset LD_LIBRARY_PATH
for place in "$prefix" "$room/moved/usr"; do
    rm -rf built
    { cmake -S project -B built "-DCMAKE_PREFIX_PATH=$place" && cmake --build built; } >said 2>&1 || tail -n 20 said
    for program in kept shared static; do
        "built/$program" && echo "$program"
    done
done
sed -i 's/tpmsim 0.1 CONFIG/tpmsim 0.2 CONFIG/' project/CMakeLists.txt
cmake -S project -B other "-DCMAKE_PREFIX_PATH=$prefix" >said 2>&1 || grep -o 'version: 0.1.0' said | sort -u
