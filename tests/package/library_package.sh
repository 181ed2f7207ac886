# Unpacks the three Debian packages into an empty root, and runs the installed programs from there.
tests=$(cd "$(dirname "$0")/.." && pwd -P)
. "$tests/common/cases.sh"
needs dpkg-deb cc c++ nm pkg-config man python3
top=${tests%/*}
root=$room/root
case $(uname -m) in
aarch64) machine=arm64 folder=aarch64-linux-gnu dist=$top/dist/aarch64 ;;
*) machine=amd64 folder=x86_64-linux-gnu dist=$top/dist ;;
esac

# said COMMAND..: prints the first lines of a command's output, and its status if it is not 0.
said() {
    "$@" >said 2>&1 || echo "status $?" >>said
    head -n "${lines:-3}" said | sed -e "s|$root|ROOT|g" -e "s|$room|ROOM|g" -e "s|$top|TOP|g"
}

# A compiler without the headers of other libraries, so that the modules are not installed.
mkdir headers
cat >headers/cc <<END
#!/bin/sh
[ "\$1" != -E ] || exit 1
exec $(command -v cc) "\$@"
END
chmod +x headers/cc

echo '== they are made'
version=$("$dist/tpmsim" --version | sed 's/.* //')
lines=5 said env PATH="$room/folder/headers:$PATH" TPMSIM_PACKING=none "$top/tools/deb.sh" "$room/made" |
    sed -e "s/$version/VERSION/" -e "s/_$machine/_MACHINE/"
: >seen
for name in libtpmsim0 libtpmsim-dev tpmsim; do
    package=$room/made/${name}_${version}_$machine.deb
    dpkg-deb -f "$package" Package Architecture Depends Description |
        sed -e "s/: $machine/: MACHINE/" -e "s/$version/VERSION/" -e 4q
    dpkg-deb -x "$package" "$name" && dpkg-deb -e "$package" control || exit 1
    [ "$(cd "$name" && find usr -type f | wc -l)" -eq "$(wc -l <control/md5sums)" ] &&
        (cd "$name" && md5sum -c --quiet "$room/folder/control/md5sums") && echo 'each file has its sum'
    ! (cd "$name" && find usr ! -type d) | sort | comm -12 - seen | grep . || echo 'a file is in two packages'
    (cd "$name" && find usr ! -type d) | sort >>seen && sort -o seen seen
    mkdir -p "$root" && cp -a "$name/usr" "$root/" && rm -rf "$name"
    [ ! -e control/symbols ] || mv control/symbols .
    rm -r control
done
for library in libtpmsim libtpmsim-kept; do
    echo "$library.so.0 libtpmsim0 #MINVER#"
    nm -D --defined-only "$root/usr/lib/$folder/$library.so.0" | sed 's/.* //; s/@.*//' | sort
done >calls
sed 's/^ //; s/@.* .*//' symbols | LC_ALL=C sort -u >promised && LC_ALL=C sort -u calls | cmp - promised &&
    echo 'the symbols file has each call'

PATH=$root/usr/bin:$PATH
LD_LIBRARY_PATH=$root/usr/lib/$folder
PKG_CONFIG_PATH=$LD_LIBRARY_PATH/pkgconfig
PKG_CONFIG_SYSROOT_DIR=$root
export LD_LIBRARY_PATH PKG_CONFIG_PATH PKG_CONFIG_SYSROOT_DIR
unset PYTHONPATH TPMSIM TPMSIM_LIBRARY

echo '== the program and the tools'
printf 'do Startup 0\ndo NV_Read OWNER 01000001 pw:- 8 0\n' >log
said sh -c 'cd / && command -v tpmsim'
lines=4 said tpmsim run --trace log
said tpmsim-explain log
tpmsim run --trace log | tpmsim-audit log - | tail -n 2
for tool in audit explain; do
    lines=1 said "tpmsim-$tool"
    "tpmsim-$tool" --help | grep '^    tpmsim'
done
tpmsim-coverage log --only state | tail -n 1
tpmsim-refusals NV_Read A3 | head -n 3
lines=1 said tpmsim-compare
tpmsim-script log | grep '^do '
lines=1 said tpmsim-simulator --help

echo '== the library, and the package in Python'
cat >program.c <<'END'
#include <tpmsim.h>
int main(void) { return tpmsim_version() != TPMSIM_VERSION_NUMBER; }
END
# shellcheck disable=SC2046 # word splitting is intended
cc -o shared program.c $(pkg-config --cflags --libs tpmsim) && ./shared && echo 'the shared object'
# shellcheck disable=SC2046 # word splitting is intended
cc -o static program.c $(pkg-config --cflags tpmsim) "$LD_LIBRARY_PATH/libtpmsim.a" && ./static &&
    echo 'the archive'
cat >program.cpp <<'END'
#include <tpmsim.hpp>
int main() { return libtpmsim::Device().save().empty(); }
END
# shellcheck disable=SC2046 # word splitting is intended
c++ -std=c++17 -o shared program.cpp $(pkg-config --cflags --libs tpmsim) && ./shared &&
    echo 'the header for C++'
cat >program.py <<'END'
import importlib.metadata
import tpmsim
from tpmsim.caller import Caller
from tpmsim.device import ChildDevice, KeptDevice, LibraryDevice

print(tpmsim.__version__ == importlib.metadata.version("tpmsim"))
print([each.name for each in importlib.metadata.entry_points(group="pytest11")])
for kind in LibraryDevice, ChildDevice, KeptDevice:
    with kind(*["state"] * (kind is KeptDevice)) as device:
        tpm = Caller(device)
        tpm.start_up()
        print(kind.__name__, len(tpm.call("GetRandom", bytesRequested=4)["randomBytes"]))
END
PYTHONPATH=$root/usr/lib/python3/dist-packages lines=9 said python3 program.py

echo '== man pages, documents and completion'
man -M "$root/usr/share/man" -w tpmsim tpmsim-power libtpmsim | sed "s|$root|ROOT|"
MANWIDTH=90 man -M "$root/usr/share/man" tpmsim-power 2>&1 | sed -n '3,5p'
(cd "$root/usr/share/doc/tpmsim" && ls && cmp PROVED "$dist/PROVED")
bash -c '. "$0" && complete -p tpmsim' "$root/usr/share/bash-completion/completions/tpmsim-audit"
