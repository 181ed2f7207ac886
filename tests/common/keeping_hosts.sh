# Builds the programs and modules that keep a device in a folder, and the shims that log their calls and make
# calls fail. A test gets the archive's path as its argument, and reads this file after cases.sh and library.sh.
# tests/keeping/hosts.py describes where the hosts are expected.
# shellcheck shell=sh disable=SC2154 # library.sh has `archive` and `dist`
needs cc nm strip python3 tss2/tss2_tcti.h
top=$tests/..
TPMSIM_ARCHIVE=$(readlink -f "$archive")
export TPMSIM_ARCHIVE

# make_hosts FOLDER: builds the module, tpmsim-power and tpmsim-simulator.
make_hosts() {
    "$top/hosts/build.sh" tcti "$1" && "$top/hosts/build.sh" simulator "$1"
}

make_shims() {
    for shim in common/failing keeping/disk; do
        cc -std=gnu11 -O1 -Wall -Wextra -Werror -Wno-nonnull -fno-builtin -shared -fPIC \
            -o "$1/${shim##*/}.so" "$tests/$shim.c" || return 1
    done
}

# If tools/scripts.sh sets TPMSIM_BUILT to a folder, the hosts and shims are built once for all its tests.
built=${TPMSIM_BUILT:-$room/shared}/keeping
if [ ! -d "$built" ]; then
    { mkdir -p "${built%/*}" && make_hosts "$room/new" && make_shims "$room/new"; } >"$room/made" 2>&1 ||
        { cat "$room/made"; exit 1; }
    # Another test may have built the hosts and shims first.
    mv -T "$room/new" "$built" 2>"$room/moved" || rm -r "$room/new"
fi

# against SHIM NAME WORDS..: runs the Python program NAME of tests/keeping with a shim.
against() {
    shim=$built/$1.so
    played=$tests/keeping/$2.py
    shift 2
    LD_PRELOAD=$shim python3 "$played" "$dist/tpmsim" "$built" "$shim" "$@"
}

# swtpm_states SHARE: executes one of every SHARE runs of swtpm_states.py.
swtpm_states() {
    needs swtpm libtpms/tpm_library.h
    "$top/hosts/build.sh" libtpms "$room/swtpm" || return 1
    shim=$built/failing.so
    LD_PRELOAD=$shim python3 "$tests/keeping/swtpm_states.py" "$room/swtpm" "$shim" "$1"
}
