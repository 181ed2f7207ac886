# Functions with which a test declares the tools that it needs. cases.sh reads this file.
# shellcheck shell=sh disable=SC2154 # cases.sh has `room`, `test_file` and `tests`
. "$tests/../tools/lib/python.sh"

# package_of NAME: prints the Debian packages that contain a tool, a header or a file.
package_of() {
    case $1 in
    aarch64-linux-gnu-gcc) echo gcc-aarch64-linux-gnu ;;
    cargo-clippy) echo rust-clippy ;;
    cargo-fmt) echo rustfmt ;;
    c++) echo g++ ;;
    cc) echo gcc, libc6-dev ;;
    clang++) echo clang ;;
    compiler-rt) echo "libclang-rt-$(version_of_clang)dev" ;;
    cryptography) echo python3-cryptography ;;
    dpkg-deb) echo dpkg ;;
    frama-c) echo frama-c-base ;;
    go) echo golang-go ;;
    pytest-3) echo python3-pytest ;;
    qemu-aarch64) echo qemu-user ;;
    libtpms/tpm_library.h) echo libtpms-dev ;;
    man) echo man-db ;;
    nm | objcopy | objdump | strip) echo binutils ;;
    node) echo nodejs ;;
    setpriv | unshare) echo util-linux ;;
    tpm2 | tpm2_*) echo tpm2-tools ;;
    tsc) echo node-typescript ;;
    tssgetrandom) echo tss2 ;;
    tss2/tss2_tcti.h) echo libtss2-dev ;;
    venv) echo python3-venv ;;
    /usr/aarch64-linux-gnu/include/*) echo libc6-dev-arm64-cross ;;
    /usr/aarch64-linux-gnu/*) echo libc6-arm64-cross ;;
    *) echo "$1" ;;
    esac
}

# version_of_clang: prints `14-` for clang 14. Without clang, prints nothing.
version_of_clang() {
    ! has_tool clang++ || clang++ -dumpversion | sed 's/[.].*/-/'
}

# has_tool TOOL: succeeds if the tool is on the path.
has_tool() {
    (unset -f "$1"; command -v "$1") >"$room/found"
}

# has_header HEADER: succeeds if the C compiler finds the header. Without a compiler, succeeds if the header
# is in /usr/include.
has_header() {
    if has_tool cc; then
        echo "#include <$1>" | cc -E - >"$room/found" 2>&1
    else
        [ -f "/usr/include/$1" ]
    fi
}

# has_compiler_rt: succeeds if clang++ can link a program with sanitizers.
has_compiler_rt() {
    has_tool clang++ && echo 'int main() {}' >"$room/main.cpp" &&
        clang++ -fsanitize=address,undefined -o "$room/found" "$room/main.cpp" 2>"$room/told"
}

# is_there NAME: succeeds if a tool, a header or a file is installed. A C compiler also needs the headers of the C
# library, and python3 needs its standard library. `compiler-rt` is what clang++ needs for sanitizers, `venv` what
# Python needs to make an environment, and `cryptography` a module of the Python that pytest-3 uses.
is_there() {
    case $1 in
    /*) [ -f "$1" ] ;;
    *.h) has_header "$1" ;;
    cc) has_tool cc && has_header stdlib.h ;;
    compiler-rt) has_compiler_rt ;;
    cryptography) /usr/bin/python3 -c 'import cryptography' 2>"$room/told" ;;
    python3) has_tool python3 && python_is_whole ;;
    venv) command python3 -c 'import ensurepip, venv' 2>"$room/told" ;;
    *) has_tool "$1" ;;
    esac
}

# lack_of TOOL: if `is_there TOOL` fails for an installed tool, prints which part of the tool is missing.
lack_of() {
    case $1 in
    cc) echo 'the headers of the C library' ;;
    python3) echo 'the modules of 3.11' ;;
    esac
}

# all_needs: prints the names that this test needs: the words of each line of the test that begins with `needs`,
# and of such lines in the files of tests/common that the test reads.
all_needs() {
    files=$(sed -n "s|^[.] \"\$tests/common/\(.*\)\"|$tests/common/\1|p" "$test_file")
    # shellcheck disable=SC2086 # word splitting is intended
    sed -n 's/^needs //p' "$test_file" $files
}

# needs NAME..: skips the test if a tool, a header or a file is missing. The reason names everything that the test
# lacks, even if a later line needs it. The reason ends with the packages that contain the missing tools, which
# tools/scripts.sh collects. It begins with `there is no`, which .ci/run accepts, unless all tools are installed
# and only a library of a tool is missing.
needs() {
    for name do
        is_there "$name" || skip_for_lack "$@"
    done
}

# skip_for_lack NAME..: skips the test, because one of these names is missing.
skip_for_lack() {
    absent='' poor='' packages=''
    for name in $({ echo "$*" && all_needs; } | xargs -n 1 | awk '!seen[$0]++'); do
        ! is_there "$name" || continue
        packages="$packages, $(package_of "$name")"
        if has_tool "$name"; then
            poor="$poor, $name without $(lack_of "$name")"
        else
            absent="$absent, $name"
        fi
    done
    reason="there is ${poor#, }"
    [ -z "$absent" ] || reason="there is no ${absent#, }$poor"
    skip "$reason (Debian: ${packages#, })"
}
