#!/bin/sh
# Installs the shipped program and everything that belongs to it. It proves nothing: the program and the library
# come from dist/.
#
#   tools/install.sh    with these environment variables:
#     PREFIX     the folder of the installation; by default /usr/local
#     DESTDIR    a folder that precedes PREFIX, as for a package; by default empty
#     LIBRARIES  the folder of libraries in PREFIX; by default lib
#     PACKAGES   the folder of Python packages in PREFIX; by default the one where python3 looks, if
#                that is in PREFIX, or else lib/tpmsim/python
#     TPMSIM_MACHINE  the machine of the installation, x86_64 or aarch64; by default this one
#     FUNCTIONS  the folder of zsh's functions in PREFIX; by default share/zsh/site-functions
#
# The modules for libtss2 and for swtpm, and tpmsim-simulator, are built if the headers that they need are
# installed. Otherwise the script prints which of these programs and modules it does not install. If DESTDIR is
# not set and the user is root, ldconfig adds the libraries to the loader's cache. If the loader or python3 does
# not find the installed files, the script prints the variables that a user has to set. Needs python3.
set -u
umask 022
cd "$(dirname "$0")/.." || exit 1
. tools/lib/proved.sh
prefix=${PREFIX:-/usr/local}
libraries=${LIBRARIES:-lib}
functions=${FUNCTIONS:-share/zsh/site-functions}
root=${DESTDIR:-}$prefix

# fail REASON: ends the script with a message.
fail() {
    echo "$0: $1" >&2
    exit 1
}

# packages_of_python: prints the folder in PREFIX where python3 looks for packages, or nothing if it looks
# nowhere in PREFIX.
packages_of_python() {
    python3 -c '
import site, sys
start = sys.argv[1] + "/"
print(*[it.removeprefix(start) for it in site.getsitepackages() if it.startswith(start + "lib/")][:1])
' "$prefix"
}

# put MODE SOURCE PLACE: installs a file at the path PLACE below PREFIX.
put() {
    install -D -m "$1" "$2" "$root/$3" || fail "$root/$3 is not written"
}

# link TARGET PLACE: makes a link at the path PLACE. TARGET is relative to the link's folder.
link() {
    if ! { mkdir -p "$root/$(dirname "$2")" && ln -sf "$1" "$root/$2"; }; then
        fail "$root/$2 is not written"
    fi
}

# has_header HEADER: succeeds if the compiler finds a header.
has_header() {
    echo "#include <$1>" | "${CC:-cc}" -E - >"$work/header" 2>&1
}

put_program() {
    is_proved program "$(checksum <"$shipped")" || fail "$shipped is not the program of $proved"
    put 755 "$shipped" bin/tpmsim
    python3 tools/packaging/python.py "$root" "$packages" bin || fail 'the Python package is not written'
}

put_library() {
    is_proved 'library archive' "$(checksum <"$archive")" || fail "$archive is not that of $proved"
    is_proved 'library shared object' "$(checksum <"$shared")" ||
        fail "$shared is not that of $proved"
    is_proved 'kept shared object' "$(checksum <"$kept_shared")" ||
        fail "$kept_shared is not that of $proved"
    put 644 "$archive" "$libraries/libtpmsim.a"
    for library in "$shared" "$kept_shared"; do
        name=${library##*/}
        put 644 "$library" "$libraries/$name"
        link "$name" "$libraries/${name%.0}"
    done
    put 644 dist/tpmsim.h include/tpmsim.h
    put 644 hosts/kept/tpmsim_kept.h include/tpmsim_kept.h
    put 644 dist/tpmsim.hpp include/tpmsim.hpp
    for header in tpmsim_log.h tpmsim_names.h; do
        put 644 "clients/c/$header" "include/$header"
    done
    # shellcheck disable=SC2016 # pkg-config expands the variables
    for file in tpmsim.pc tpmsim-kept.pc; do
        sed -e "1iprefix=$prefix\nincludedir=\${prefix}/include\nlibdir=\${prefix}/$libraries\n" \
            -e 's/-I[$]{pcfiledir}/-I"${includedir}"/' -e 's/-L[$]{pcfiledir}/-L"${libdir}"/' \
            "clients/c/$file" >"$work/$file" && put 644 "$work/$file" "$libraries/pkgconfig/$file"
    done
    put_cmake
}

# put_cmake: installs the files with which CMake finds the library. Their paths are relative, so that a copy of the
# installation works too.
put_cmake() {
    version=$(sed -n 's/^Version: //p' clients/c/tpmsim.pc)
    minor=${version#*.}
    includes=$(realpath -ms "--relative-to=/$libraries/cmake/tpmsim" /include)
    for file in tpmsimConfig.cmake tpmsimConfigVersion.cmake; do
        sed -e "s|@INCLUDES@|$includes|; s|@VERSION@|$version|; s|@MAJOR@|${version%%.*}|; s|@MINOR@|${minor%%.*}|" \
            "tools/packaging/$file" >"$work/$file" && put 644 "$work/$file" "$libraries/cmake/tpmsim/$file"
    done
}

put_modules() {
    TPMSIM_ARCHIVE=$PWD/$archive
    export TPMSIM_ARCHIVE
    if has_header tss2/tss2_tcti.h; then
        hosts/build.sh tcti "$work/libtss2" || exit 1
        for file in "$work"/libtss2/*; do
            case $file in
            *.so.0) put 644 "$file" "$libraries/${file##*/}" ;;
            *) put 755 "$file" "bin/${file##*/}" ;;
            esac
        done
    else
        echo "$0: there is no module for libtss2, whose header libtss2-dev has" >&2
    fi
    if echo '#include <stdlib.h>' | "${CC:-cc}" -fsyntax-only -x c - >"$work/header" 2>&1; then
        hosts/build.sh simulator "$work/simulator" || exit 1
        put 755 "$work/simulator/tpmsim-simulator" bin/tpmsim-simulator
    else
        echo "$0: there is no tpmsim-simulator, which needs gcc and libc6-dev" >&2
    fi
    if has_header libtpms/tpm_library.h; then
        hosts/build.sh libtpms "$work/swtpm" || exit 1
        put 644 "$work/swtpm/libtpms.so.0" lib/tpmsim/swtpm/libtpms.so.0
        for file in tpmsim-swtpm swtpm_setup; do
            put 755 "$work/swtpm/$file" "lib/tpmsim/swtpm/$file"
        done
        link tpmsim-swtpm lib/tpmsim/swtpm/swtpm
        link ../lib/tpmsim/swtpm/tpmsim-swtpm bin/tpmsim-swtpm
    else
        echo "$0: there is no module for swtpm, whose header libtpms-dev has" >&2
    fi
}

# tell_loader: makes the loader find the libraries, or prints the variable that the user has to set.
tell_loader() {
    PATH=$PATH:/usr/sbin:/sbin
    if [ "$(id -u)" -eq 0 ] && command -v ldconfig >"$work/told"; then
        ldconfig || fail 'ldconfig does not tell the loader of the libraries'
    fi
    ldconfig -p 2>"$work/told" | grep -qF "$prefix/$libraries/libtpmsim.so.0" ||
        echo "The loader finds the libraries by LD_LIBRARY_PATH='$prefix/$libraries'"
}

# tell_compilers: prints the variables that the user has to set, if pkg-config does not find the library.
tell_compilers() {
    [ "$(pkg-config --variable=libdir tpmsim 2>"$work/told")" = "$prefix/$libraries" ] || {
        echo "pkg-config finds the library by PKG_CONFIG_PATH='$prefix/$libraries/pkgconfig'"
        echo "CMake finds the library by CMAKE_PREFIX_PATH='$prefix'"
    }
}

# tell_python: prints the variable that the user has to set, if python3 does not find the package.
tell_python() {
    (cd / && python3 -B -c '
import sys, tpmsim
sys.exit(not tpmsim.__file__.startswith(sys.argv[1]))
' "$prefix/$packages/" 2>"$work/told") ||
        echo "python3 finds tpmsim by PYTHONPATH='$prefix/$packages'"
}

put_documents() {
    tools/man/pages.py "$work/man" || fail 'the man pages are not made'
    for page in "$work"/man/*; do
        gzip -9n "$page" || fail "$page is not packed"
        put 644 "$page.gz" "share/man/man${page##*.}/${page##*/}.gz"
    done
    put 644 tools/packaging/tpmsim.bash share/bash-completion/completions/tpmsim
    for tool in audit compare coverage explain refusals script simulator; do
        link tpmsim "share/bash-completion/completions/tpmsim-$tool"
    done
    put 644 tools/packaging/_tpmsim "$functions/_tpmsim"
    put 644 tools/packaging/tpmsim.fish share/fish/vendor_completions.d/tpmsim.fish
    put 644 "$proved" share/doc/tpmsim/PROVED
    tools/man/documents.py "${DESTDIR:-}" "$prefix/share/doc/tpmsim" \
        "dist/PROVED=$prefix/share/doc/tpmsim/PROVED" "dist/tpmsim.h=$prefix/include/tpmsim.h" \
        "clients/c/tpmsim.h=$prefix/include/tpmsim.h" "dist/tpmsim.hpp=$prefix/include/tpmsim.hpp" \
        "clients/c/tpmsim.hpp=$prefix/include/tpmsim.hpp" \
        "clients/c/tpmsim_log.h=$prefix/include/tpmsim_log.h" \
        "clients/c/tpmsim_names.h=$prefix/include/tpmsim_names.h" \
        "hosts/kept/tpmsim_kept.h=$prefix/include/tpmsim_kept.h" \
        "dist/tpmsim.pc=$prefix/$libraries/pkgconfig/tpmsim.pc" || fail 'the documents are not written'
}

packages=${PACKAGES:-$(packages_of_python)}
packages=${packages:-lib/tpmsim/python}
work=$(mktemp -d) || exit 1
trap 'rm -rf "$work"' EXIT
put_program
put_library
put_modules
put_documents
if [ -z "${DESTDIR:-}" ]; then
    tell_loader
    tell_compilers
    tell_python
fi
