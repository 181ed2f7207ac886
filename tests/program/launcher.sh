# Checks that the launcher runs only a proved program. The test uses a copy of the repository, in a folder whose
# path contains a space. There the program under test is shipped as the proved one. A stand-in for `rt` builds
# another program, which prints that it was built.
tests=$(cd "$(dirname "$0")/.." && pwd -P)
. "$tests/common/cases.sh"
[ "$(uname -m)" = x86_64 ] || skip 'there is no program that tools/dist.sh ships but for x86-64'
needs git
[ "$(id -u)" -ne 0 ] || needs setpriv
copy="$room/a copy"
lib=$copy/crates/tpm_line/src/lib.rt
kept=$room/kept

# Makes a folder with the tools that the scripts need, except `rt`. The other folders contain stand-ins. A test
# may put one of these other folders first on the path.
mkdir "$room/tools" "$room/rt" "$room/failing" "$room/other_machine" "$room/no_checksum"
for tool in awk cat chmod cmp cp dirname find git grep head mkdir mktemp mv readlink rm sed sh \
    sha256sum sort tar touch uname wc xargs; do
    ln -s "$(command -v "$tool")" "$room/tools/$tool"
done
cat >"$room/rt/rt" <<'END'
#!/bin/sh
case $1 in
version) echo 'a kit' ;;
ci)
    mkdir -p crates/tpmsim/out
    printf '#!/bin/sh\necho built here\n' >crates/tpmsim/out/tpmsim
    chmod +x crates/tpmsim/out/tpmsim
    ;;
esac
END
printf '#!/bin/sh\necho another kit\n' >"$room/failing/rt"
printf '#!/bin/sh\necho Linux riscv64\n' >"$room/other_machine/uname"
printf '#!/bin/sh\nexit 1\n' >"$room/no_checksum/sha256sum"
chmod +x "$room"/*/rt "$room/other_machine/uname" "$room/no_checksum/sha256sum"

mkdir "$copy"
(cd "$tests/.." && tar cf - --exclude=out tpmsim tools hosts crates.txt HANDLES crates) |
    (cd "$copy" && tar xf -)
chmod -R a+rX "$room"

# with FOLDER LABEL COMMAND..: runs a command with FOLDER first on the path. If FOLDER is `-`, no folder is
# added.
with() {
    path=$room/tools
    [ "$1" = - ] || path=$room/$1:$path
    label=$2
    shift 2
    status=0
    echo 'do Startup 0' | PATH=$path "$@" >"$room/output" 2>"$room/told" || status=$?
    sed "s|$room/||g" "$room/told" >"$room/error"
    report "$label" "$status"
}

# start FOLDER LABEL: starts the launcher with FOLDER first on the path.
start() {
    with "$1" "$2" "$copy/tpmsim" run -
}

# ship PROGRAM: puts a program into dist/, recorded as built from the sources.
ship() {
    mkdir -p "$copy/crates/tpmsim/out"
    cp "$1" "$copy/crates/tpmsim/out/tpmsim"
    touch "$copy/crates/tpmsim/out/tpmsim"
    (PATH=$room/rt:$room/tools && "$copy/tools/dist.sh")
    rm -r "$copy/crates/tpmsim/out"
}

# Puts a stand-in for the library into dist/, recorded as built from the sources.
ship_library() (
    PATH=$room/rt:$room/tools
    cd "$copy" || exit 1
    . tools/lib/proved.sh
    mkdir -p clients/c
    for file in clients/c/tpmsim.h clients/c/tpmsim.hpp clients/c/tpmsim.pc "$archive" "$shared" "$kept_shared" \
        "$module"; do
        echo "a stand-in for $file" >"$file"
    done
    cp clients/c/* dist/
    {
        echo "library sources: $(sources_checksum tpmsim_library)"
        echo "library archive: $(checksum <"$archive")"
        echo "library shared object: $(checksum <"$shared")"
        echo "kept sources: $(kept_sources_checksum)"
        echo "kept shared object: $(checksum <"$kept_shared")"
        echo "web sources: $(sources_checksum tpmsim_web)"
        echo "web module: $(checksum <"$module")"
    } >>"$proved"
)

# changed FILE LABEL: starts the launcher after adding a byte to a file without changing the file's time. Then
# restores the file, and starts the launcher again.
changed() {
    cp -p "$1" "$kept"
    echo >>"$1"
    touch -r "$kept" "$1"
    start - "$2 is changed"
    cp -p "$kept" "$1"
    start - 'it is as it was'
}

start - 'nothing is shipped, and there is no rt'
ship "$program"
ship_library
start - 'it is shipped'
start no_checksum 'at the next start no checksum is computed'
ln -s "$copy/tpmsim" "$room/link"
with - 'by a link' "$room/link" run -
(cd "$copy" && with - 'in its folder' sh tpmsim run -)

# Another user starts the launcher, in a read-only checkout. That start cannot store a stamp.
rm -r "$copy/crates/tpmsim/out"
chmod -R a-w "$copy"
if [ "$(id -u)" -eq 0 ]; then
    with - 'read-only' "$(command -v setpriv)" --reuid=65534 --regid=65534 --clear-groups \
        "$copy/tpmsim" run -
else
    start - 'read-only'
fi
[ ! -e "$copy/crates/tpmsim/out" ] || echo 'it left a stamp'
chmod -R u+w "$copy"

changed "$copy/dist/tpmsim" 'the program'
changed "$lib" 'a source'
changed "$copy/crates.txt" 'crates.txt'
changed "$copy/crates/tpm_tests/src/lib.rt" 'a crate that it does not stand on'

# Files and folders with old times that are moved into the sources.
echo >"$room/more.rt"
touch -t 200001010000 "$room/more.rt"
mv "$room/more.rt" "${lib%/*}/more.rt"
start - 'an old file more'
rm "${lib%/*}/more.rt"
cp -Rp "$copy/crates/tpm_line" "$room/tpm_line"
echo >>"$room/tpm_line/src/lib.rt"
start - 'it is as it was'
mv "$copy/crates/tpm_line" "$kept.crate" && mv "$room/tpm_line" "$copy/crates/tpm_line"
start - 'another crate of its name'
rm -r "$copy/crates/tpm_line" && mv "$kept.crate" "$copy/crates/tpm_line"
start - 'it is as it was'

# Machines on which the program does not run.
start other_machine 'another machine'
printf '#!/bin/sh\necho "no GLIBC_9.9"\nexit 1\n' >"$room/new"
chmod +x "$room/new"
ship "$room/new"
start - 'a C library that is too old'

# A program that is built here takes precedence over the shipped one.
ship "$program"
start failing 'it is shipped, and rt can build nothing'
with rt 'the build' "$copy/tools/build.sh"
start - 'it is built'
echo >>"$lib"
start failing 'a source is newer, and rt can build nothing'
start rt 'a source is newer, and rt can build it'
start - 'it is built'

# ship_module: puts a stand-in for the module for web pages into dist/, recorded as built from the sources.
ship_module() (
    PATH=$room/rt:$room/tools
    cd "$copy" || exit 1
    . tools/lib/proved.sh
    sed -i '/^web /d' "$proved"
    printf 'web sources: %s\nweb module: %s\n' "$(sources_checksum tpmsim_web)" \
        "$(checksum <"$module")" >>"$proved"
)

# Prints what tools/dist.sh --check, which the gate runs, reports about dist/.
with rt 'the gate, with other sources' "$copy/tools/dist.sh" --check
with rt 'made anew' "$copy/tools/dist.sh"
ship_module
with rt 'the gate' "$copy/tools/dist.sh" --check
with failing 'the gate, with another kit' "$copy/tools/dist.sh" --check
cp -p "$copy/dist/libtpmsim.a" "$kept"
echo >>"$copy/dist/libtpmsim.a"
with rt 'the gate, with another archive' "$copy/tools/dist.sh" --check
cp -p "$kept" "$copy/dist/libtpmsim.a"
echo >>"$copy/crates/tpmsim/out/tpmsim"
with rt 'the gate, with other bytes' "$copy/tools/dist.sh" --check
echo >>"$copy/hosts/shared.sh"
echo >>"$copy/dist/libtpmsim-kept.so.0"
with rt 'the gate, with another host of kept devices' "$copy/tools/dist.sh" --check
echo >>"$lib"
with rt 'made anew, though a source is newer' "$copy/tools/dist.sh"
