# Tests tpmsim-swtpm, which libvirt runs under the name swtpm, and swtpm_setup. A stand-in for swtpm prints its
# arguments and environment. hosts/build.sh must produce the same bytes of libtpms each time, and report which
# tools are missing.
tests=$(cd "$(dirname "$0")/.." && pwd -P)
. "$tests/common/cases.sh"
. "$tests/common/swtpm.sh"
program=$room/swtpm/tpmsim-swtpm
mkdir "$room/bin" "$room/links"
ln -s "$room/swtpm/swtpm" "$room/links/swtpm"
cat >"$room/bin/swtpm" <<'END'
#!/bin/sh
echo "libraries: $LD_LIBRARY_PATH" | sed "s|$room|ROOM|g"
echo "completing: $TPMSIM_COMPLETE"
for word do echo "word: $word"; done
exit 7
END
chmod +x "$room/bin/swtpm"
export room
tools=/usr/bin:/bin

# started LABEL PROGRAM PATH: starts the program with PATH as its search path, and prints the result.
started() {
    label "$1"
    PATH=$3 "$2" socket '--log=two words' '' 2>&1 | sed "s|$room|ROOM|g"
    PATH=$3 "$2" >/dev/null 2>&1
    echo "status $?"
}

started 'tpmsim-swtpm' "$program" "$room/bin:$tools"
started 'swtpm, behind a folder that is not there' "$room/swtpm/swtpm" "/nowhere:$room/swtpm:$room/bin:$tools"
started 'swtpm by a link' "$room/links/swtpm" "$room/links:$room/swtpm:$room/bin:$tools"
LD_LIBRARY_PATH=/other TPMSIM_COMPLETE=0
export LD_LIBRARY_PATH TPMSIM_COMPLETE
started 'with other libraries, and not completing' "$program" "$room/bin:$tools"
unset LD_LIBRARY_PATH TPMSIM_COMPLETE

mkdir "$room/alone" "$room/tools"
cp "$program" "$room/alone"
started 'without the library' "$room/alone/tpmsim-swtpm" "$room/bin:$tools"
for tool in sh dirname readlink basename sed; do
    ln -s "$(command -v "$tool")" "$room/tools/$tool"
done
sed 's|/usr/bin /usr/local/bin|/nowhere|' "$program" >"$room/swtpm/elsewhere"
chmod +x "$room/swtpm/elsewhere"
started 'without swtpm' "$room/swtpm/elsewhere" "$room/tools"

# setup WORDS..: runs swtpm_setup, with a stand-in for swtpm that succeeds.
setup() {
    PATH=$room/good:$tools "$room/swtpm/swtpm_setup" "$@" 2>&1
    echo "status $?"
}
label swtpm_setup
mkdir "$room/good"
printf '#!/bin/sh\nexit 0\n' >"$room/good/swtpm"
chmod +x "$room/good/swtpm"
setup --print-capabilities
setup --tpm2 --tpm-state state --vmid x --createek --create-ek-cert --create-platform-cert --lock-nvram
setup --tpm-state state
setup --tpm2 --pcr-banks sha384
setup --tpm2 --reconfigure
setup --tpm2 --profile-name default-v1

label 'hosts/build.sh'
build=$tests/../hosts/build.sh
"$build" libtpms "$room/twice" && cmp "$room/twice/libtpms.so.0" "$room/swtpm/libtpms.so.0" && echo 'the same bytes'
stat -c '%a %n' "$room"/twice/* | sed "s|$room|ROOM|"
"$build" 2>&1 | sed "s|$build|tool|"
TPMSIM_ARCHIVE=/nowhere/libtpmsim.a "$build" libtpms "$room/twice" 2>&1 | sed "s|$build|tool|"
CC=nowhere "$build" libtpms "$room/twice" 2>&1 | sed "s|$build|tool|"
printf '#!/bin/sh\n[ "$*" != "-E -" ] || exit 1\nexec cc "$@"\n' >"$room/bin/without_headers"
chmod +x "$room/bin/without_headers"
CC=$room/bin/without_headers "$build" libtpms "$room/twice" 2>&1 | sed "s|$build|tool|"

# The build writes nothing to the folder of its sources.
mkdir "$room/copy" && cp -R "$tests/../hosts" "$room/copy"
cd "$room/copy" || exit 1
find . | sort >"$room/before"
for folder in hosts hosts/libtpms/new ../copy/hosts/; do
    hosts/build.sh libtpms "$folder" 2>&1 | sed 's|^[^:]*:|tool:|'
done
find . | sort | diff "$room/before" -
