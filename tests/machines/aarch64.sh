# Runs the program for ARM64 in qemu. It plays every third script of tests/, or all of them if EVERY=1 is set.
# The program must print the responses and traces that are next to each script. The programs for ARM64 and for this machine must be able to read each other's folders and images.
tests=$(cd "$(dirname "$0")/.." && pwd -P)
. "$tests/common/cases.sh"
needs qemu-aarch64 python3 /usr/aarch64-linux-gnu/lib/libc.so.6
top=${tests%/*}
arm=$top/dist/aarch64/tpmsim
(cd "$top" && . tools/lib/proved.sh && ship aarch64 && is_proved sources "$(sources_checksum tpmsim)") ||
    skip 'dist/aarch64 was proved of other sources than these'

arm() {
    qemu-aarch64 -L /usr/aarch64-linux-gnu "$arm" "$@"
}

# compare SCRIPT: checks that a script prints the responses and traces that are next to it, and ends with the
# expected status.
compare() {
    base=${1%.tpm}
    wanted=0
    [ ! -f "$base.status" ] || read -r wanted <"$base.status"
    given=0
    arm run "$1" >output 2>error || given=$?
    [ "$given" = "$wanted" ] && cmp -s output "$base.out" || echo "$1 answers otherwise"
    arm run --trace "$1" 2>error | cmp -s - "$base.trace" || echo "$1 is traced otherwise"
}

make_scripts
number=0
played=0
for script in $(symmetric_folders | xargs -I FOLDER find FOLDER -name '*.tpm' | sort); do
    number=$((number + 1))
    if [ $((number % ${EVERY:-3})) -eq 0 ]; then
        compare "$script"
        played=$((played + 1))
    fi
done
[ "$((played * ${EVERY:-3}))" -gt 90 ] && echo 'the scripts were played'

echo '== what a machine writes the other one reads'
printf '%s\n' 'do Startup 0' 'do PCR_Extend 00000008 pw:- sha256:MEASURED' |
    sed "s/MEASURED/$(printf %064d 7)/" >measure
echo 'do PCR_Read sha256:8' >reading
arm run --state from-arm measure >said && "$program" run --state from-arm reading >first &&
    arm run --state from-arm reading | cmp - first && echo 'a device in a folder'
"$program" run --state from-x86 measure >said && arm run --state from-x86 reading | cmp - first && echo 'and back'
arm run --image image measure >said && "$program" run --image image measure | cmp - said && echo 'an image'

echo '== faults'
arm run nothing-here; echo "status $?"
arm --version | sed 's/[0-9.]*$/VERSION/'
