# Checks that `make install` installs the modules for libtss2 and for swtpm under the prefix, in folders in
# which the dynamic loader finds them.
tests=$(cd "$(dirname "$0")/.." && pwd -P)
. "$tests/common/cases.sh"
needs cc nm make python3 tpm2_startup swtpm tss2/tss2_tcti.h libtpms/tpm_library.h
top=${tests%/*}
root=$room/root/opt/tpmsim

make -s -C "$top" install DESTDIR="$room/root" PREFIX=/opt/tpmsim || echo "status $?"
(cd "$root" && ls && ls bin lib && sed -n 's/^prefix=//p' lib/pkgconfig/tpmsim.pc)

PATH=$root/bin:$PATH
export PATH
unset PYTHONPATH

echo '== libtss2'
(
    export LD_LIBRARY_PATH="$root/lib" TPM2TOOLS_TCTI="tpmsim:state=$room/kept"
    tpm2_startup -c && tpm2_pcrextend "16:sha256=$(printf %064d 1)" && tpm2_pcrread sha256:16
    tpmsim-power "$room/kept"
    echo "tpmsim-power: status $?"
    tpm2_pcrread sha256:16 2>&1 | grep -o 'TPM.*started\|not initialized.*' | head -n 1
) 2>&1

echo '== swtpm'
mkdir state
tpmsim-swtpm socket --tpm2 --tpmstate "dir=$room/folder/state" --ctrl "type=unixio,path=$room/data.ctrl" \
    --server "type=unixio,path=$room/data" --flags not-need-init,startup-clear 2>told_by_swtpm &
until [ -S "$room/data.ctrl" ]; do sleep 0.05; done
TPM2TOOLS_TCTI=swtpm:path=$room/data tpm2_getcap commands 2>said | grep -c '^TPM2_CC_'
kill "$!"
wait "$!" 2>/dev/null
ls state

echo '== an explained refusal'
echo 'do GetRandom 4' | tpmsim run --trace - >answers
cat answers
echo 'do GetRandom 4' | tpmsim-explain - | head -n 1
