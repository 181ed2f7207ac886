# shellcheck shell=sh
# Seals and unseals with tpm2-tools through tpm2-abrmd, which must outlive a refusal of its clients. The status is
# that of tpm2-abrmd if it has ended; otherwise that of the first tool that failed.
allow=
[ "$(id -u)" -ne 0 ] || allow=--allow-root
tpm2-abrmd $allow --session --tcti="$TPM2TOOLS_TCTI" &
daemon=$!
export TPM2TOOLS_TCTI=tabrmd:bus_type=session
until gdbus introspect --session --dest com.intel.tss2.Tabrmd --object-path /com/intel/tss2/Tabrmd/Tcti >bus; do
    kill -0 "$daemon" || break
    sleep 0.1
done
work() {
    tpm2_create -Q -C 0x81000001 -i secret -u public -r private -a 'fixedtpm|fixedparent|userwithauth' &&
        tpm2_load -Q -C 0x81000001 -u public -r private -c object &&
        tpm2_unseal -c object &&
        tpm2_startauthsession -S session &&
        tpm2_policypcr -Q -S session -l sha256:16 &&
        tpm2_flushcontext session &&
        tpm2_getcap handles-persistent
}
work
status=$?
sleep 0.1
if kill -0 "$daemon"; then
    kill -KILL "$daemon"
else
    wait "$daemon"
    status=$?
fi
exit "$status"
