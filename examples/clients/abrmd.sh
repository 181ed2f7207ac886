#!/bin/sh
# Shows that tpm2-abrmd ends for all its clients when the TPM refuses a client's TPM2_GetCapability.
PATH=$PATH:/usr/sbin:/sbin
. "$(dirname "$0")/sweep.sh"
needs tpm2-abrmd tpm2_getcap tpm2_getrandom tpm2_send dbus-run-session
ldconfig -p 2>"$work/found" | grep -q libtss2-tcti-tabrmd || { echo 'there is no libtss2-tcti-tabrmd' >&2; exit 2; }

# A resource manager, a client, which is the arguments, and another client. The status is that of the resource
# manager, or 0 if it outlives its clients.
cat >session.sh <<'CODE'
root=
[ "$(id -u)" -ne 0 ] || root=--allow-root
tpm2-abrmd $root --session --tcti="$TPM2TOOLS_TCTI" &
daemon=$!
export TPM2TOOLS_TCTI=tabrmd:bus_type=session
for try in $(seq 100); do
    kill -0 "$daemon" || break
    tpm2_getrandom --hex 4 >random && break
    sleep 0.1
done
"$@"
tpm2_getrandom --hex 4 >random
sleep 0.1
if kill -0 "$daemon"; then
    kill -KILL "$daemon"
    exit 0
fi
wait "$daemon"
CODE

if [ "$tpm" = swtpm ]; then
    begin_swtpm
    # TPM2_GetCapability of capability 7F, which no TPM has.
    printf '\200\1\0\0\0\26\0\0\1\172\0\0\0\177\0\0\0\0\0\0\0\1' >getcap
    dbus-run-session -- sh session.sh tpm2_send getcap >response 2>&1
    echo "tpm2-abrmd ends with status $?" | tee report
    grep -q 'status 134' report
    exit
fi
needs python3
sweep --copy . --only GetCapability:G5 -- dbus-run-session -- sh session.sh tpm2_getcap handles-persistent | tee report
grep -q 'FINDING: dies' report
