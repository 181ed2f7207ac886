#!/bin/sh
# Runs the tools of IBM's TSS (Debian: tss2) on a device of tpmsim-simulator, over Microsoft's simulator protocol,
# which these tools use by default. The tools test TPM2_Startup, PCRs, sessions that encrypt with AES and with
# XOR, the four types of NV index, policies, sealed primary objects, lockout, TPM2_Clear and, with the
# completing layer, sequences. The script reports for each tool whether it succeeded. Not part of the gate. It
# installs nothing, and leaves no files.
#
#   tools/interop/ibm_tools.sh [PROGRAM]
set -u

top=$(CDPATH='' cd "$(dirname "$0")/../.." && pwd -P) || exit 1
if [ "$#" -gt 0 ]; then
    TPMSIM=$(realpath "$1")
    export TPMSIM
fi
command -v tssstartup >/dev/null || {
    echo "$0: tssstartup is not there; Debian has it in tss2" >&2
    exit 2
}
folder=$(mktemp -d)
server=
trap '[ -z "$server" ] || kill "$server" 2>/dev/null; rm -rf "$folder"' EXIT
cd "$folder" || exit 1
mkdir state
failed=0

# tool NAME WORDS..: runs one of the tools of IBM's TSS, for at most twenty seconds.
tool() {
    name=tss$1
    shift
    if timeout 20 "$name" "$@" >output 2>error; then
        echo "ok: $name $*"
    else
        echo "FAILED: $name $*"
        sed 's/^/    /' output error
        failed=$((failed + 1))
    fi
}

# same A B: checks that two files are the same.
same() {
    cmp -s "$1" "$2" || { echo 'FAILED: other bytes'; failed=$((failed + 1)); }
}

starts_and_pcrs() {
    tool powerup
    tool startup
    tool getcapability -cap 6 -pr 256
    tool getrandom -by 16
    tool pcrextend -ha 10 -halg sha256 -ic abc
    tool pcrread -ha 10 -halg sha256
    tool pcrreset -ha 16
    tool startauthsession -se h -sym aes
    tool getrandom -by 16 -se0 02000000 41
    tool flushcontext -ha 02000000
    tool startauthsession -se h
    tool getrandom -by 16 -se0 02000000 41
}

indices() {
    tool nvdefinespace -hi o -ha 01000000 -sz 16 -pwdn nnn -se0 02000000 21
    tool nvwrite -ha 01000000 -pwdn nnn -ic hello -se0 02000000 21
    tool nvread -ha 01000000 -pwdn nnn -sz 5 -se0 02000000 41
    tool nvdefinespace -hi o -ha 01000001 -ty c -pwdn nnn
    tool nvincrement -ha 01000001 -pwdn nnn
    tool nvread -ha 01000001 -pwdn nnn -sz 8
    tool nvdefinespace -hi o -ha 01000002 -ty b -pwdn nnn
    tool nvsetbits -ha 01000002 -pwdn nnn -bit 4
    tool nvdefinespace -hi o -ha 01000003 -ty e -pwdn nnn
    tool nvextend -ha 01000003 -pwdn nnn -ic aaa
    tool nvread -ha 01000003 -pwdn nnn -sz 32
    for index in 01000000 01000001 01000002 01000003; do
        tool nvundefinespace -hi o -ha "$index"
    done
    tool flushcontext -ha 02000000
}

# sealing: seals data with a password, and with a policy of PCR 16.
sealing() {
    tool createprimary -hi o -bl -kt f -kt p -if secret -pwdk kkk
    tool unseal -ha 80000000 -pwd kkk -of unsealed
    same secret unsealed
    tool flushcontext -ha 80000000
    tool startauthsession -se t -sym aes
    tool policypcr -ha 03000000 -halg sha256 -bm 10000
    tool policygetdigest -ha 03000000 -of policy
    tool flushcontext -ha 03000000
    tool createprimary -hi o -bl -kt f -kt p -if secret -pol policy -uwa
    tool startauthsession -se p -sym aes
    tool policypcr -ha 03000000 -halg sha256 -bm 10000
    tool unseal -ha 80000000 -se0 03000000 1 -of unsealed
    same secret unsealed
    tool policyrestart -ha 03000000
    tool flushcontext -ha 03000000
    tool flushcontext -ha 80000000
}

lockout() {
    tool dictionaryattackparameters -nmt 5 -nrt 100 -lr 100
    tool dictionaryattacklockreset
    tool hierarchychangeauth -hi o -pwdn ooo
    tool hierarchychangeauth -hi o -pwda ooo
    tool clear -hi l
    tool shutdown
}

# fed WORDS..: starts a sequence with this tool, and sends it the first 1,024 bytes of the data.
fed() {
    tool "$@" -pwda aaa
    tool sequenceupdate -hs 80000008 -pwds aaa -if first
}

# sequences: hashes, authenticates and measures 2,000 bytes in two parts, with password authorization. TPM2_Hash
# and TPM2_HMAC take only the first part.
sequences() {
    tool powerup
    tool startup
    head -c 2000 /dev/zero >data
    head -c 1024 data >first
    tail -c 976 data >last
    python3 -c 'import hashlib, sys; sys.stdout.buffer.write(hashlib.sha256(bytes(2000)).digest())' >hashed
    fed hashsequencestart -halg sha256
    tool sequencecomplete -hs 80000008 -pwds aaa -if last -hi o -of digest
    same hashed digest
    tool hash -hi o -halg sha256 -if first -oh digest
    tool createprimary -hi o -kh -halg sha256 -pwdk kkk
    fed hmacstart -hk 80000000 -pwdk kkk -halg sha256
    tool sequencecomplete -hs 80000008 -pwds aaa -of mac
    tool hmac -hk 80000000 -pwdk kkk -halg sha256 -if first -os whole
    same whole mac
    tool flushcontext -ha 80000000
    fed hashsequencestart -halg null
    tool eventsequencecomplete -hs 80000008 -pwds aaa -ha 16 -if last -of1 digest1 -of2 digest2
    same hashed digest2
    fed hashsequencestart -halg sha1
    tool flushcontext -ha 80000008
}

# begin WORDS..: starts the simulator with these options.
begin() {
    made/tpmsim-simulator --port "$port" "$@" >served &
    server=$!
    until [ -s served ]; do
        kill -0 "$server" || exit 1
        sleep 0.1
    done
}

end() {
    kill "$server"
    wait "$server"
    server=
    rm served
}

echo secret >secret
port=${PORT:-24331}
export TPM_INTERFACE_TYPE=socsim TPM_SERVER_NAME=127.0.0.1 TPM_DATA_DIR=. TPM_ENCRYPT_SESSIONS=0
export TPM_COMMAND_PORT="$port" TPM_PLATFORM_PORT="$((port + 1))"
"$top/hosts/build.sh" simulator made || exit 1
begin --image image
starts_and_pcrs
indices
sealing
lockout
end
begin --complete
sequences
end
echo "$failed failed"
[ "$failed" -eq 0 ]
