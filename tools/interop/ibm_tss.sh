#!/bin/sh
# Runs the tools of IBM's TSS (Debian: tss2) on a device that `tpmsim serve` serves. Each tool makes one TCP
# connection, through socat. The script reports for each tool whether it succeeded. The sessions encrypt with
# TPM_ALG_XOR, and stay loaded from one tool to the next. Not part of the gate. It installs nothing, and leaves no
# files. Needs tss2 and socat, and rt if tpmsim is not built yet.
#
#   tools/interop/ibm_tss.sh [PORT]    on this port of 127.0.0.1; by default 2321
set -u

top=$(CDPATH='' cd "$(dirname "$0")/../.." && pwd -P)
port=${1:-2321}
for tool in tssstartup socat; do
    command -v "$tool" >/dev/null || {
        echo "$0: $tool is not there; Debian has it in tss2 and socat" >&2
        exit 2
    }
done
folder=$(mktemp -d)
cd "$folder" || exit 1
failed=0

"$top/tpmsim" serve --socket socket --image image --entropy /dev/urandom --locality 0 \
    --connections 4294967295 2>error &
server=$!
trap 'kill "$server"; rm -rf "$folder"' EXIT
until [ -S socket ]; do
    kill -0 "$server" || { cat error >&2; exit 1; }
    sleep 0.1
done
socat "TCP-LISTEN:$port,bind=127.0.0.1,fork,reuseaddr" UNIX-CONNECT:socket &
relay=$!
trap 'kill "$relay" "$server"; rm -rf "$folder"' EXIT
sleep 0.5
export TPM_INTERFACE_TYPE=socsim TPM_SERVER_TYPE=raw TPM_SERVER_NAME=127.0.0.1
export TPM_COMMAND_PORT="$port" TPM_ENCRYPT_SESSIONS=0 TPM_DATA_DIR="$folder"

# The attributes of a session in hex: continueSession (01), combined with decrypt (20), with encrypt (40), or
# with both.
in=21 out=41 both=61

# tool WORDS..: runs one of IBM's tools, for at most ten seconds.
tool() {
    # shellcheck disable=SC2145 # the first argument is the rest of the tool's name
    if timeout 10 "tss$@" >output 2>&1; then
        echo "ok: tss$*"
    else
        echo "FAILED: tss$*"
        sed 's/^/    /' output
        failed=$((failed + 1))
    fi
}

# refused CODE WORDS..: runs a tool whose command the device must refuse with this response code.
refused() {
    code=$1
    shift
    # shellcheck disable=SC2145 # the first argument is the rest of the tool's name
    if ! timeout 10 "tss$@" >output 2>&1 && grep -q "rc $code" output; then
        echo "ok: tss$*: $code"
    else
        echo "FAILED: tss$*: not $code"
        sed 's/^/    /' output
        failed=$((failed + 1))
    fi
}

# same A B: checks that two files are the same.
same() {
    cmp -s "$1" "$2" || { echo 'FAILED: other bytes came back'; failed=$((failed + 1)); }
}

tool startup -c
tool hierarchychangeauth -hi o -pwdn owner
head -c 1024 /dev/urandom >data

# Tests sessions with both hash algorithms, bound and unbound. With these sessions, writes and reads an NV index
# in two parts, and computes an HMAC of 1,024 bytes.
tool startauthsession -se h -bi 40000001 -pwdb owner
tool startauthsession -se h -halg sha1
tool nvdefinespace -hi o -ha 01000001 -sz 1024 -pwdp owner -pwdn index -se0 02000000 $in
for session in 02000000 02000001; do
    tool getrandom -by 32 -se0 $session $out
    tool nvwrite -ha 01000001 -pwdn index -if data -se0 $session $in
    tool nvread -ha 01000001 -pwdn index -sz 1024 -of back -se0 $session $out
    same data back
done
tool createprimary -hi o -kh -pwdp owner -pwdk key -se0 02000000 $both
tool hmac -hk 80000000 -if data -halg sha256 -os mac -pwdk key -se0 02000000 $both
tool hmac -hk 80000000 -if data -halg sha256 -os again -pwdk key -se0 02000001 $both
same mac again

# An NV index that can be written only once. Its policy has one assertion: the command code of
# TPM2_PolicyNvWritten, followed by a zero byte.
echo 0000018f00 >assertion
tool policymaker -if assertion -of once
printf 12345678 >record
tool nvdefinespace -hi p -ha 01000002 -sz 8 -pol once -at aw
tool startauthsession -se p
tool policynvwritten -hs 03000002 -ws n
tool nvwrite -ha 01000002 -if record -se0 03000002 1
tool policynvwritten -hs 03000002 -ws n
refused 000001c4 policynvwritten -hs 03000002 -ws y
refused 0000099d nvwrite -ha 01000002 -if record -se0 03000002 1
tool nvread -ha 01000002 -sz 8 -of back
same record back
tool policyrestart -ha 03000002
# shellcheck disable=SC2238 # `hash` is a file here
head -c 32 data >hash
tool policycphash -ha 03000002 -cp hash
tail -c 32 data >other
refused 00000151 policycphash -ha 03000002 -cp other
tool getcapability -cap 6 -pr 129
tool shutdown -c
echo "$failed failed"
[ "$failed" -eq 0 ]
