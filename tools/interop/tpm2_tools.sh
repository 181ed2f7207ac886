#!/bin/sh
# Uses a device with Debian's tpm2-tools, each tool in its own process. Reports for each tool whether it
# succeeded. Not part of the gate. It installs nothing, and leaves no files.
#
#   tools/interop/tpm2_tools.sh            in each of these three ways
#   tools/interop/tpm2_tools.sh WAY..      in these ways:
#
#   socket    a served device, which the tools access through their `cmd` transport and socat. Needs
#             tpm2-tools and socat, and rt if the program is not built yet
#   module    a kept device without the completing layer, through the module that hosts/build.sh makes.
#             Needs tpm2-tools and what that script needs; TPMSIM_ARCHIVE may name another archive
#   complete  a kept device with the completing layer, and tools that pass contexts to each other
set -u

top=$(CDPATH='' cd "$(dirname "$0")/../.." && pwd -P)
[ "$#" -gt 0 ] || set -- socket module complete
folder=$(mktemp -d) || exit 1
server=
# shellcheck disable=SC2329 # the trap calls it
end() {
    [ -z "$server" ] || kill "$server"
    rm -rf "$folder"
}
trap end EXIT
cd "$folder" || exit 1
tools=0
failed=0

# fail REASON: ends the script with a message, because it cannot use a device in the requested way.
fail() {
    echo "$0: $1" >&2
    exit 2
}

# has TOOL: ends the script if a tool of Debian's packages tpm2-tools and socat is missing.
has() {
    command -v "$1" >/dev/null || fail "there is no $1; Debian has it in tpm2-tools and socat"
}

# wrong REASON: counts a wrong result.
wrong() {
    echo "FAILED: $1"
    failed=$((failed + 1))
}

# run WORDS..: runs one of tpm2-tools, for at most ten seconds.
run() {
    tools=$((tools + 1))
    timeout 10 tpm2 "$@" >output 2>error
}

# tool WORDS..: runs a tool, which must succeed.
tool() {
    if run "$@"; then
        echo "ok: tpm2 $*"
    else
        wrong "tpm2 $*"
        sed 's/^/    /' error
    fi
}

# refused CODE WORDS..: runs a tool, which must fail with this response code.
refused() {
    code=$1
    shift
    if run "$@"; then
        wrong "tpm2 $*: it is not refused"
    elif grep -qi "0x0*$code)" error; then
        echo "ok: tpm2 $*: refused, $code"
    else
        wrong "tpm2 $*: it is refused otherwise"
        sed 's/^/    /' error
    fi
}

# same FILE: checks that the output of the last tool equals the content of a file.
same() {
    cmp -s output "$1" || wrong "other bytes than $1"
}

# said TEXT: checks that the output of the last tool contains a text.
said() {
    grep -q -- "$1" output || wrong "it does not say $1"
}

# loaded: prints the handle of the loaded transient object, or nothing.
loaded() {
    tpm2 getcap handles-transient 2>error | sed -n 's/^- //p'
}

# The value of PCR 10, computed with hashlib, after an extend with a digest of zeros whose last byte is 1.
extended=$(python3 -c 'import hashlib; print(hashlib.sha256(bytes(63) + b"\1").hexdigest())')

# Tests the tools that do not need the completing layer.
device() {
    tool startup -c
    tool selftest -f
    tool getrandom --hex -f 16
    for what in commands handles-persistent handles-pcr handles-permanent handles-transient \
        handles-nv-index pcrs; do
        tool getcap "$what"
    done
    tool pcrread sha256:0,10
    tool pcrread sha1:0,16+sha256:all
    tool pcrextend "10:sha256=$one"
    tool pcrread sha256:10
    said "$(echo "$extended" | tr a-f A-F)"
    tool pcrevent 16 event
    tool pcrreset 16
    tool readclock
    tool changeauth -c o owner
    refused 9a2 changeauth -c o -p another owner
    tool changeauth -c o -p owner
    tool dictionarylockout -s -n 5 -t 10 -l 10
    tool dictionarylockout -c
}

# Tests NV indices of each type.
indices() {
    tool nvdefine 0x1500016 -C o -s 8 -a 'ownerread|ownerwrite|authread|authwrite' -p pass
    refused 14a nvread 0x1500016 -C o -s 8
    tool nvwrite 0x1500016 -C o -i data
    tool nvread 0x1500016 -C o -s 8
    same data
    tool nvwrite 0x1500016 -P pass -i data
    tool nvread 0x1500016 -P pass -s 8
    same data
    refused 98e nvread 0x1500016 -P other -s 8
    tool nvreadpublic 0x1500016
    tool nvreadpublic
    tool nvdefine 0x1500017 -C o -a 'ownerread|ownerwrite|nt=counter'
    tool nvincrement 0x1500017 -C o
    tool nvread 0x1500017 -C o -s 8
    tool nvdefine 0x1500018 -C o -a 'ownerread|ownerwrite|nt=bits'
    tool nvsetbits 0x1500018 -C o -i 0xbadc0de
    tool nvdefine 0x1500019 -C o -a 'ownerread|ownerwrite|nt=extend'
    tool nvextend 0x1500019 -C o -i event
    tool nvdefine 0x150001a -C o -s 8 -a 'ownerread|ownerwrite|write_stclear|read_stclear'
    tool nvwrite 0x150001a -C o -i data
    tool nvwritelock 0x150001a -C o
    refused 148 nvwrite 0x150001a -C o -i data
    tool nvreadlock 0x150001a -C o
    refused 148 nvread 0x150001a -C o -s 8
    for index in 0x1500017 0x1500018 0x1500019 0x150001a; do
        tool nvundefine "$index" -C o
    done
}

# Seals a key to PCR 10 and unseals it, with persistent handles. Without the completing layer, the tool that
# loads the key cannot save the key's context. Therefore the object remains loaded and keeps its handle.
sealing() {
    tool createprimary -C o -G aes128cfb -g sha256
    tool evictcontrol -C o -c 0x80000000 0x81000001
    tool flushcontext 0x80000000
    tool readpublic -c 0x81000001
    tool createpolicy --policy-pcr -l sha256:10 -L policy
    tool create -C 0x81000001 -i key -u key.pub -r key.priv -L policy -g sha256 \
        -a 'fixedtpm|fixedparent'
    run load -C 0x81000001 -u key.pub -r key.priv -c context
    tool evictcontrol -C o -c "$(loaded)" 0x81000002
    tool flushcontext -t
    tool unseal -c 0x81000002 -p pcr:sha256:10
    same key
    tool create -C 0x81000001 -G hmac -u hmac.pub -r hmac.priv
    run load -C 0x81000001 -u hmac.pub -r hmac.priv -c context
    tool evictcontrol -C o -c "$(loaded)" 0x81000003
    tool flushcontext -t
    tool hmac -c 0x81000003 --hex event
    tool pcrextend "10:sha256=$one"
    refused 99d unseal -c 0x81000002 -p pcr:sha256:10
}

# Tests the state of a device after a power cycle.
power_cycle() {
    tool shutdown -c
    made/tpmsim-power state || wrong 'the power cycle'
    refused 100 getrandom --hex -f 16
    tool startup -c
    tool nvread 0x1500016 -C o -s 8
    same data
    tool pcrread sha256:10
    said "$zeros"
    tool pcrextend "10:sha256=$one"
    tool unseal -c 0x81000002 -p pcr:sha256:10
    same key
}

ending() {
    tool clear -c p
    refused 18b nvread 0x1500016 -C o -s 8
    tool shutdown
}

# Tests tools that pass contexts to each other, and that need features of the completing layer.
contexts() {
    tool getrandom --hex 16
    for what in algorithms properties-fixed properties-variable handles-loaded-session; do
        tool getcap "$what"
    done
    tool flushcontext -t
    tool createprimary -C o -G aes128cfb -g sha256 -c primary.context
    tool flushcontext -t
    tool startauthsession -S trial.context
    tool policypcr -S trial.context -l sha256:16 -L pcr.policy
    tool flushcontext trial.context
    tool create -C primary.context -i key -u key.pub -r key.priv -L pcr.policy -g sha256 \
        -a 'fixedtpm|fixedparent'
    tool flushcontext -t
    tool load -C primary.context -u key.pub -r key.priv -c key.context
    tool flushcontext -t
    tool startauthsession --policy-session -S session.context
    tool policypcr -S session.context -l sha256:16
    tool unseal -c key.context -p session:session.context
    same key
    tool flushcontext session.context
    tool unseal -c key.context -p pcr:sha256:16
    same key
    tool flushcontext -t
    for number in 1 2 3 4 5 6 7 8 9 10 11 12; do
        tool create -C primary.context -i key -p "word $number" -u key.pub -r key.priv
        tool flushcontext -t
        tool load -C primary.context -u key.pub -r key.priv -c "key$number.context"
        tool flushcontext -t
    done
    for number in 12 11 10 9 8 7 6 5 4 3 2 1; do
        tool unseal -c "key$number.context" -p "word $number"
        same key
        tool flushcontext -t
    done
}

policies() {
    tool startauthsession -S session.context
    tool policyauthvalue -S session.context -L first
    tool policyrestart -S session.context
    tool policycommandcode -S session.context -L second TPM2_CC_Unseal
    tool policyrestart -S session.context
    tool policysecret -S session.context -c o
    tool policyrestart -S session.context
    tool policypassword -S session.context
    tool policyrestart -S session.context
    tool policyor -S session.context sha256:first,second
    tool policyrestart -S session.context
    tool policylocality -S session.context three
    tool flushcontext session.context
    tool startauthsession --hmac-session -S session.context
    tool sessionconfig session.context --enable-encrypt
    tool nvdefine 0x150001b -C o -s 8 -P session:session.context
    tool nvundefine 0x150001b -C o
    tool flushcontext session.context
}

# Serves a device on a socket for the tools.
serve() {
    has socat
    "$top/tpmsim" serve --socket socket --image image --entropy /dev/urandom --locality 0 \
        --connections 4294967295 2>served &
    server=$!
    until [ -S socket ]; do
        kill -0 "$server" || fail "the device is not served: $(cat served)"
        sleep 0.1
    done
    export TPM2TOOLS_TCTI="cmd:socat - UNIX-CONNECT:$folder/socket"
}

# keep WORDS: builds the module, through which the tools then use a new device. WORDS are additional options of
# the module.
keep() {
    [ -e made ] || "$top/hosts/build.sh" tcti made || exit 2
    rm -rf state
    export TPM2TOOLS_TCTI="tpmsim:state=$folder/state$1" LD_LIBRARY_PATH="$folder/made"
}

zeros=$(printf '%064d' 0)
one=$(printf '%064d' 1)
has tpm2
printf 12345678 >data
echo event >event
printf secret >key
for way do
    echo "$way:"
    case $way in
    socket) serve ;;
    module) keep ,device ;;
    complete) keep '' ;;
    *) fail "$way is no way: socket, module and complete are" ;;
    esac
    device
    indices
    sealing
    [ "$way" = socket ] || power_cycle
    [ "$way" != complete ] || contexts
    [ "$way" != complete ] || policies
    ending
done
echo "$tools tools were run, $failed failed"
[ "$failed" -eq 0 ]
