#!/bin/sh
# Tests a device in a folder, with its completing layer, through the module that hosts/build.sh builds. The clients
# of libtss2 are Debian's tpm2-pytss, clevis with an AES parent, and tpm2-abrmd with tpm2-tools on top of it. The
# script reports for each client whether it succeeded. For FAPI, whose profiles all need RSA or ECC keys, it
# reports at which call tss2_provision fails. Not part of the gate. It installs nothing, and leaves no files.
#
#   tools/interop/clients.sh
#
# Needs Debian's tpm2-tools with its tss2_provision, libtss2-fapi1, python3-tpm2-pytss, clevis-tpm2,
# tpm2-abrmd with its libtss2-tcti-tabrmd0, dbus and libtss2-dev. A missing client is reported as skipped.
# TPMSIM_ARCHIVE names another archive of the library.
set -u

top=$(CDPATH='' cd "$(dirname "$0")/../.." && pwd -P) || exit 1
folder=$(mktemp -d) || exit 1
trap 'rm -rf "$folder"' EXIT
cd "$folder" || exit 1
passed=0
failed=0
skipped=0

# check LABEL COMMAND..: runs and counts a command that must succeed.
check() {
    label=$1
    shift
    if timeout 60 "$@" >output 2>error; then
        echo "ok: $label"
        passed=$((passed + 1))
    else
        echo "FAILED: $label: $(tail -n 2 error | tr '\n' ' ')"
        failed=$((failed + 1))
    fi
}

# has CLIENT TOOL: succeeds if a client is installed.
has() {
    command -v "$2" >found && return
    echo "skipped: $1: there is no $2"
    skipped=$((skipped + 1))
    false
}

pytss() {
    cat >pytss.py <<'END'
import hashlib
import hmac
import sys

from tpm2_pytss import ESAPI, ESYS_TR, TPM2_ALG, TPM2_SE, TPM2_SU, TPMT_SYM_DEF

parts = {
    "random": lambda esapi: len(esapi.get_random(16)) == 16,
    "session": lambda esapi: policy(esapi),
    "object": lambda esapi: primary(esapi),
    "sequences": lambda esapi: sequences(esapi),
}


def policy(esapi):
    nothing = TPMT_SYM_DEF(algorithm=TPM2_ALG.NULL)
    none = ESYS_TR.NONE
    session = esapi.start_auth_session(none, none, TPM2_SE.POLICY, nothing, TPM2_ALG.SHA256)
    context = esapi.context_save(session)
    session = esapi.context_load(context)
    esapi.policy_command_code(session, 0x15E)
    digest = esapi.policy_get_digest(session)
    esapi.flush_context(session)
    return len(digest) == 32


def primary(esapi):
    from tpm2_pytss import TPM2B_PUBLIC, TPM2B_SENSITIVE_CREATE, TPMT_PUBLIC

    template = TPM2B_PUBLIC(publicArea=TPMT_PUBLIC.parse(alg="aes128cfb"))
    handle, *_ = esapi.create_primary(TPM2B_SENSITIVE_CREATE(), template)
    context = esapi.context_save(handle)
    esapi.flush_context(handle)
    esapi.flush_context(esapi.context_load(context))
    return True


def sequences(esapi):
    """Hashes, authenticates and measures 3,000 bytes with sequences that passwords authorize."""
    from tpm2_pytss import TPM2B_PUBLIC, TPM2B_SENSITIVE_CREATE, TPMA_OBJECT, TPMS_SENSITIVE_CREATE

    def fed(handle):
        esapi.tr_set_auth(handle, word)
        esapi.sequence_update(handle, data[:1024])
        esapi.sequence_update(handle, data[1024:2048])
        return handle

    data, word = bytes(3000), b"word"
    last, sha256 = data[2048:], TPM2_ALG.SHA256
    hashing = fed(esapi.hash_sequence_start(word, sha256))
    digest, ticket = esapi.sequence_complete(hashing, last, ESYS_TR.OWNER)
    attributes = TPMA_OBJECT.SIGN_ENCRYPT | TPMA_OBJECT.USERWITHAUTH
    template = TPM2B_PUBLIC.parse(alg="hmac:sha256", objectAttributes=attributes)
    secret = TPM2B_SENSITIVE_CREATE(TPMS_SENSITIVE_CREATE(userAuth=word, data=b"key"))
    key, *_ = esapi.create_primary(secret, template)
    esapi.tr_set_auth(key, word)
    mac, _ = esapi.sequence_complete(fed(esapi.hmac_start(key, word, sha256)), last, ESYS_TR.NULL)
    event = fed(esapi.hash_sequence_start(word, TPM2_ALG.NULL))
    banks = esapi.event_sequence_complete(ESYS_TR.PCR16, event, last)
    return (
        bytes(digest) == hashlib.sha256(data).digest()
        and len(ticket.digest) == 32
        and bytes(mac) == hmac.digest(b"key", data, "sha256")
        and [bytes(it) for it in banks] == [hashlib.sha1(data).digest(), hashlib.sha256(data).digest()]
    )


with ESAPI(sys.argv[1]) as esapi:
    esapi.startup(TPM2_SU.CLEAR)
    sys.exit(not parts[sys.argv[2]](esapi))
END
    for part in random session object sequences; do
        check "tpm2-pytss: $part" /usr/bin/python3 pytss.py "$TPM2TOOLS_TCTI" "$part"
    done
}

clevis_by_aes() {
    echo 'a secret' >secret
    # shellcheck disable=SC2016 # the inner sh expands the arguments
    check 'clevis: encrypt' sh -c 'clevis encrypt tpm2 "$1" <secret >sealed' sh \
        '{"hash":"sha256","key":"aes128cfb","pcr_bank":"sha256","pcr_ids":"16"}'
    check 'clevis: decrypt' sh -c 'clevis decrypt <sealed | cmp - secret'
    check 'a PCR is extended' tpm2 pcrextend "16:sha256=$(printf '%064d' 1)"
    check 'clevis: decrypt is refused then' sh -c '! clevis decrypt <sealed'
}

abrmd() {
    cat >abrmd.sh <<'END'
set -eu
allow=
[ "$(id -u)" -ne 0 ] || allow=--allow-root
tpm2-abrmd $allow --session --tcti="$TPM2TOOLS_TCTI" &
trap 'kill $!' EXIT
export TPM2TOOLS_TCTI=tabrmd:bus_type=session
for _ in $(seq 100); do
    tpm2 getrandom --hex 4 >/dev/null 2>&1 && break
    sleep 0.1
done
tpm2 createprimary -C o -G aes128cfb -g sha256 -c primary.context
tpm2 create -C primary.context -i secret -u public -r private -g sha256
tpm2 load -C primary.context -u public -r private -c object.context
tpm2 unseal -c object.context | cmp - secret
tpm2 startauthsession -S session.context
tpm2 policypcr -S session.context -l sha256:10
tpm2 flushcontext session.context
[ "$(tpm2 hash -g sha256 --hex large)" = "$(sha256sum <large | cut -d ' ' -f 1)" ]
END
    echo 'a secret' >secret
    head -c 3000 /dev/zero >large
    check 'tpm2-abrmd: objects, sessions and a hash sequence of seven tools' dbus-run-session -- sh abrmd.sh
}

# fapi: runs tss2_provision and tss2_getinfo with a keystore in this folder, and prints the last fault of each.
fapi() {
    mkdir -p fapi/user fapi/system fapi/log
    cat >fapi/config <<END
{"profile_name": "P_ECCP256SHA256", "profile_dir": "/etc/tpm2-tss/fapi-profiles/",
 "user_dir": "$folder/fapi/user/", "system_dir": "$folder/fapi/system/", "log_dir": "$folder/fapi/log/",
 "tcti": "$TPM2TOOLS_TCTI", "system_pcrs": [], "ek_cert_less": "yes"}
END
    for tool in 'tss2_provision' 'tss2_getinfo --info fapi/info'; do
        # shellcheck disable=SC2086 # word splitting is intended
        if TSS2_FAPICONF=$folder/fapi/config timeout 60 $tool >output 2>error; then
            echo "FAPI: $tool: it goes"
        else
            echo "FAPI: $tool ends: $(sed -n 's/^ERROR.*c:[0-9]*:/ /p' error | head -n 1) $(tail -n 1 error)"
        fi
    done
}

"$top/hosts/build.sh" tcti made || exit 1
export TPM2TOOLS_TCTI="tpmsim:state=$folder/state,rm" LD_LIBRARY_PATH="$folder/made"
check 'tpm2-tools: startup' tpm2 startup -c
if /usr/bin/python3 -c 'import tpm2_pytss' 2>/dev/null; then pytss; else has tpm2-pytss nothing; fi
! has clevis clevis-encrypt-tpm2 || clevis_by_aes
! has tpm2-abrmd tpm2-abrmd || abrmd
! has FAPI tss2_provision || fapi
counts="$passed passed, $failed failed"
[ "$skipped" -eq 0 ] || counts="$counts, $skipped skipped"
echo "$counts"
[ "$failed" -eq 0 ]
