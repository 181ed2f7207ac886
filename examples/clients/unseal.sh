#!/bin/sh
# Shows the exit statuses of tpm2_unseal when its authorization is refused. Its manual says 3 for an authentication
# error.
. "$(dirname "$0")/sweep.sh"
needs tpm2_createprimary tpm2_create tpm2_load tpm2_unseal

# Makes a sealed object, with these words for tpm2_createprimary and tpm2_create.
cat >seal.sh <<'CODE'
printf secret >secret
tpm2_createprimary -Q -C o $1 -c primary && tpm2_flushcontext -t
tpm2_create -Q -C primary -i secret -p pin $2 -u public -r private && tpm2_flushcontext -t
tpm2_load -Q -C primary -u public -r private -c sealed && tpm2_flushcontext -t
CODE

# refused WHAT: unseals with a wrong PIN, and prints the exit status.
refused() {
    tpm2_unseal -Q -c sealed -p wrong >unsealed 2>refused
    echo "$1: status $?, response code $(sed -n 's/.*Esys_Unseal(\(0x[0-9A-F]*\)).*/\1/p' refused)"
    tpm2_flushcontext -t
}

if [ "$tpm" = swtpm ]; then
    begin_swtpm
    {
        sh seal.sh '' '-a fixedtpm|fixedparent|userwithauth|noda'
        refused 'a wrong PIN of an object with noDA'
        sh seal.sh '' '-a fixedtpm|fixedparent|userwithauth'
        tpm2_dictionarylockout -s -n 1 -t 1000 -l 1000
        refused 'a wrong PIN of an object without noDA'
        refused 'in lockout'
    } | tee report
    grep -q 'status 3, response code 0x98E' report && grep -q 'status 1, response code 0x9A2' report &&
        grep -q 'status 1, response code 0x921' report
    exit
fi
needs python3
echo 'sh seal.sh "-G aes128cfb" "" && tpm2_unseal -Q -c sealed -p pin >unsealed' >right.sh
sweep --copy . --only Unseal:G9 -- sh right.sh | tee report

# status NAME: prints the exit status after the refusal with this name.
status() {
    grep -A 1 "Unseal G9 .* $1" report | sed -n 's/^    status \([0-9]*\).*/\1/p'
}
echo "AUTH_FAIL: $(status AUTH_FAIL), BAD_AUTH: $(status BAD_AUTH), LOCKOUT: $(status LOCKOUT)"
[ "$(status AUTH_FAIL)" != "$(status BAD_AUTH)" ] || [ "$(status AUTH_FAIL)" != "$(status LOCKOUT)" ]
