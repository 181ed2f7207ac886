#!/bin/sh
# Shows that tpm2_nvreadpublic dies when the TPM refuses TPM2_NV_ReadPublic: for an index that does not exist, or that
# is deleted while the tool reads it.
. "$(dirname "$0")/sweep.sh"
needs tpm2_nvreadpublic tpm2_nvdefine

if [ "$tpm" = swtpm ]; then
    begin_swtpm
    sh -c 'tpm2_nvreadpublic 0x01000001; echo "an index that does not exist: status $?"' | tee report
    grep -q 'status 139' report
    exit
fi
needs python3
echo 'tpm2_nvdefine -Q 0x01000001 -C o -s 8 && tpm2_nvreadpublic 0x01000001' >read.sh
sweep --only NV_ReadPublic:G6 -- sh read.sh | tee report
grep -q 'FINDING: dies' report
