# shellcheck shell=sh
# Encrypts a secret with clevis to PCR 16, and decrypts it. With the word encrypt, only encrypts it.
set -e
clevis encrypt tpm2 '{"hash":"sha256","key":"aes128cfb","pcr_bank":"sha256","pcr_ids":"16"}' <secret >sealed
[ "${1:-}" = encrypt ] || clevis decrypt <sealed
