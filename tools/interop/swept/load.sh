# shellcheck shell=sh
# Creates a sealed object, loads it and unseals it, with a context of its own for each tool.
set -e
tpm2_create -Q -C 0x81000001 -i secret -p PIN -u public -r private
tpm2_load -Q -C 0x81000001 -u public -r private -c object
tpm2_flushcontext -t
tpm2_unseal -c object -p PIN
