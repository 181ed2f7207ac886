# shellcheck shell=sh
# Unseals by a policy session, which each tool loads and saves again.
set -e
tpm2_startauthsession -S session --policy-session
tpm2_policypcr -Q -S session -l sha256:16
tpm2_unseal -c 0x81000003 -p session:session
tpm2_flushcontext session
tpm2_startauthsession -S trial
tpm2_policyauthvalue -Q -S trial
tpm2_policycommandcode -Q -S trial TPM2_CC_Unseal
tpm2_policysecret -Q -S trial -c o
tpm2_policynv -Q -S trial -C o -i data 0x01000001 neq
tpm2_policylocality -Q -S trial zero
tpm2_flushcontext trial
