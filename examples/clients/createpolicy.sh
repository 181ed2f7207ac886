#!/bin/sh
# Shows that tpm2_createpolicy leaves its trial session loaded when it succeeds, and flushes no session when it is
# refused.
. "$(dirname "$0")/sweep.sh"
needs tpm2_createpolicy

# Creates the policy up to N times with one TPM, until it is refused.
cat >again.sh <<'CODE'
for run in $(seq "$1"); do
    tpm2_createpolicy -Q --policy-pcr -l sha256:16 -L policy || { echo "run $run ends with status $?"; exit 0; }
done
CODE
if [ "$tpm" = swtpm ]; then
    begin_swtpm
    sh again.sh 4 2>refused | tee said
    grep -q 0x903 refused && grep -q 'run 4' said
    exit
fi
needs python3
sweep --only PolicyPCR:G6 -- tpm2_createpolicy --policy-pcr -l sha256:16 -L policy | tee report
echo
echo 'again and again, with one TPM:'
sweep --json --only SelfTest -- sh again.sh 17 | sed -n 's/^  "output": "\(.*\)\\n",$/\1/p'
grep -q 'FINDING: leaves a session loaded: 03000000' report
