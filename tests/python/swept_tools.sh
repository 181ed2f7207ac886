# Checks tpmsim-sweep with tpm2-tools and IBM's TSS: its report, its statuses, its protocols, the outputs in
# clients/python/README.md and docs/REFUSALS.md, and the scripts in examples/clients that need no other client.
tests=$(cd "$(dirname "$0")/.." && pwd -P)
. "$tests/common/cases.sh"
needs python3 tpm2_createpolicy tpm2_getrandom tpm2_unseal swtpm socat tssgetrandom
top=${tests%/*}
TSS2_LOG=all+none
export TSS2_LOG

# sweep WORD..: runs tpmsim-sweep, and prints its status.
sweep() {
    timeout 3600 python3 -m tpmsim.sweep.main --timeout 600 "$@" 2>err
    echo "status $?"
    cat err
}

echo '== one command, and each of its refusals'
sweep --only GetRandom -- tpm2_getrandom 8

echo '== as JSON and as a page'
sweep --json --html page.html --only GetRandom:G5 -- tpm2_getrandom 8 >found
grep -e '"change"' -e '"status": 1' -e '^status' found
grep -c '<tr>' page.html

echo '== by other protocols'
# shellcheck disable=SC2016 # the client's shell expands the variables
for module in 'mssim:port=$TPM_COMMAND_PORT' 'cmd:socat - UNIX-CONNECT:$TPMSIM_SOCKET'; do
    sweep --only GetRandom:G5 -- sh -c "TPM2TOOLS_TCTI=\"$module\" tpm2_getrandom 8"
done
sweep --only GetRandom:G5 -- tssgetrandom -by 8

echo '== the one refusal in README'
sed -n '/^tpmsim-sweep --refuse /p' "$top/clients/python/README.md" >command_line
sed -n '/^tpmsim-sweep: refused /p' "$top/clients/python/README.md" >wanted
# shellcheck disable=SC2046 # the command's words
sweep $(cut -d ' ' -f 2- command_line) | grep -vxFf wanted

echo '== wrong use'
sweep -- false
sweep --unknown -- true

echo '== the output in README'
sed -n '/^tpmsim-sweep -- /p' "$top/clients/python/README.md" >command_line
sed -n '/^unrefused: /,/^```/p' "$top/clients/python/README.md" | grep -v '^```' >wanted
# shellcheck disable=SC2046 # the command's words
sweep --limit 1 $(cut -d ' ' -f 2- command_line) | grep -vxFf wanted

echo '== docs/REFUSALS.md'
awk '/^```/ { shown = $0 == "```sh" && ++blocks <= 3; next } shown' "$top/docs/REFUSALS.md" >commands
awk '/^```/ { shown = $0 == "```text"; next } shown' "$top/docs/REFUSALS.md" >wanted
sed -e 's/^tpmsim-sweep /python3 -m tpmsim.sweep.main /' -e 's/^PYTHONPATH=[^ ]* //' -e "s| examples/| $top/examples/|" commands >block.sh
. ./block.sh >said
diff wanted said && echo 'the outputs are those of the page'

echo '== examples/clients'
for script in createpolicy nvreadpublic unseal; do
    for tpm in tpmsim swtpm; do
        PATH=$(dirname "$(command -v tpm2_unseal)"):$PATH sh "$top/examples/clients/$script.sh" "$tpm" >said 2>&1
        echo "$script $tpm: status $?, $(tail -n 1 said)"
    done
done
