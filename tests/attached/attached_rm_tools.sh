# Tests that tools of tpm2-tools flush what they loaded, without a word for it. A long series of commands without
# tpm2_flushcontext does not run out of slots, and leaves nothing loaded. The words `norm` and `device` switch it off,
# and other programs need the word `rm`.
tests=$(cd "$(dirname "$0")/.." && pwd -P)
. "$tests/common/cases.sh"
. "$tests/common/library.sh"
needs tss2/tss2_tcti.h tpm2_startup
. "$tests/common/attached.sh"

TPMSIM_ARCHIVE=$archive "$hosts/build.sh" tcti "$room/made" || exit 1
export LD_LIBRARY_PATH="$room/made" TPM2TOOLS_TCTI="tpmsim:state=$room/state"

# tool WORDS..: runs one of tpm2-tools, and prints its exit status.
tool() {
    tpm2 "$@" >output 2>error
    echo "tpm2 $1: status $?"
}

# left: prints the loaded objects and sessions.
left() {
    for kind in transient loaded-session; do
        tpm2_getcap "handles-$kind" | sed "s/^- .*/left: $kind/"
    done
}

echo secret >secret
tool startup -c
tool createprimary -C o -G aes128cfb -g sha256 -c primary.context
for number in 1 2 3 4 5 6 7 8 9; do
    tool create -C primary.context -i secret -p word -u public -r private
    tool load -C primary.context -u public -r private -c "sealed$number.context"
    tool startauthsession --policy-session -S "session$number.context"
    tool policypcr -S "session$number.context" -l sha256:10
done
tool unseal -c sealed9.context -p word
cmp output secret
left
echo 'a tool that fails:'
tool unseal -c sealed9.context -p other
left
echo 'a saved session goes on:'
tool policypcr -S session1.context -l sha256:10
left
# loaded LABEL WORDS PROGRAM: creates a primary key with a tool that has this name, and prints what stays loaded.
loaded() {
    echo "$1:"
    TPM2TOOLS_TCTI=tpmsim:state=$room/state$2 "$3" -C o -G aes128cfb -g sha256 >output 2>error
    echo "${3##*/}: status $?"
    left
    TPM2TOOLS_TCTI=tpmsim:state=$room/state,norm tpm2 flushcontext -t
}

loaded 'a tool by its own name' '' tpm2_createprimary
loaded 'with norm' ,norm tpm2_createprimary
loaded 'with device' ,device tpm2_createprimary
loaded 'with device and rm' ,device,rm tpm2_createprimary
