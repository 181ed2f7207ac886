# Tests contexts that tpm2-tools save and load through the module for libtss2. Twelve children of one parent are
# loaded, saved and flushed in turn, as a resource manager does, and then used in turn. No ninth object can be
# loaded while eight are loaded. The device refuses the contexts after TPM2_Clear, and after a TPM Reset.
tests=$(cd "$(dirname "$0")/.." && pwd -P)
. "$tests/common/cases.sh"
. "$tests/common/library.sh"
needs tss2/tss2_tcti.h tpm2_startup
. "$tests/common/attached.sh"

TPMSIM_ARCHIVE=$archive "$hosts/build.sh" tcti "$room/made" || exit 1
export LD_LIBRARY_PATH="$room/made" TPM2TOOLS_TCTI="tpmsim:state=$room/state,norm"
children='1 2 3 4 5 6 7 8 9 10 11 12'
back='12 11 10 9 8 7 6 5 4 3 2 1'

# tool WORDS..: runs one of tpm2-tools. If the tool fails, prints its exit status and the TSS function that
# failed.
tool() {
    tpm2 "$@" >output 2>error && return
    echo "tpm2 $1: status $?, $(grep -o 'ContextLoad(0x[0-9A-F]*)\|StartAuthSession(0x[0-9A-F]*)' error | head -1)"
}

# flushed WORDS..: runs one of tpm2-tools, and then flushes all objects.
flushed() {
    tool "$@"
    tpm2_flushcontext -t
}

# start NAME: makes a primary storage key, and saves its context.
start() {
    flushed createprimary -C "$1" -G aes128cfb -g sha256 -c "$1.context"
}

# use_all WORD..: unseals each child from its context, and prints how many returned the right data.
use_all() {
    right=0
    for number do
        flushed unseal -c "child$number.context" -p "word $number"
        cmp -s output "secret$number" && right=$((right + 1))
    done
    echo "$right children are unsealed"
}

tool startup -c
start o
for number in $children; do
    printf 'the secret of child %s' "$number" >"secret$number"
    flushed create -C o.context -i "secret$number" -p "word $number" -u public -r private
    flushed load -C o.context -u public -r private -c "child$number.context"
done
# shellcheck disable=SC2086 # word splitting is intended
{
    use_all $children
    use_all $back
}
echo 'eight at a time:'
for number in 1 2 3 4 5 6 7 8; do
    tool readpublic -c "child$number.context"
done
tpm2_getcap handles-transient | wc -l
tool readpublic -c child9.context
tpm2_flushcontext -t
flushed readpublic -c child9.context

echo 'sixteen saved sessions:'
for number in $children 13 14 15 16 17; do
    tool startauthsession -S "session$number.context"
done
tool flushcontext session1.context
tool startauthsession -S session17.context
tool flushcontext -s

echo 'after TPM2_Clear:'
tool clear -c p
tool readpublic -c child1.context
start o
flushed readpublic -c o.context
echo 'after a TPM Reset:'
tool shutdown -c
"$room/made/tpmsim-power" "$room/state"
tool startup -c
tool readpublic -c o.context
