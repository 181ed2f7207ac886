# Opens journals that earlier libraries wrote, in other_versions. In each, TPM2_PCR_Extend changed PCR 10, and the
# context of an object was saved and loaded. The commands of two journals are answered otherwise by now: the
# library refuses these journals, and tpmsim-power --cut replaces them with their heads. After a power cycle by the
# earlier library (the journals with _cycled), no command has to be executed again.
tests=$(cd "$(dirname "$0")/.." && pwd -P)
. "$tests/common/cases.sh"
. "$tests/common/library.sh"
needs tss2/tss2_tcti.h tpm2_startup
. "$tests/common/attached.sh"

TPMSIM_ARCHIVE=$archive "$hosts/build.sh" tcti "$room/made" || exit 1
export LD_LIBRARY_PATH="$room/made" TPM2TOOLS_TCTI="tpmsim:state=state"

# begin NAME: makes a folder with this journal.
begin() {
    echo "$1:"
    rm -rf state
    mkdir state && cp "$callers/other_versions/$1" state/journal
}

# tool WORDS..: runs one of tpm2-tools, and prints its output, or the module's sentence if it fails.
tool() {
    tpm2 "$@" 2>error || grep '^tcti-tpmsim: ' error
}

# power WORDS..: runs tpmsim-power, and prints its sentence and its status.
power() {
    "$room/made/tpmsim-power" state "$@" 2>&1
    echo "tpmsim-power: status $?"
}

for name in image_head platform_context; do
    begin $name
    tool pcrread sha256:10
    power
    cmp state/journal "$callers/other_versions/$name" && echo 'the journal is unchanged'
    power --cut --keep 2
    cmp state/journal.2 "$callers/other_versions/$name" && echo 'the old journal is kept'
    head -c 18 state/journal
    echo
    tool startup -c
    tool getcap handles-persistent
    begin ${name}_cycled
    tool startup -c
    tool getcap handles-persistent
done

begin owner_context
tool pcrread sha256:10
tool getcap handles-persistent
power
head -c 18 state/journal
echo
