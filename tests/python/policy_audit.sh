# Tests tools/audit.py with policies in the form in which a reviewer writes them. Their digests are compared
# with published digests, and with digests that Python's hashlib computes from the bytes below. Then the audit
# judges logs: the log of tests/policies/written_policies.tpm, with its whole report, the log of
# tests/sessions/lost_grounds.tpm, and the log of a device that is not new. In other cases, because of one
# deliberate mistake in a Python model or a broken hash function, a use is accepted although it does not satisfy
# its policy. The last cases are files that are not valid policies. shellcheck disable=SC2154 # `eval` sets the
# hashes
tests=$(cd "$(dirname "$0")/.." && pwd -P)
. "$tests/common/cases.sh"
needs python3
scripts=$tests/python
audit=$tests/../tools/audit.py
: >empty

zeros=0000000000000000000000000000000000000000000000000000000000000000
zeros_1=0000000000000000000000000000000000000000
value=8fcd2169ab92694e0c633f1ab772842b8241bbc20288981fc7ac1eddc1fddb0e
endorsement=837197674484b3f81a90cc8d46a5d724fd52d76e06520b64f2a1da1b331469aa
index=000b000102030405060708090a0b0c0d0e0f101112131415161718191a1b1c1d1e1f
comparisons='eq neq sgt ugt slt ult sge uge sle ule bs bc'

# Computes digests, using only Python's hashlib. Each input line contains a name, a hash algorithm, and the
# parts of the text to hash: each is hex, or the name of an earlier digest.
comparison_hashes() {
    number=0
    before=$zeros_1
    for word in $comparisons; do
        echo "arguments_$word sha1 ffff $(printf '%04x' $number)"
        echo "after_$word sha1 $before 00000149 arguments_$word $index"
        before=after_$word
        number=$((number + 1))
    done
}
hashes=$(
    { comparison_hashes && cat <<END; } | python3 -c 'import hashlib, sys
found = {}
for line in sys.stdin:
    name, algorithm, *words = line.split()
    text = bytes.fromhex("".join(found.get(it, it) for it in words))
    found[name] = hashlib.new(algorithm, text).hexdigest()
    print(f"{name}={found[name]}")'
unseal sha1 $zeros_1 0000016c 0000015e
not_served sha256 $zeros 0000016c 0000015d
write sha256 $zeros 0000016c 00000137
locality_0 sha1 $zeros_1 0000016f 01
localities sha256 $zeros 0000016f 19
of_cp_hash sha256 $zeros 0000016e $value
not_written sha256 $zeros 0000018f 00
written sha256 $zeros 0000018f 01
before_reference sha256 $zeros 00000151 00000010
of_pcr sha256 before_reference 6469736b
before_none sha1 $zeros_1 00000151 $index
of_name sha1 before_none
two_pcrs sha256 $zeros $zeros
of_pcrs sha256 $zeros 0000017f 00000001000b03800800 two_pcrs
both sha256 of_pcrs 0000016b
two_banks sha1 $zeros_1 0000017f 00000002 000403010080 000b03800000 $zeros_1
three_values sha1 $zeros_1 $zeros $zeros
of_values sha1 $zeros_1 0000017f 00000002 000403800000 000b03001800 three_values
no_bank sha256 $zeros 0000017f 00000000 $value
arguments sha256 0000000000000005 0000 0007
compared sha256 $zeros 00000149 arguments $index
either sha256 $zeros 00000171 both $endorsement
more sha256 either 0000018f 01
within sha256 $zeros 00000171 either $zeros $value
eight sha256 $zeros 00000171 $value $value $value $value $value $value $value $value
secure_boot sha256 73656375726520626f6f74206f6e
pcr_7 sha256 $zeros secure_boot
kernel sha256 6b65726e656c20362e31
pcr_11 sha256 $zeros kernel
system sha256 pcr_7 pcr_11
version sha256 01000001 000b 20060002 0000 0008
zero sha256 $zeros
data sha256 01000011 000b 20020002 0000 0008
END
)
eval "$hashes"

# digest LABEL ALGORITHM WANTED: adds the policy on standard input, and its expected digest.
mkdir digests
: >wanted
digest() {
    file=digests/$(wc -l <wanted)
    cat >"$file"
    printf '%s\t%s\t%s\t%s\n' "$file" "$1" "$2" "$3" >>wanted
}

# Policies that many programs use, and the authPolicy PolicyA_SHA256 of the TCG EK Credential Profile.
echo PolicyAuthValue | digest 'PolicyAuthValue' sha256 "$value"
echo PolicyPassword | digest 'PolicyPassword' sha256 "$value"
echo 'PolicySecret ENDORSEMENT -' | digest 'PolicySecret' sha256 "$endorsement"
echo nothing | digest 'nothing' sha256 "$zeros"
echo nothing | digest 'nothing' sha1 "$zeros_1"
echo 'PolicyCommandCode Unseal' | digest 'a command' sha1 "$unseal"
echo 'PolicyCommandCode 0x15d' | digest 'one that is not served' sha256 "$not_served"
echo 'PolicyLocality 0' | digest 'locality 0' sha1 "$locality_0"
echo 'PolicyLocality 0,3,4' | digest 'three localities' sha256 "$localities"
echo "PolicyCpHash $value" | digest 'a cpHash' sha256 "$of_cp_hash"
echo 'PolicyNvWritten 0' | digest 'not written' sha256 "$not_written"
echo 'PolicyNvWritten 1' | digest 'written' sha256 "$written"
echo 'PolicySecret 00000010 6469736b' | digest 'a PCR, and a policyRef' sha256 "$of_pcr"
echo "PolicySecret $index -" | digest 'a Name' sha1 "$of_name"

# `two_pcrs` is the digest of 64 zero bytes. The other values are digests of the empty text.
printf 'PolicyPCR sha256:7,11 %s\nPolicyAuthValue\n' "$two_pcrs" |
    digest 'PCRs and the value' sha256 "$both"
printf 'PolicyPCR sha256:7=%s,11=%s\nPolicyAuthValue\n' $zeros $zeros |
    digest 'the values of PCRs' sha256 "$both"
echo "PolicyPCR sha1:7=$zeros_1+sha256:11,12=$zeros" | sed "s/,12/=$zeros,12/" |
    digest 'values of PCRs in two banks' sha1 "$of_values"
echo "PolicyPCR sha1:0,23+sha256:7 $zeros_1" | digest 'PCRs of two banks' sha1 "$two_banks"
echo "PolicyPCR - $value" | digest 'PCRs of none' sha256 "$no_bank"
echo "PolicyNV $index 0000000000000005 0 uge" | digest 'an index' sha256 "$compared"
for word in $comparisons; do
    echo "PolicyNV $index - 65535 $word"
done | digest 'each comparison' sha1 "$after_bc"
cat >two_ways <<END
# The PCRs and the value, or
# the endorsement hierarchy.

either
    PolicyPCR sha256:7,11 $two_pcrs
    PolicyAuthValue
        # A comment may be anywhere.
or
    PolicySecret ENDORSEMENT -
END
digest 'either of two' sha256 "$either" <two_ways
{ cat two_ways && echo PolicyNvWritten 1; } | digest 'either, and an assertion' sha256 "$more"
{
    echo either
    sed 's/^./    &/' two_ways
    printf 'or\n    nothing\nor\n    PolicyAuthValue\n'
} | digest 'either within either' sha256 "$within"
{ echo either && yes '    PolicyAuthValue
or' | head -n 15; } | digest 'eight branches' sha256 "$eight"

echo 'DIGESTS:'
set --
for file in digests/*; do
    set -- "$@" --policy "$file"
done
python3 "$audit" --digest "$@" |
    awk '/^Policy/ { name = $2 } /^  its digest/ { print name " " $4 $5 }' >given
while IFS="$(printf '\t')" read -r file label algorithm digest; do
    found=$(sed -n "s|^$file $algorithm:||p" given)
    agrees="and is to be $digest"
    [ "$found" != "$digest" ] || agrees='as it is to be'
    echo "$label, $algorithm: $found, $agrees"
done <wanted

# The policies of tests/policies/written_policies.tpm. PCR 7 and PCR 11 were each extended by one event. The
# NV index has 8 bytes, and the attributes OWNERWRITE, OWNERREAD, AUTHREAD and WRITTEN.
mkdir -p policies/written_policies policies/lost_grounds
cat >policies/written_policies/disk <<END
# The key of a disk.
either
    # The system that was enrolled, and the PIN.
    PolicyPCR sha256:7,11 $system
    PolicyAuthValue
or
    # The recovery secret, for "disk".
    PolicySecret ENDORSEMENT 6469736b
PolicyCommandCode Unseal
END
cat >policies/written_policies/update <<END
either
    either
        PolicyLocality 0
    or
        PolicyLocality 3,4
    PolicyNV 000b$version 0000000000000005 0 uge
or
    PolicySecret 000b$version -
END
echo "PolicyNV 000b$version 0000000000000005 0 uge" >policies/written_policies/version
echo 'PolicyCpHash 1111111111111111111111111111111111111111111111111111111111111111' \
    >policies/written_policies/hash
echo 'PolicyNvWritten 0' >policies/written_policies/once
echo 'PolicyCommandCode Unseal' >policies/written_policies/unseal

# trace NAME: writes the program's output for a script to a file.
trace() {
    # shellcheck disable=SC2094 # the script and the output are different files
    "$program" run --trace "$(script "$1")" >"$1" 2>/dev/null
}

# audit_by NAME POLICY..: prints the audit's report of a script's log with these policies, and the status.
audit_by() {
    name=$1
    shift
    status=0
    for policy do
        shift
        set -- "$@" --policy "policies/$name/$policy"
    done
    python3 "$audit" "$(script "$name")" "$name" "$@" >report 2>error || status=$?
    sed -n '/^Policy policies/,/^Commands accepted/p' report | sed '/^Commands accepted/d'
    cat error
    echo "status $status"
}

trace written_policies
echo 'A LOG WITH ITS POLICIES:'
audit_by written_policies disk update version hash once unseal

# Checks that docs/EXPLAIN.md shows the policy `disk`.
page=$tests/../docs/EXPLAIN.md
echo 'WHAT docs/EXPLAIN.md SHOWS:'
sed -n '/^# The key of a disk/,/^```/p' "$page" | sed '$d' >shown
cmp shown policies/written_policies/disk && echo 'the same policy'
echo 'A POLICY THAT NOTHING HAS, by one digit:'
sed 's/6469736b/6469736c/' policies/written_policies/disk >policies/written_policies/other
audit_by written_policies other
rm policies/written_policies/other

echo 'A POLICY WITH THE VALUES OF PCRs: what is told of its uses is the same.'
value_of() {
    python3 "$audit" "$(script written_policies)" written_policies --policy policies/written_policies/disk |
        sed -n "s/^ *policy line 4.*[:,]$1=\([0-9a-f]*\).*/\1/p" | sed -n 1p
}
sed "s/PolicyPCR.*/PolicyPCR sha256:7=$(value_of 7),11=$(value_of 11)/" policies/written_policies/disk \
    >policies/written_policies/values
audit_by written_policies disk >by_digest
audit_by written_policies values >by_values
sed -i 's|policies/written_policies/[a-z]*|FILE|; s/PolicyPCR sha256:.*/PolicyPCR/; /by sha1/d
    s/have that digest/have these values/' by_digest by_values
cmp by_digest by_values && echo 'the same'
rm policies/written_policies/values

# The policies of tests/sessions/lost_grounds.tpm. In the first policy, PCR 16 is zero. The NV index has 8
# bytes, and the owner defined it.
trace lost_grounds
cd policies/lost_grounds || exit 1
echo nothing >nothing
echo "PolicyPCR sha256:16 $zero" >pcr
printf 'either\n    PolicyPCR sha256:16 %s\nor\n    PolicyCommandCode Unseal\n' "$zero" >either
for command in Unseal NV_Read NV_ChangeAuth; do
    echo "PolicyCommandCode $command" >$command
done
echo 'PolicySecret OWNER -' >owner
echo 'PolicyNvWritten 0' >not_written
echo 'PolicyLocality 1' >locality
echo PolicyAuthValue >value
echo "PolicyNV 000b$data 382062797465732e 0 eq" >data
cat >four <<END
PolicyPCR sha256:16 $zero
PolicyLocality 0,1
PolicySecret OWNER 6469736b
PolicyNV 000b$data 382062797465732e 0 eq
END
cd ../.. || exit 1
echo 'ANOTHER LOG, with how many uses meet each policy:'
audit_by lost_grounds nothing pcr either Unseal NV_Read NV_ChangeAuth owner not_written locality \
    value data four >told
awk '/^Policy/ { name = $2 } /meets it$/ { met[name]++ } /not meet/ { print }
    END { for (name in met) print name ": " met[name] }' told | sort
sed -n '/^Each entity/,$p' told

# A policy of tests/sessions/grounds.tpm, where an object has an empty authorization value. The audit can
# therefore prove nothing about the object's use.
trace grounds
mkdir policies/grounds
echo PolicyAuthValue >policies/grounds/value
echo 'AN EMPTY VALUE:'
audit_by grounds value | grep 'empty'
rm -r policies/grounds

# A device that already has an NV index with a policy. The index is used after TPM2_Startup.
cat >before.tpm <<END
do Startup 0
do NV_DefineSpace OWNER pw:- - 01000001000b000800080020${write}0008
END
cat >after.tpm <<END
do Startup 0
do StartAuthSession NULL NULL 00000000000000000000000000000000 - 1 null sha256
do PolicyCommandCode 03000000 0x137
do NV_Write 01000001 01000001 s:03000000:00000000000000000000000000000000:01:- 0000000000000001 0
END
{ cat before.tpm && echo power && cat after.tpm; } >both.tpm
"$program" run --trace both.tpm | tail -n 8 >after
python3 "$tests/images/images.py" before.tpm image
echo 'PolicyCommandCode NV_Write' >policy
echo 'FROM AN IMAGE:'
python3 "$audit" after.tpm after --policy policy --image image | sed -n '/^Policy policy/,/^Each/p'

echo 'WRONG DEVICES: what is found of each, and what by policies alone.'
python3 "$scripts/wrong_policies.py" policies
echo 'WEAK HASHES: what is told of each.'
mkdir weak
python3 "$scripts/weak_hashes.py" weak

# judge LABEL WORDS..: adds a test case or, without WORDS, a heading. One process runs all test cases at the end.
judge() {
    tab=
    for word do
        printf '%s%s' "$tab" "$word"
        tab=$(printf '\t')
    done >>cases
    echo >>cases
}

judge 'WRONG WORDS, and logs that do not agree:'
disk=policies/written_policies/disk
script=$(script written_policies)
judge 'an option without its word' empty empty --policy
judge 'an option in its place' empty empty --policy --image image
judge 'standard input' empty empty --policy -
judge 'two images' empty empty --image image --image image
judge 'no such policy' empty empty --policy missing
judge 'a policy that no entity has' empty empty --policy $disk
head -n 20 written_policies >half
judge 'a log that is cut' "$script" half --policy $disk
judge 'the same policy twice' "$script" written_policies --policy $disk --policy $disk

# fault LABEL LINES: adds a test case with a file of these lines, which is not a valid policy.
faults=0
fault() {
    faults=$((faults + 1))
    printf '%b' "$2" >"file$faults"
    judge "$1" empty empty --policy "file$faults"
}

judge 'FILES THAT ARE NO POLICY:'
fault 'an empty file' ''
fault 'comments alone' '# nothing\n\n    # nothing\n'
fault 'an assertion that is not served' 'PolicyAuthValue\nPolicySigned 00\n'
fault 'another case' 'policyauthvalue\n'
fault 'two spaces' 'PolicySecret  OWNER -\n'
fault 'a space at the end' 'PolicyAuthValue \n'
fault 'a line of spaces' 'PolicyAuthValue\n    \n'
fault 'a tab' '\tPolicyAuthValue\n'
fault 'a carriage return' 'PolicyAuthValue\r\n'
fault 'three spaces' 'either\n   PolicyAuthValue\nor\n    nothing\n'
fault 'two steps' 'either\n        PolicyAuthValue\nor\n    nothing\n'
fault 'a step too many behind an assertion' 'PolicyAuthValue\n    PolicyAuthValue\n'
fault 'a step in the first line' '    PolicyAuthValue\n'
fault 'a step behind nothing' 'nothing\n    PolicyAuthValue\n'
fault 'no branch' 'either\n'
fault 'no branch, and an or' 'either\nor\n    nothing\n'
fault 'one branch' 'either\n    PolicyAuthValue\nPolicyAuthValue\n'
fault 'an or without its branch' 'either\n    nothing\n# The other:\nor\n'
fault 'an or of nothing' 'PolicyAuthValue\nor\n    nothing\n'
fault 'an or first' 'or\n    nothing\nor\n    nothing\n'
fault 'an or too late' 'either\n    nothing\nor\n    nothing\nPolicyPassword\nor\n    nothing\n'
fault 'an either too late' 'PolicyAuthValue\neither\n    nothing\nor\n    nothing\n'
two='or\n    nothing\nor\n    nothing\n'
fault 'nine branches' "either\n    nothing\n$two$two$two$two"
fault 'nothing, and more' 'nothing\nPolicyAuthValue\n'
fault 'more, and nothing' 'PolicyAuthValue\nnothing\n'
fault 'words behind either' 'either PolicyAuthValue\nor\n    nothing\n'
deep=$(awk 'BEGIN { for (n = 0; n < 17; n++) printf "%*seither\\n", 4 * n, "" }')
fault 'branches too deep' "$deep"
fault 'a word too many' 'PolicyAuthValue 1\n'
fault 'a word too few' 'PolicyPCR sha256:7\n'
fault 'the words of a do line' 'PolicyPCR 03000000 - sha256:7\n'
fault 'no bank' "PolicyPCR 7,11 $value\n"
fault 'another bank' "PolicyPCR sha384:7 $value\n"
fault 'PCR 24' "PolicyPCR sha256:24 $value\n"
fault 'PCRs in another order' "PolicyPCR sha256:11,7 $value\n"
fault 'a PCR twice' "PolicyPCR sha256:7,7 $value\n"
fault 'a zero in front' "PolicyPCR sha256:07 $value\n"
fault 'a digest in capitals' "PolicyCpHash 8FCD$(echo $value | cut -c 5-)\n"
fault 'a digest of 31 bytes' "PolicyPCR sha256:7 $(echo $value | cut -c 3-)\n"
fault 'no digest' 'PolicyPCR sha256:7 -\n'
fault 'digests of two sizes' "PolicyPCR sha256:7 $value\n\nPolicyPCR sha256:7 $zeros_1\n"
fault 'a cpHash of another size' "PolicyPCR sha256:7 $zeros_1\nPolicyCpHash $value\n"
fault 'no such command' 'PolicyCommandCode TPM2_Unseal\n'
fault 'a command by its number' 'PolicyCommandCode 0x15e\n'
fault 'a number with zeros in front' 'PolicyCommandCode 0x0000015d\n'
fault 'a number of 33 bits' 'PolicyCommandCode 0x100000000\n'
fault 'locality 5' 'PolicyLocality 5\n'
fault 'localities in another order' 'PolicyLocality 1,0\n'
fault 'localities in bits' 'PolicyLocality 0x1\n'
fault 'no locality' 'PolicyLocality -\n'
fault 'neither 0 nor 1' 'PolicyNvWritten 2\n'
fault 'TPM_RH_NULL' 'PolicySecret NULL -\n'
fault 'a hierarchy by its handle' 'PolicySecret 40000001 -\n'
fault 'a session' 'PolicySecret 03000000 -\n'
fault 'a Name that is too short' 'PolicySecret 000b0001 -\n'
fault 'a Name of another hash' "PolicySecret 000c$value -\n"
fault 'a policyRef of 33 bytes' "PolicySecret OWNER ${value}00\n"
fault 'no policyRef' 'PolicySecret OWNER\n'
fault 'the owner for an index' 'PolicyNV OWNER 00 0 eq\n'
fault 'an operand of 33 bytes' "PolicyNV $index ${value}00 0 eq\n"
fault 'an odd operand' "PolicyNV $index 0 0 eq\n"
fault 'an offset of 17 bits' "PolicyNV $index 00 65536 eq\n"
fault 'an offset in hex' "PolicyNV $index 00 0x1 eq\n"
fault 'a comparison by its number' "PolicyNV $index 00 0 7\n"
fault 'a value of another size' "PolicyPCR sha256:7=$zeros_1\n"
fault 'a PCR without its value' "PolicyPCR sha256:7=$value,11\n"
fault 'values in another order' "PolicyPCR sha256:11=$value,7=$zeros\n"
fault 'a digest behind values' "PolicyPCR sha256:7=$value $value\n"
python3 "$scripts/cases.py" <cases
