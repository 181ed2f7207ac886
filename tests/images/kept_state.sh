# Checks what a device keeps in its image from one run of `tpmsim serve` to the next: the value of the largest counter,
# and the PCRs that TPM2_Shutdown saved. Its sessions are lost.
tests=$(cd "$(dirname "$0")/.." && pwd -P)
. "$tests/common/cases.sh"
. "$tests/common/served.sh"

# before LINE..: executes these commands on a new device with a new image, and prints the responses. after
# LINE..: executes these commands on the device in the existing image.
before() {
    rm -f image
    after "$@"
}

after() {
    begin 1
    python3 "$client" socket 4096 "$(for line do words "$line"; done | tr -d '\n')" | sed 's/^/    /'
    ended 'one connection'
}

define='NV_DefineSpace OWNER pw:- - 01000002000b0002001200000008'
increment='NV_Increment OWNER 01000002 pw:-'
extend='pw:- sha1:0000000000000000000000000000000000000000'

echo 'a counter that was removed and defined again goes on from the largest value: 4'
before 'Startup 0' "$define" "$increment" "$increment" "$increment" \
    'NV_UndefineSpace OWNER 01000002 pw:-' "$define" "$increment"
after 'Startup 0' 'NV_Read OWNER 01000002 pw:- 8 0'

echo 'a saved state has PCR 3 and not PCR 16'
before 'Startup 0' "PCR_Extend 00000003 $extend" "PCR_Extend 00000010 $extend" 'Shutdown 1'
after 'Startup 1' 'PCR_Read sha1:3,16'

echo 'a saved state that a command cancelled is not resumed: VALUE/p1 (1C4)'
before 'Startup 0' 'Shutdown 1' "PCR_Extend 00000003 $extend"
after 'Startup 1'

echo 'a policy session is gone, and its handle names none: REFERENCE_H0 (910)'
before 'Startup 0' \
    'StartAuthSession NULL NULL 00000000000000000000000000000000 - 1 null sha256' \
    'PolicyGetDigest 03000000'
after 'Startup 0' 'PolicyGetDigest 03000000'
