#!/bin/busybox sh
# shellcheck shell=dash
# The first process of a guest of tools/interop/guest.sh. That script reads the output lines that begin with
# RESULT. The value of `guest=` on the kernel's command line says what to do:
#
#   pcrs   prints the PCRs that firmware and kernel left
#   move   extends PCR 20 from locality 2, waits while its machine moves to another QEMU, extends PCR 20 again,
#          and extends PCR 15 from locality 0
#   work   prints the PCRs too. Then it makes an NV index and a sealed object, and reboots. If these two
#          already exist, it opens them. With `sleep` it sleeps in between (S3). This script then holds
#          /dev/tpmrm0 open, with an object, and uses the object after it has slept
/bin/busybox mkdir -p /proc /sys /dev /tmp /bin /sbin
/bin/busybox --install -s /bin
mount -t proc proc /proc
mount -t sysfs sys /sys
mount -t devtmpfs dev /dev
mount -t securityfs security /sys/kernel/security
export PATH=/bin:/usr/bin LD_LIBRARY_PATH=/lib HOME=/tmp TPM2TOOLS_TCTI=device:/dev/tpm0
cd /tmp || exit 1
what=$(sed -n 's/.*guest=\([a-z]*\).*/\1/p' /proc/cmdline)

result() {
    echo "RESULT $*" >/dev/ttyS0
}

# tool LABEL WORDS..: runs one of tpm2-tools, and reports whether it succeeded.
tool() {
    label=$1
    shift
    if timeout 300 tpm2 "$@" >output 2>error </dev/null; then
        result ok "$label"
    else
        result FAILED "$label: $(tail -n 1 error)"
    fi
}

# same LABEL TEXT: reports whether the output of the last tool is this text.
same() {
    if [ "$(cat output)" = "$2" ]; then
        result ok "$1"
    else
        result FAILED "$1: $(head -c 80 output)"
    fi
}

# ask HEX: sends a command to the resource manager through descriptor 3, and sets `answer` to the response.
ask() {
    # shellcheck disable=SC2059 # the format is the command
    printf "$(echo "$1" | sed 's/../\\x&/g')" 2>error >&3
    answer=$(dd bs=4096 count=1 <&3 2>>error | od -An -v -tx1 | tr -d ' \n')
}

# hold: opens the resource manager, and makes a storage key with TPM2_CreatePrimary. Sets `public` to the
# response of TPM2_ReadPublic.
hold() {
    exec 3<>/dev/tpmrm0
    ask 80020000003b00000131400000010000000940000009000001000000040000000000120025000b00030472000000060080004300\
00000000000000
    reading=80010000000e00000173$(echo "$answer" | cut -c 21-28)
    ask "$reading"
    public=$answer
}

# is_held LABEL: reports whether the object that `hold` made can still be read.
is_held() {
    ask "$reading"
    case $answer in
    ????????????00000000*) [ "$answer" != "$public" ] || { result ok "$1" && return; } ;;
    esac
    result FAILED "$1: $answer $(head -n 1 error)"
}

off() {
    sync
    poweroff -f
}

# at_locality_2 HEX: sends a command through the registers of tpm-tis, and prints the response code. Afterwards
# tpm-tis remains at locality 2.
at_locality_2() {
    base=0xFED42
    devmem ${base}000 8 2
    devmem ${base}018 32 0x40
    for byte in $(echo "$1" | sed 's/../& /g'); do devmem ${base}024 8 "0x$byte"; done
    devmem ${base}018 32 0x20
    until [ $(($(devmem ${base}018 8) & 0x90)) -eq $((0x90)) ]; do sleep 0.1; done
    code=
    for place in 0 1 2 3 4 5 6 7 8 9; do
        byte=$(devmem ${base}024 8)
        [ "$place" -lt 6 ] || code=$code${byte#0x}
    done
    devmem ${base}018 32 0x40
    result MOVE "locality 2 $code $(devmem ${base}000 8)"
}

move() {
    digest=0000000000000000000000000000000000000000000000000000000000000007
    extend=80020000004100000182000000140000000940000009000001000000000001000b$digest
    at_locality_2 "$extend"
    result READY
    sleep 20
    at_locality_2 "$extend"
    devmem 0xFED42000 8 0x20
    tpm2 pcrextend "15:sha256=$digest"
    result MOVE "20 $(cat /sys/class/tpm/tpm0/pcr-sha256/20 2>&1)"
    result MOVE "15 $(cat /sys/class/tpm/tpm0/pcr-sha256/15 2>&1)"
    result MOVED
}

result 'VERSION' "$(cat /sys/class/tpm/tpm0/tpm_version_major 2>&1)"
for bank in sha1 sha256; do
    for pcr in 0 1 2 3 4 5 6 7 8 9 10 15 16 17 23; do
        result PCR "$bank:$pcr" "$(cat "/sys/class/tpm/tpm0/pcr-$bank/$pcr" 2>&1)"
    done
done
log=/sys/kernel/security/tpm0/binary_bios_measurements
result LOG "$([ -s "$log" ] && echo 'is there' || echo 'is not there')"
if [ "$what" = move ]; then
    move
    sleep 30
fi
[ "$what" = work ] || off

digest=0000000000000000000000000000000000000000000000000000000000000007
if tpm2 nvreadpublic 0x1500016 >output 2>&1; then
    tool 'the NV index is read again' nvread 0x1500016 -C o -s 8
    same 'it has its data' indexed1
    tool 'the PCR is extended again' pcrextend "15:sha256=$digest"
    tool 'what is sealed is opened again' unseal -c 0x81000002 -p pcr:sha256:15
    same 'it is what was sealed' disk-key
    off
fi
printf indexed1 >data
printf disk-key >key
tool 'an NV index is defined' nvdefine 0x1500016 -C o -s 8 -a 'ownerread|ownerwrite'
tool 'it is written' nvwrite 0x1500016 -C o -i data
tool 'a PCR is extended' pcrextend "15:sha256=$digest"
tool 'a parent is made' createprimary -C o -G aes128cfb -g sha256 -c parent
tool 'and kept' evictcontrol -C o -c parent 0x81000001
tool 'a policy of the PCR' createpolicy --policy-pcr -l sha256:15 -L policy
tool 'data are sealed to it' create -C 0x81000001 -i key -u public -r private -L policy -g sha256 \
    -a 'fixedtpm|fixedparent'
tool 'they are loaded' load -C 0x81000001 -u public -r private -c sealed
tool 'and kept' evictcontrol -C o -c sealed 0x81000002
tool 'they are opened' unseal -c 0x81000002 -p pcr:sha256:15
same 'they are what was sealed' disk-key
TPM2TOOLS_TCTI=device:/dev/tpmrm0
tool 'they are opened by the resource manager' unseal -c 0x81000002 -p pcr:sha256:15
same 'they are what was sealed' disk-key
head -c 20000 /dev/urandom >large
tool 'a large file is hashed by the resource manager' hash -C n -g sha256 --hex large
same 'its digest is right' "$(sha256sum large | cut -d ' ' -f 1)"
TPM2TOOLS_TCTI=device:/dev/tpm0

if grep -q sleep /proc/cmdline; then
    hold
    echo +3 >/sys/class/rtc/rtc0/wakealarm
    echo deep >/sys/power/mem_sleep
    if echo mem >/sys/power/state; then result ok 'it slept'; else result FAILED 'it slept'; fi
    tool 'what is sealed is opened after that, by the PCR that was extended' \
        unseal -c 0x81000002 -p pcr:sha256:15
    same 'it is what was sealed' disk-key
    tool 'the object of a context from before is used' unseal -c sealed -p pcr:sha256:15
    same 'it is what was sealed' disk-key
    is_held 'a process that held the resource manager still has its object'
fi
sync
reboot -f
