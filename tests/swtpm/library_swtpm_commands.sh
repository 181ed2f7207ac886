# Tests libtpms.so.0 with swtpm/caller.c, which takes the role of swtpm: power, commands, localities, when each
# state is stored, callbacks that fail to store it, and the information on the TPM.
tests=$(cd "$(dirname "$0")/.." && pwd -P)
. "$tests/common/cases.sh"
. "$tests/common/swtpm.sh"
one=0000000000000000000000000000000000000000000000000000000000000001

label 'without power'
play <<END
cmd 80010000000c000001440000
hash start
hash data 61
hash end
established
loc 4
reset
save volatile
get permanent image
get saved image
validate 7
END

label 'a new device'
play <<END
on
wasmanufactured
do PCR_Read sha256:16
do Startup 0
do Startup 0
do PCR_Extend 00000010 pw:- sha256:$one
do PCR_Read sha256:16
cmd
cmd 8001
cmd 80010000000a00000000
off
do PCR_Read sha256:16
on
wasmanufactured
do PCR_Read sha256:16
do Startup 0
do PCR_Read sha256:16
END

label 'what is stored, and when'
play <<END
on
head 80010000000c0000017b0008
do Startup 0
head 80010000000c0000017b0008
do PCR_Extend 00000010 pw:- sha256:$one
do NV_DefineSpace OWNER pw:- 61 01000002000b0004000400000008
do NV_Write 01000002 01000002 pw:61 6f746865722e2e2e 0
do NV_Write 01000002 01000002 pw:61 6f746865722e2e2e 0
do NV_Read 01000002 01000002 pw:61 8 0
do NV_Read 01000002 01000002 pw:62 8 0
do Shutdown 0
off
on
do Startup 0
do NV_Read 01000002 01000002 pw:61 8 0
END

label 'a store that fails: the command is done, and none that follows, until it is stored'
play <<END
on
do Startup 0
do PCR_Extend 00000010 pw:- sha256:$one
store fails
do PCR_Read sha256:16
do NV_Write 01000002 01000002 pw:61 4141414141414141 0
do PCR_Extend 00000010 pw:- sha256:$one
do NV_Write 01000002 01000002 pw:61 4343434343434343 0
do Shutdown 0
store works
do NV_Read 01000002 01000002 pw:61 8 0
do PCR_Read sha256:16
do NV_Write 01000002 01000002 pw:61 4242424242424242 0
store fails
do NV_Write 01000002 01000002 pw:61 4444444444444444 0
off
store works
on
do Startup 0
do NV_Read 01000002 01000002 pw:61 8 0
END

label 'no store for a new device, and no load'
mkdir other && mv permall other
play <<END
store fails
on
do Startup 0
store works
load fails
on
validate 1
get permanent image
load works
on
do Startup 0
END
mv other/permall . && rmdir other

label 'random bytes, which come once'
for run in 1 2; do
    printf 'on\nhead 80010000000c000001440000\ncmd 80010000000c0000017b0008\ncmd 80010000000c0000017b0008\n' |
        "$room/caller" "$room/swtpm/libtpms.so.0"
done >random
grep -c '^80010000001400000000' random
sort -u random | grep -c '^80010000001400000000'

label 'localities'
for locality in 0 1 2 3 4 5 255 none; do
    play <<END
on
do Startup 0
loc $locality
do PCR_Extend 00000014 pw:- sha256:$one
do PCR_Reset 00000014 pw:-
END
done

label 'what is told of the TPM'
play <<END
version 0
version 1
version 2
property 2
property 1
property 99
buffer 0
buffer 1
buffer 8192
info 0
info 1
info 6
info 255
profile -
profile {"Name":"default-v1"}
cancel
blob
END

label 'completing'
for complete in 0 1 yes; do
    TPMSIM_COMPLETE=$complete
    export TPMSIM_COMPLETE
    printf 'on\ndo Startup 0\ncmd 80010000000e0000014600020102\noff\n' | play
done
unset TPMSIM_COMPLETE
