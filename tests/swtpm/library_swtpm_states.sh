# Tests the states of libtpms.so.0 with swtpm/caller.c, which takes the role of swtpm: a device that continues
# in another process, and the content of its volatile state. Also tests states of other devices and libraries,
# states with a changed byte, states that are cut off, and states that are set at the wrong time.
tests=$(cd "$(dirname "$0")/.." && pwd -P)
. "$tests/common/cases.sh"
. "$tests/common/swtpm.sh"
one=0000000000000000000000000000000000000000000000000000000000000001

label 'a device that is left as it runs'
play <<END
on
do Startup 0
do NV_DefineSpace OWNER pw:- 61 01000002000b0004000400000008
do NV_Write 01000002 01000002 pw:61 6f746865722e2e2e 0
loc 3
do PCR_Extend 00000014 pw:- sha256:$one
loc 0
do PCR_Extend 00000010 pw:- sha256:$one
head 80010000002b0000017640000007400000070010654e2c87d7820cbeb1b5b550f43166540000010010000b
save volatile
get permanent image
get saved nothing
END
cp permall permanent

label 'it goes on in another process, by the states that swtpm keeps'
cp volatile volatilestate
play <<END
on
do PCR_Read sha256:16,20
do PolicyPCR 03000000 - sha256:16
do PolicyGetDigest 03000000
do NV_Read 01000002 01000002 pw:61 8 0
do Startup 0
END
rm volatilestate permall

label 'by states that are set'
play <<END
set permanent permanent
set volatile volatile
on
do PCR_Read sha256:16,20
do PolicyGetDigest 03000000
save later
set volatile volatile
off
set permanent permanent
set volatile later
on
do PolicyGetDigest 03000000
off
on
do PolicyGetDigest 03000000
END

label 'the state text in it, and what follows it'
python3 "$tests/swtpm/volatile_states.py" read volatile
python3 "$tests/swtpm/volatile_states.py" time volatile

label 'another permanent state'
mkdir other
(cd other && play <<END
on
do Startup 0
END
)
cp permall before
play <<END
set permanent other/permall
set volatile volatile
on
do Startup 0
on
END
cmp permall before && echo 'what was kept is as it was'
play <<END
on
do Startup 0
do NV_Write 01000002 01000002 pw:61 4141414141414141 0
END
cp permall before
cp volatile volatilestate
printf 'on\nvalidate 7\n' | play
cmp permall before && echo 'what was kept is as it was'
rm volatilestate

label 'each byte of a state'
play <<END
turn permanent permanent
cut permanent permanent
turn volatile volatile
cut volatile volatile
validate 7
END
cmp permall before && echo 'what was kept is as it was'

label 'damage in what swtpm keeps'
head -c 100 before >permall
printf 'on\nvalidate 1\nvalidate 2\n' | play
: >permall
printf 'on\n' | play
cp before permall
head -c 1000 volatile >volatilestate
printf 'on\nvalidate 1\nvalidate 2\n' | play
cmp permall before && echo 'what was kept is as it was'
rm volatilestate

label 'what is no volatile state'
mkdir bent
for name in $(python3 "$tests/swtpm/volatile_states.py" bend volatile bent); do
    echo "$name"
    printf 'set volatile bent/%s\n' "$name" | play
done

label "a permanent state of swtpm's own libtpms"
mkdir libtpms
printf '\0\3\253\066\107\043\0\3\0\3\311\352\144\061' >libtpms/permall
cp libtpms/permall libtpms/before
(cd libtpms && printf 'on\n' | play)
cmp libtpms/permall libtpms/before && echo 'what was kept is as it was'

label 'a bad state takes the others with it'
play <<END
set permanent other/permall
set volatile permanent
on
do NV_Read 01000002 01000002 pw:61 8 0
do Startup 0
do NV_Read 01000002 01000002 pw:61 8 0
END

label 'a state at the wrong time'
play <<END
on
set permanent permanent
set saved permanent
off
set saved permanent
unset saved
set permanent other/permall
unset permanent
on
do Startup 0
do NV_Read 01000002 01000002 pw:61 8 0
END

label 'a device whose permanent state was not stored has no volatile state until it is'
mkdir behind && cd behind || exit 1
play <<END
on
do Startup 0
store fails
do NV_DefineSpace OWNER pw:- 61 01000002000b0004000400000008
save volatilestate
get volatile volatilestate
store works
save volatilestate
save volatilestate
off
on
do NV_ReadPublic 01000002
END
cd .. || exit 1
