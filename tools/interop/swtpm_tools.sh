#!/bin/sh
# Tests tpmsim in swtpm, with swtpm_ioctl and with Debian's tpm2-tools, including the policy tools. The tools use
# libtss2's TCTI `swtpm`. The script reports for each test whether the result was as expected. It restarts swtpm,
# moves the running device from one swtpm to another, kills swtpm, fills its disk, and damages its stored state.
# Not part of the gate. It installs nothing, and leaves no files.
#
#   tools/interop/swtpm_tools.sh
#
# Needs Debian's swtpm, swtpm-tools, libtpms-dev, tpm2-tools, libtss2-tcti-swtpm0, socat and busybox.
# $ATTACHED is the folder of `hosts/build.sh libtpms`; if it is not set, the script makes one. A test that
# cannot run is reported as skipped, with its reason.
set -u

top=$(CDPATH='' cd "$(dirname "$0")/../.." && pwd -P) || exit 1
for needed in swtpm swtpm_ioctl tpm2 socat busybox; do
    command -v "$needed" >/dev/null || {
        echo "$0: $needed is not there; the head of this file says what is needed" >&2
        exit 2
    }
done
folder=$(mktemp -d)
trap 'end_tpm; rm -rf "$folder"' EXIT
cd "$folder" || exit 1
port=${PORT:-24331}
tpm=
passed=0
failed=0
skipped=0

ok() {
    echo "ok: $1"
    passed=$((passed + 1))
}

fail() {
    echo "FAILED: $1"
    failed=$((failed + 1))
}

skip() {
    echo "skipped: $1: $2"
    skipped=$((skipped + 1))
}

# begin_tpm FOLDER WORDS..: starts swtpm with the state in a folder, and waits until it is ready.
begin_tpm() {
    state=$1
    shift
    "$attached/tpmsim-swtpm" socket --tpm2 --tpmstate "dir=$state" --ctrl "type=tcp,port=$((port + 1))" \
        --server "type=tcp,port=$port" --log "file=$folder/log,level=1" "$@" &
    tpm=$!
    until swtpm_ioctl --tcp "127.0.0.1:$((port + 1))" -c >capability 2>&1; do
        kill -0 "$tpm" 2>/dev/null || { fail 'swtpm does not start'; return 1; }
        sleep 0.05
    done
}

# end_tpm: ends swtpm, if it is running.
end_tpm() {
    [ -z "$tpm" ] || { kill "$tpm" 2>/dev/null && wait "$tpm" 2>/dev/null; }
    tpm=
}

# ioctl WORDS..: sends a message over the control channel, and writes the response to the file `output`.
ioctl() {
    timeout 20 swtpm_ioctl --tcp "127.0.0.1:$((port + 1))" "$@" >output 2>error
}

# succeeds NAME COMMAND..: runs a command that must succeed.
succeeds() {
    name=$1
    shift
    if "$@"; then ok "$name"; else fail "$name: $(cat error)"; fi
}

# refused NAME COMMAND..: runs a command that must fail.
refused() {
    name=$1
    shift
    if "$@"; then fail "$name"; else ok "$name: $(tail -n 1 error)"; fi
}

# tool WORDS..: runs one of tpm2-tools, which must succeed within twenty seconds.
tool() {
    succeeds "tpm2 $*" run_tool "$@"
}

run_tool() {
    timeout 20 tpm2 "$@" >output 2>error
}

# same FILE: checks that the output of the last tool equals the content of a file.
same() {
    cmp -s output "$1" || fail "other bytes than $1"
}

simple() {
    tool startup -c
    tool getrandom --hex 16
    for what in commands algorithms properties-fixed properties-variable pcrs handles-persistent; do
        tool getcap "$what"
    done
    tool pcrread sha256:0,10
    tool pcrextend 10:sha256=0000000000000000000000000000000000000000000000000000000000000001
    tool pcrreset 16
    tool pcrevent 16 event
    tool readclock
    tool changeauth -c o owner
    tool changeauth -c o -p owner
    tool nvdefine 0x1500016 -C o -s 8 -a 'ownerread|ownerwrite'
    tool nvwrite 0x1500016 -C o -i data
    tool nvread 0x1500016 -C o -s 8
    same data
    tool nvundefine 0x1500016 -C o
}

# Seals a key to PCR 10 and unseals it. Each tool saves a context for the next tool.
sealing() {
    tool createprimary -C o -G aes128cfb -g sha256 -c primary.context
    tool startauthsession -S trial.context
    tool policypcr -S trial.context -l sha256:10 -L policy
    tool flushcontext trial.context
    tool create -C primary.context -i key -u key.public -r key.private -L policy -g sha256 \
        -a 'fixedtpm|fixedparent'
    tool load -C primary.context -u key.public -r key.private -c key.context
    tool startauthsession --policy-session -S session.context
    tool policypcr -S session.context -l sha256:10
    tool unseal -c key.context -p session:session.context
    same key
    tool flushcontext session.context
    tool flushcontext -t
    tool unseal -c key.context -p pcr:sha256:10
    same key
}

policies() {
    tool startauthsession -S session.context
    tool policyauthvalue -S session.context -L first
    tool policyrestart -S session.context
    tool policycommandcode -S session.context -L second TPM2_CC_Unseal
    tool policyrestart -S session.context
    tool policysecret -S session.context -c o
    tool policyrestart -S session.context
    tool policypassword -S session.context
    tool policyrestart -S session.context
    tool policyor -S session.context sha256:first,second
    tool policyrestart -S session.context
    tool policylocality -S session.context three
    tool flushcontext session.context
    tool startauthsession --hmac-session -S session.context
    tool sessionconfig session.context --enable-encrypt
    tool nvdefine 0x1500017 -C o -s 8 -P session:session.context
    tool nvundefine 0x1500017 -C o
    tool flushcontext session.context
    tool clear -c p
    tool shutdown
}

# The digest with which a PCR is extended.
extended=0000000000000000000000000000000000000000000000000000000000000007

# Moves the running device to another swtpm, with an extended PCR, a session and an object.
moves() {
    mkdir from to
    begin_tpm "$folder/from" --flags not-need-init || return
    tool startup -c
    tool nvdefine 0x1500016 -C o -s 8 -a 'ownerread|ownerwrite'
    tool nvwrite 0x1500016 -C o -i data
    tool pcrextend "10:sha256=$extended"
    tool createprimary -C o -G aes128cfb -g sha256 -c primary.context
    tool startauthsession --policy-session -S session.context
    tool policypcr -S session.context -l sha256:10 -L policy
    tool startauthsession --hmac-session -S hmac.context
    tool nvdefine 0x1500017 -C o -s 8 -P session:hmac.context
    run_tool pcrread sha256:10 && cp output pcrs
    succeeds 'the permanent state is saved' ioctl --save permanent permanent
    succeeds 'the volatile state is saved' ioctl --save volatile volatile
    end_tpm
    begin_tpm "$folder/to" || return
    succeeds 'the permanent state is loaded' ioctl --load permanent permanent
    succeeds 'the volatile state is loaded' ioctl --load volatile volatile
    succeeds 'power' ioctl -i
    tool pcrread sha256:10
    same pcrs
    tool policypcr -S session.context -l sha256:10 -L policy
    tool flushcontext session.context
    tool nvundefine 0x1500017 -C o -P session:hmac.context
    tool flushcontext hmac.context
    tool readpublic -c primary.context
    tool nvread 0x1500016 -C o -s 8
    same data
    succeeds 'the volatile state is stored' ioctl -v
    end_tpm
    begin_tpm "$folder/to" --flags not-need-init || return
    tool pcrread sha256:10
    same pcrs
    tool nvundefine 0x1500016 -C o
    end_tpm
    if "$attached/tpmsim-swtpm" socket --tpm2 --print-states --tpmstate "dir=$folder/to" >output 2>error &&
        grep -q permall output && grep -q volatilestate output; then
        ok 'swtpm tells the states'
    else
        fail "swtpm does not tell the states: $(cat output error)"
    fi
    begin_tpm "$folder/to" || return
    refused 'a volatile state from before a change is refused' ioctl -i
    grep 'another permanent state' log | tail -n 1
    end_tpm
}

# bent FILE: changes a byte in the middle of the file.
bent() {
    size=$(($(wc -c <"$1") / 2))
    { head -c "$size" "$1"; printf '\377'; tail -c "+$((size + 2))" "$1"; } >bent_file
}

# own_state FILE: saves the volatile state of swtpm with its own libtpms.
own_state() {
    mkdir own
    swtpm socket --tpm2 --tpmstate "dir=$folder/own" --ctrl "type=unixio,path=$folder/own/ctrl" \
        --server "type=unixio,path=$folder/own/data" --flags not-need-init,startup-clear &
    tpm=$!
    until swtpm_ioctl --unix "$folder/own/ctrl" --save volatile "$1" >output 2>error; do
        kill -0 "$tpm" 2>/dev/null || { fail 'swtpm with its own libtpms does not start'; break; }
        sleep 0.05
    done
    end_tpm
}

# Checks that damaged states and states of swtpm's own libtpms are refused. The stored state must stay
# unchanged.
damage() {
    own_state own_volatile
    mkdir damaged
    cp from/tpm2-00.permall damaged
    begin_tpm "$folder/damaged" || return
    for kind in permanent volatile; do
        bent "$kind"
        refused "a bent $kind state is refused" ioctl --load "$kind" bent_file
    done
    refused "swtpm's own volatile state is refused" ioctl --load volatile own_volatile
    grep 'tpmsim: the volatile state' log | tail -n 2
    end_tpm
    cmp -s from/tpm2-00.permall damaged/tpm2-00.permall || fail 'what was kept is not as it was'
    bent from/tpm2-00.permall
    cp bent_file damaged/tpm2-00.permall
    begin_tpm "$folder/damaged" || return
    refused 'no power on a bent state' ioctl -i
    cmp -s bent_file damaged/tpm2-00.permall || fail 'the bent state is not as it was'
    end_tpm
}

# Kills swtpm after a response, and checks that the device has executed all answered commands.
kills() {
    mkdir killed
    begin_tpm "$folder/killed" --flags not-need-init,startup-clear || return
    run_tool nvdefine 0x1500016 -C o -s 8 -a 'ownerread|ownerwrite' || fail "$(cat error)"
    lost=0
    for round in $(seq 20); do
        printf 'round%03d' "$round" >written
        run_tool nvwrite 0x1500016 -C o -i written || fail "$(cat error)"
        kill -9 "$tpm"
        wait "$tpm" 2>/dev/null
        begin_tpm "$folder/killed" --flags not-need-init,startup-clear || return
        run_tool nvread 0x1500016 -C o -s 8
        cmp -s output written || lost=$((lost + 1))
    done
    end_tpm
    if [ "$lost" -eq 0 ]; then ok '20 kills, nothing lost'; else fail "$lost of 20 kills lost a write"; fi
}

# On a full disk, a command that changes the state fails, and so does each later command. When there is space
# again, everything works, and no data are lost.
full_disk() {
    mkdir full
    if ! mount -t tmpfs -o size=16k tmpfs full 2>error; then
        skip 'a full disk' "no file system can be mounted: $(cat error)"
        return
    fi
    begin_tpm "$folder/full" --flags not-need-init,startup-clear || return
    tool nvdefine 0x1500016 -C o -s 8 -a 'ownerread|ownerwrite'
    tool nvwrite 0x1500016 -C o -i data
    cat /dev/zero >full/filler 2>error
    printf 12345670 >other
    refused 'no write where the disk has no room' run_tool nvwrite 0x1500016 -C o -i other
    refused 'nothing else until there is room' run_tool nvread 0x1500016 -C o -s 8
    rm full/filler
    tool nvread 0x1500016 -C o -s 8
    same other
    end_tpm
    begin_tpm "$folder/full" --flags not-need-init,startup-clear || return
    tool nvread 0x1500016 -C o -s 8
    same other
    end_tpm
    umount full
}

# extend_17: sends TPM2_PCR_Extend of PCR 17, and prints the response code. It does not use tpm2-tools,
# because they would change the locality.
extend_17() {
    printf '%s' "80020000004100000182000000110000000940000009000001000000000001000b$extended" |
        busybox xxd -r -p | socat -t 2 - "TCP:127.0.0.1:$port" | head -c 10 | busybox xxd -p | cut -c 13-20
}

# Tests the functions of the control channel, except those that get and set states.
control() {
    mkdir control
    begin_tpm "$folder/control" || return
    refused 'no launch without power' ioctl -h 1234
    succeeds 'power' ioctl -i
    tool startup -c
    succeeds 'a launch' ioctl -h 1234
    succeeds 'it is told' ioctl -e
    grep -q 'is 1' output || fail "$(cat output)"
    refused 'it is not taken back from locality 1' ioctl -r 1
    succeeds 'it is taken back from locality 3' ioctl -r 3
    succeeds 'cancel' ioctl -C
    succeeds 'the buffer' ioctl -b 0
    refused 'no other buffer with power' ioctl -b 1024
    succeeds 'information' ioctl --info 1
    for locality in 0 1 2 3 4; do
        succeeds "locality $locality" ioctl -l "$locality"
        case $locality,$(extend_17) in
        [234],00000000 | [01],00000907) ok "PCR 17 at locality $locality" ;;
        *) fail "PCR 17 at locality $locality: $(extend_17)" ;;
        esac
    done
    refused 'locality 5' ioctl -l 5
    succeeds 'stop' ioctl --stop
    refused 'no command without power' run_tool getrandom 4
    succeeds 'power again' ioctl -i
    tool startup -c
    succeeds 'shutdown' ioctl -s
    wait "$tpm"
    tpm=
}

echo 12345678 | head -c 8 >data
echo event >event
printf secret >key
attached=${ATTACHED:-$folder/attached}
[ -n "${ATTACHED:-}" ] || "$top/hosts/build.sh" libtpms "$attached" || exit 1
export TPM2TOOLS_TCTI="swtpm:host=127.0.0.1,port=$port"
mkdir state
begin_tpm "$folder/state" --flags not-need-init || exit 1
simple
sealing
policies
end_tpm
moves
damage
kills
full_disk
control
echo "$passed passed, $failed failed, $skipped skipped"
[ "$failed" -eq 0 ]
