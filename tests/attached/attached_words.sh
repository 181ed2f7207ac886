# Tests valid and invalid configuration strings for a device that is kept in a folder. See attached/ask.c.
tests=$(cd "$(dirname "$0")/.." && pwd -P)
. "$tests/common/cases.sh"
. "$tests/common/library.sh"
. "$tests/common/attached.sh"

# shellcheck disable=SC2086 # word splitting is intended
attach ask ask $sanitizers

short=
startup=80010000000c000001440000
get_random=80010000000c0000017b0010
stir=80010000000e0000014600020102
extend=80020000004100000182000000140000000940000009000000000000000001000b$(printf '%064d' 0)

# ask LABEL WORDS ACT..: runs attached/ask.c on a device, and prints the result.
ask() {
    label=$1
    shift
    status=0
    "$room/ask" "$@" >"$room/asked" 2>&1 || status=$?
    echo "$label: status $status"
    sed -e 's/^/    /' -e "$short" "$room/asked"
}

many=$(printf '%0512d' 0)
echo 'a device in memory has random bytes 5a, and is another one in each process'
ask 'no words' '' "$startup"
ask 'random bytes of one byte' random=5a "$startup" "$get_random" "$get_random"
ask 'random bytes in either case' random=aBcD "$startup" "$get_random"
ask 'random bytes of 256 bytes' "random=$many" "$startup" "$get_random"
ask 'a command before its startup' random=5a "$get_random"
ask 'a power cycle' random=5a "$startup" power "$get_random"
ask 'a kept device' state=kept,random=5a,force=never "$startup"
ask 'the device that is kept' random=01,state=kept,force=always "$get_random"
ask 'a locality that may extend PCR 20, and one that may not' random=5a,locality=2 "$startup" \
    "$extend" locality 0 "$extend"
ask 'a locality that there is not' random=5a "$startup" locality 5 "$startup"
ask 'a command that the completing layer answers' random=5a "$startup" "$stir"
ask 'and with complete' complete,random=5a "$startup" "$stir"
ask 'and of the device alone' device,random=5a "$startup" "$stir"
ask 'every word but device' complete,rm,cut,keep=2,locality=4,state=kept,image=none,random=00,force=power "$get_random"
echo 'wrong words'
ask 'a word that is none' colour=blue
short='s/ is none of the words .* or force=always$/ is none of them/'
for words in state stat=x state= image= complete=1 completes locality= locality=5 \
    locality=-1 locality=00 locality=a random= random=0 random=0g "random=${many}00" force \
    force= force=sometimes force=neverr force=never cut cuts state=a,cut=1 state=a,cut,cut keep keep= keep=1 state=a,keep=100 \
    state=a,keep=-1 state=a,keep=1x ',' 'complete,' ,complete state=a,,complete \
    complete,complete complete,device device,complete device=1 devices device,device rm rm=1 \
    state=a,rm,rm norm=1 state=a,norm,norm state=a,rm,norm state=a,state=b ' complete' State=a; do
    ask "'$(echo "$words" | cut -c 1-40)'" "$words"
done
ls
