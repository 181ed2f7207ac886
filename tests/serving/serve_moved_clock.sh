# Tests the clock of a served device while the host's clock changes: common/clock.c replaces clock_gettime. The
# device counts whole milliseconds, and loses none between two commands. If the host's clock goes back, the
# device's clock stays the same.
tests=$(cd "$(dirname "$0")/.." && pwd -P)
. "$tests/common/cases.sh"
. "$tests/common/served.sh"
needs cc

# now SECONDS NANOSECONDS: sets the host's clock to this time, counted from the start of the test.
now() {
    echo "$((1000000 + $1)) $2" >clock.new && mv clock.new clock
}

# clock LABEL SECONDS NANOSECONDS: sets the host's clock, and reads the device's clock three times.
clock() {
    now "$2" "$3"
    talk "$1" 4096 "$read" "$read" "$read"
}

cc -O1 -shared -fPIC -o clock.so "$tests/common/clock.c" || exit 1
read=$(words 'ReadClock')
rm entropy
ln -s /dev/zero entropy
now 0 0
timeout 600 env LD_PRELOAD="$PWD/clock.so" CLOCK="$PWD/clock" "$program" serve --socket socket \
    --image image --entropy entropy --locality 0 --connections 8 >"$room/output" 2>"$room/error" &

talk 'the first command' 4096 "$(words 'Startup 0')"
clock 'at the same time' 0 0
clock '0.7 milliseconds later: none' 0 700000
clock '1.4 milliseconds later: 1' 0 1400000
clock '2.1 milliseconds later: 2' 0 2100000
clock 'a clock that went back: 2' 0 400000
clock '60 days later: 2^32 - 1 more, and the rest is dropped' "$((60 * 24 * 60 * 60))" 0
clock '3.25 seconds later: 3,250 more' "$((60 * 24 * 60 * 60 + 3))" 250000000
ended 'eight connections'
