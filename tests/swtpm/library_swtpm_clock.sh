# Tests the time of a device in swtpm with different clocks of the host. The device stays in one process, or
# continues in another process on a host whose clock is slow or fast. The difference can exceed the 2^32 - 1
# milliseconds by which one command can advance the device's clock. common/clock.c replaces the clock.
tests=$(cd "$(dirname "$0")/.." && pwd -P)
. "$tests/common/cases.sh"
. "$tests/common/swtpm.sh"
cc -shared -fPIC -o "$room/clock.so" "$tests/common/clock.c" || exit 1
CLOCK=$room/clock
export CLOCK

# clocked: executes the lines of standard input, which also set the clock.
clocked() {
    spell >"$room/lines"
    LD_PRELOAD=$room/clock.so timeout 600 "$room/caller" "$room/swtpm/libtpms.so.0" <"$room/lines" 2>&1
}

label 'one process: 0, 5 and 8 seconds, and no time back'
clocked <<END
clock 1000
on
do Startup 0
do ReadClock
clock 1005
do ReadClock
clock 1008
do ReadClock
save volatile
END
cp permall permanent

for clock in 2000 1008 10 1 10000000000; do
    label "another process, by a host whose clock stands at $clock, and 7 seconds later"
    clocked <<END
clock $clock
set permanent permanent
set volatile volatile
on
do ReadClock
clock $((clock + 7))
do ReadClock
END
done

label 'a device of 31 years later'
rm permall
clocked <<END
clock 1000000000
on
do Startup 0
do ReadClock
save volatile
off
clock 10
set volatile volatile
on
do ReadClock
clock 12
do ReadClock
END

label 'a device of 317,000 years later'
rm permall
clocked <<END
clock 10000000000000
on
do Startup 0
save volatile
off
clock 10
set volatile volatile
on
do ReadClock
clock 17
do ReadClock
END
