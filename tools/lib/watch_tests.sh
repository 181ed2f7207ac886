#!/bin/sh
# Watches the tests that tools/lib/play_tests.sh plays one after another, and ends a test that would never end:
#
#   watch_tests.sh PLAYER NOTE
#
# PLAYER is the process that plays the tests; each test is a child of it. Every LOOK_S seconds, this script looks
# at the processes of the current test. It ends the test, and writes the reason to the file NOTE,
#
# - after the processes used PROCESSOR_S seconds of processor time together: more than ten times what any test needs;
# - after they only waited for IDLE_S seconds. At three of four looks, none ran, was ready to run, or read a disk.
#
# A busy machine slows tests down, but does not increase their processor time. No limit is by the clock alone.
set -u
player=$1
note=$2
processor_s=${PROCESSOR_S:-3600}
idle_s=${IDLE_S:-3600}
look_s=${LOOK_S:-10}
ticks_per_s=$(getconf CLK_TCK)
test='' watched='' processes='' sleeping=''
trap '[ -z "$sleeping" ] || kill "$sleeping"; exit 0' TERM

# pause: waits until the next look. The signal TERM ends the pause.
pause() {
    sleep "$look_s" &
    sleeping=$!
    wait "$sleeping"
    sleeping=
}

# list PLAYER WATCHER TEST PROCESSES: reads the stat files of all processes. Prints the current test, the ticks of
# processor time that its processes used, and these processes, parents first. Each process is PID:START:NAME. The
# test is the player's child. Its processes include their children, groups and sessions. If the test is TEST, they
# also include those of the last look, PROCESSES.
list() {
    awk -v player="$1" -v watcher="$2" -v last_test="$3" -v last="$4" '
        function belongs(pid) {
            if (pid in members || pid == watcher || pid == player) return 0
            if (parent[pid] == player || parent[pid] in members) return 1
            return group[pid] in members || session[pid] in members || process[pid] in known
        }
        function add(pid) {
            members[pid]
            used += ticks[pid]
            listed = listed " " process[pid]
            added++
        }
        {
            pid = $1
            name = $0
            gsub(/^[0-9]+ \(|\) [^)]*$/, "", name)
            gsub(/[^a-zA-Z0-9_.+-]/, "_", name)
            sub(/^.*\) /, "")
            parent[pid] = $2; group[pid] = $3; session[pid] = $4
            ticks[pid] = $12 + $13 + $14 + $15
            process[pid] = pid ":" $20 ":" name
            if (parent[pid] == player && pid != watcher) test = process[pid]
        }
        END {
            if (test == last_test) for (n = split(last, names, " "); n > 0; n--) known[names[n]]
            do {
                added = 0
                for (pid in parent) if (belongs(pid)) add(pid)
            } while (added)
            print test, used + 0 listed
        }
    '
}

# look: sets `test`, `used` and `processes` to what `list` prints. Processes that end meanwhile are no fault.
look() {
    listed=$(cat /proc/[0-9]*/stat 2>/dev/null | list "$player" $$ "$test" "$processes")
    test=${listed%% *}
    processes=${listed#* }
    used=${processes%% *}
    processes=${processes#"$used"}
}

# pids: prints the numbers of the test's processes.
pids() {
    for process in $processes; do echo "${process%%:*}"; done
}

# names: prints the names of the test's processes.
names() {
    for process in $processes; do echo "${process##*:}"; done | sort -u | xargs
}

# is_ready: succeeds if a thread of the test runs, is ready to run, or reads a disk.
is_ready() {
    # shellcheck disable=SC2002,SC2046 # word splitting and patterns are intended
    cat $(pids | sed 's|.*|/proc/&/task/[0-9]*/stat|') 2>/dev/null | sed 's/^.*) //' | grep -q '^[RD]'
}

# count: counts the looks at a test, and those at which it was ready. The counts begin again for another test, and
# after IDLE_S seconds.
count() {
    if [ "$test" != "$watched" ] || [ "$looks" -ge $((idle_s / look_s)) ]; then
        watched=$test looks=0 ready=0
    fi
    looks=$((looks + 1))
    ! is_ready || ready=$((ready + 1))
}

# reason: prints why the test must be ended, or nothing.
reason() {
    seconds=$((used / ticks_per_s))
    if [ "$seconds" -ge "$processor_s" ]; then
        echo "ended: it used $seconds s of processor time, and the limit is $processor_s s"
        echo "Look for an endless loop. On a slow machine, set PROCESSOR_S to more seconds."
    elif [ "$looks" -ge $((idle_s / look_s)) ] && [ $((ready * 4)) -le "$looks" ]; then
        echo "ended: it only waited for $idle_s s, and used $seconds s of processor time in all"
        echo "Look for what it waits for. To let it wait longer, set IDLE_S to more seconds."
    fi
}

# end_test: kills all processes of the test. It stops them first, so that they cannot start others meanwhile.
end_test() {
    stopped=0
    # shellcheck disable=SC2046 # word splitting is intended
    while [ "$(pids | wc -l)" -ne "$stopped" ]; do
        stopped=$(pids | wc -l)
        kill -STOP $(pids)
        look
        [ "$test" = "$watched" ] || return
    done
    # shellcheck disable=SC2046 # word splitting is intended
    kill -KILL $(pids)
}

# watch: watches the tests until the player is gone.
watch() {
    while pause && kill -0 "$player"; do
        look
        [ -n "$test" ] || continue
        count
        why=$(reason)
        [ -n "$why" ] || continue
        printf '%s\nIts processes: %s\n' "$why" "$(names)" >"$note"
        end_test
    done
}

# If the player was killed, its test may still run. The test's processes are in a group.
watch 2>/dev/null
[ -z "$test" ] || kill -KILL -- "-${test%%:*}"
