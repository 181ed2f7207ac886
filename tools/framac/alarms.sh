#!/bin/sh
# Analyses a part of the hosts with Frama-C's plug-in Eva, from its entry points: no call of the system, of the library or
# of a user may make it access memory outside of its variables, overflow a number, read bytes that were not written, or
# violate a condition of tpmsim.h. Prints the alarms, each on one line: what Eva cannot exclude. eva/any.h and eva/any.c
# have what the part calls, and eva/PART.c calls the part. eva/promised_PART.c stands for another part, by its headers.
#
#   tools/framac/alarms.sh PART [HOSTS]   HOSTS is a copy of the folder hosts
#
#   kept        the device in a folder: libtpmsim-kept, and kept.h for the hosts
#   tcti        the module for libtss2, and tpmsim-power; with kept.h's promises
#   libtpms     libtpms.so.0; with any digests
#   digests     SHA-1 and SHA-256
#   simulator   a client of tpmsim-simulator, and its device in memory; with any digests
#   server      the rest of tpmsim-simulator, from main; with the promises of client.h and device.h
#
# Needs frama-c, gcc and the headers of libtss2-dev and libtpms-dev.
set -u
LC_ALL=C
export LC_ALL
here=$(CDPATH='' cd "$(dirname "$0")" && pwd -P) || exit 1
top=$here/../..
part=${1:-}
hosts=$(CDPATH='' cd "${2:-$top/hosts}" && pwd -P) || exit 1
work=$(mktemp -d) || exit 1
trap 'rm -rf "$work"' EXIT
precision=2
more=
case $part in
kept)
    own='kept/exports.c kept/draws.c kept/folder.c kept/fork_mark.c kept/host.c kept/image.c kept/keeping.c kept/kept.c
        kept/past.c kept/reason.c kept/secret.c kept/standing.c kept/told.c kept/transfer.c kept/written.c'
    promised=
    # With a higher precision, or with more than one state in each of these loops, the analysis takes much longer.
    precision=0
    more='-eva-slevel 3 -eva-slevel-function keeping_run:0,folder_lock:0,call:0'
    ;;
tcti)
    own='tcti/tcti.c tcti/loaded.c tcti/power.c kept/words.c kept/fork_mark.c kept/reason.c kept/secret.c kept/told.c'
    promised=kept
    ;;
libtpms)
    own='libtpms/callbacks.c libtpms/commands.c libtpms/device.c libtpms/facts.c libtpms/foreign.c libtpms/host_clock.c
        libtpms/launch.c libtpms/older.c libtpms/permanent.c libtpms/power.c libtpms/randomness.c libtpms/record.c
        libtpms/report.c libtpms/states.c libtpms/volatile.c simulator/record_file.c kept/host.c kept/reason.c
        kept/secret.c kept/transfer.c'
    promised=digests
    ;;
digests)
    own=libtpms/digests.c
    promised=
    ;;
simulator)
    own='simulator/client.c simulator/requests.c simulator/board.c simulator/device.c simulator/clock.c
        simulator/random.c simulator/record_file.c simulator/image_file.c kept/host.c kept/image.c kept/reason.c
        kept/secret.c kept/standing.c kept/told.c kept/transfer.c'
    promised='digests kept'
    ;;
server)
    own='simulator/main.c simulator/options.c simulator/listeners.c simulator/server.c kept/words.c kept/reason.c
        kept/secret.c kept/told.c'
    promised=clients
    # The result 11 is that of the option without a word.
    more='-eva-split-return-function any_getopt_long:11'
    ;;
*) echo "usage: $0 kept|tcti|libtpms|digests|simulator|server [HOSTS]" >&2 && exit 2 ;;
esac
# The contracts for WP name variables that Eva does not have. So Eva reads them as comments. Eva takes a write to one of
# many elements as a write to all of them, so there are fewer devices.
for folder in kept tcti libtpms simulator; do
    mkdir "$work/$folder" || exit 1
    for source in "$hosts/$folder"/*.[ch]; do
        sed 's|/\*@|/* @|;s|^int main(|int main_of_host(|;s|MOST_DEVICES = 1000|MOST_DEVICES = 8|' \
            "$source" >"$work/$folder/${source##*/}" || exit 1
    done
done
mkdir "$work/headers" && ln -s /usr/include/libtpms /usr/include/tss2 "$work/headers" || exit 1
files=$here/eva/any.c
for name in $promised; do files="$files $here/eva/promised_$name.c"; done
for name in $own; do files="$files $work/$name"; done
# shellcheck disable=SC2086 # word splitting is intended
(cd "$work" && frama-c -machdep gcc_x86_64 -c11 \
    -cpp-extra-args="-I$here/eva -I$work/headers -I$here -I$top/clients/c -Ikept -Isimulator -Ilibtpms -Itcti -include any.h" \
    -no-unicode -eva -eva-precision "${PRECISION:-$precision}" -eva-split-return auto -eva-warn-undefined-pointer-comparison none $more \
    "$here/eva/$part.c" $files -then -report -report-csv alarms.csv -report-no-proven) >"$work/output" 2>&1
[ -s "$work/alarms.csv" ] || { cat "$work/output" && exit 1; }
# The alarms in the sources: the file, the function, the kind, and the property that may not hold. What a function
# assigns is a property too, but no alarm.
awk -F '\t' '$1 ~ /^(kept|tcti|libtpms|simulator)$/ && $5 !~ /clause$/ { print $1 "/" $2, $4 ": " $5 ": " $7 }' "$work/alarms.csv" |
    sort -u
