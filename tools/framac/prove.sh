#!/bin/sh
# Proves contracts of the hosts' functions with Frama-C's plug-in WP. The contracts are comments in the sources,
# /*@ .. */, in the language ACSL. system.h has the contracts of the calls that are not proved: those of the system
# and of the library. Together with a contract, this proves that the function does not overflow a signed number, and
# does not access memory outside of its arguments. Prints a line for each file. The status is 1 if a goal is not valid.
#
#   tools/framac/prove.sh                        all functions in tools/framac/proved
#   tools/framac/prove.sh HOSTS FILE FUNCTION..  these functions of HOSTS/FILE; HOSTS is a copy of the folder hosts
#
# TIMEOUT is the limit for each goal, in seconds of processor time. Needs frama-c, why3, cvc4, gcc and the headers of
# libtpms-dev.
set -u
LC_ALL=C
export LC_ALL
here=$(CDPATH='' cd "$(dirname "$0")" && pwd -P) || exit 1
top=$here/../..
work=$(mktemp -d) || exit 1
trap 'rm -rf "$work"' EXIT
# why3 stores its settings in the home folder. Of the machine's headers, only those of libtpms are used.
HOME=$work
export HOME
why3 config detect >"$work/detected" 2>&1 || { cat "$work/detected" && exit 1; }
ln -s /usr/include/libtpms "$work/libtpms" || exit 1

# prove HOSTS FILE FUNCTION..: proves the contracts of these functions.
prove() {
    hosts=$1
    file=$2
    shift 2
    functions=$(echo "$*" | tr ' ' ,)
    (cd "$hosts/${file%/*}" && frama-c -machdep gcc_x86_64 -c11 \
        -cpp-extra-args="-I$here -I$work -I$top/clients/c -I../kept -I../simulator -I../libtpms -include system.h" \
        -rte-no-pointer-call -wp -wp-rte -wp-cache none -wp-prover cvc4 -wp-timeout "${TIMEOUT:-60}" \
        -wp-par "$(getconf _NPROCESSORS_ONLN)" -wp-fct "$functions" "${file##*/}") >"$work/output" 2>&1
    proved=$(sed -n 's|.*Proved goals: *\([0-9]*\) */ *\([0-9]*\)$|\1 \2|p' "$work/output")
    if [ -n "$proved" ] && [ "${proved% *}" = "${proved#* }" ] && [ "${proved% *}" -gt 0 ]; then
        echo "$file: all goals of $# functions are valid"
        echo "$file: ${proved% *} goals" >&2
    else
        echo "$file: not all goals are valid"
        [ -n "$proved" ] || tail -n 5 "$work/output"
        sed -n 's/.*Goal typed_\(.*\) : \(Unknown\|Timeout\|Failed\).*/    \1/p' "$work/output" | sort
        return 1
    fi
}

if [ "$#" -gt 2 ]; then
    prove "$@"
    exit
fi
status=0
while read -r line; do
    # shellcheck disable=SC2086 # word splitting is intended
    case $line in
    [a-z]*) prove "$top/hosts" $line || status=1 ;;
    esac
done <"$here/proved"
exit "$status"
