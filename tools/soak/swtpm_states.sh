#!/bin/sh
# Makes each call of swtpm on its state files fail in turn, with this repository's libtpms.so.0, in some 1,000
# runs. tests/keeping/library_swtpm_files.sh makes one in ten of these runs. Needs cc, python3, swtpm,
# libtpms-dev and libtss2-dev. Not part of the gate.
#
#   tools/soak/swtpm_states.sh       all calls
#   tools/soak/swtpm_states.sh 10    every tenth call
#
# At the end it prints the number of runs. If something was wrong, it prints a description, and the status is 1.
set -u

tests=$(CDPATH='' cd "$(dirname "$0")/../../tests" && pwd -P) || exit 1
share=${1:-1}
set -- "${TPMSIM_ARCHIVE:-$tests/../dist/libtpmsim.a}"
. "$tests/common/cases.sh"
. "$tests/common/library.sh"
. "$tests/common/keeping_hosts.sh"
swtpm_states "$share" 2>&1
