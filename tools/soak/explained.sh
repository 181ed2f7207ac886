#!/bin/sh
# Plays the shell tests, and explains each journal and log that they leave. The explained responses must have
# the digests that are in the log. Journals that a test has damaged are listed with their damage. Then it
# explains all scripts of tests/ and examples/ in the same way, with the responses of dist/tpmsim. Needs
# python3.
#
#   tools/soak/explained.sh            all tests
#   tools/soak/explained.sh attached_cut 'swtpm/*'
#
# The status is 1 if the explanation of an undamaged log differs from its responses.
set -u

top=$(CDPATH='' cd "$(dirname "$0")/../.." && pwd -P) || exit 1
work=$(mktemp -d) || exit 1
trap 'rm -rf "$work"' EXIT
KEPT_JOURNALS=$work "$top/tools/scripts.sh" "$@" | tail -n 1
"$top/tools/python.sh" "$top/tools/soak/explained.py" "$work" "$top/dist/tpmsim"
