# Builds tpmsim-simulator, links it with the archive under test, and sets `simulator` to its path. A test
# reads this file after cases.sh and library.sh.
# shellcheck shell=sh disable=SC2034,SC2154 # library.sh has `archive`
needs cc nm strip
nm --defined-only "$archive" 2>/dev/null | grep -q ' tpmsim_fault_text$' ||
    skip 'the archive has no keeper of a device'
TPMSIM_ARCHIVE=$archive "$tests/../hosts/build.sh" simulator "$room/simulator" || exit 1
simulator=$room/simulator/tpmsim-simulator
