# Tests the module for libtss2. attached/client.c loads and calls the module in the same
# way as libtss2.
tests=$(cd "$(dirname "$0")/.." && pwd -P)
. "$tests/common/cases.sh"
. "$tests/common/library.sh"
needs cc nm tss2/tss2_tcti.h
. "$tests/common/attached.sh"

TPMSIM_ARCHIVE=$archive "$hosts/build.sh" tcti "$room/made" || exit 1
attach client client -ldl
# shellcheck disable=SC2086 # word splitting is intended
attach sanitized_client client $sanitizers -ldl
# shellcheck disable=SC2086 # word splitting is intended
attach sanitized_module tcti "$hosts/tcti/loaded.c" $sanitizers -shared -fPIC

mkdir plain sanitized
(cd plain && "$room/client" "$room/made/libtss2-tcti-tpmsim.so.0") 2>&1
(cd sanitized && "$room/sanitized_client" "$room/sanitized_module") >"$room/sanitized_output" 2>&1
(cd plain && rm -r state && "$room/client" "$room/made/libtss2-tcti-tpmsim.so.0") 2>&1 |
    cmp - "$room/sanitized_output" && echo 'the same beside sanitizers'
