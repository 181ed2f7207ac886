//go:build !(linux && cgo && (amd64 || arm64))

package tpmsim

// This line is the compiler's error where the library cannot be linked. On Linux, install a C
// compiler, and set CGO_ENABLED=1.
var _ = tpmsim_needs_cgo_and_Linux_on_amd64_or_arm64
