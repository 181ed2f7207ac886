// Package arm64 is the folder that contains libtpmsim.a for arm64 in the packed module. It is a package so that
// go mod vendor copies it.
package arm64
