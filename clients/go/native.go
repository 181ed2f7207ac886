//go:build linux && cgo && (amd64 || arm64)

package tpmsim

// The packed module contains the header and the libraries. In a clone, they are in other folders.

// #cgo CFLAGS: -I${SRCDIR} -I${SRCDIR}/../c
// #cgo amd64 LDFLAGS: -L${SRCDIR}/native/amd64 -L${SRCDIR}/../../dist
// #cgo arm64 LDFLAGS: -L${SRCDIR}/native/arm64 -L${SRCDIR}/../../dist/aarch64
// #cgo LDFLAGS: -l:libtpmsim.a
// #include "tpmsim.h"
import "C"

import (
	"fmt"
	"unsafe"

	_ "example.org/tpmsim/native/amd64" // the folders of the library in the packed module
	_ "example.org/tpmsim/native/arm64"
)

const (
	randomBytes   = 256
	responseBytes = 4096
)

// The faults of images and of state texts, in the order of their numbers in the header.
var faults = []string{
	"there are fewer than 42 bytes",
	"they begin otherwise",
	"their version is not known",
	"there are not as many bytes as they say",
	"their digest is another one",
	"they spell no state",
}

// native is a handle of the library. It is in Go's memory, and contains only a pointer to C memory,
// which may be null.
type native struct{ holder C.tpmsim }

// outcome is the result of a command.
type outcome struct {
	response []byte
	drawn    int
	command  uint32
	check    uint8
}

func (it *native) isThere() bool { return it.holder.private_ != nil }

func (it *native) free() { C.tpmsim_free(&it.holder) }

// isOfHeader reports whether the linked library has the same version as the header.
func isOfHeader() bool { return C.tpmsim_version() == C.TPMSIM_VERSION_NUMBER }

func (it *native) manufacture(random *[randomBytes]byte) error {
	if C.tpmsim_manufacture(&it.holder, front(random[:])) != C.TPMSIM_DONE {
		return ErrMemory
	}
	return nil
}

func (it *native) open(image []byte) error {
	told := C.tpmsim_open(&it.holder, front(image), C.size_t(len(image)))
	return fault(int(told), C.TPMSIM_IMAGE_SHORT, ErrImage)
}

func (it *native) restore(text []byte) error {
	told := C.tpmsim_restore(&it.holder, front(text), C.size_t(len(text)))
	return fault(int(told), C.TPMSIM_STATE_SHORT, ErrState)
}

// execute executes a command. The caller ensures that there is a device and that the locality is
// valid.
func (it *native) execute(command []byte, locality uint8, elapsed uint32,
	random *[randomBytes]byte, completes bool) outcome {
	var answered C.tpmsim_answered
	response := make([]byte, responseBytes)
	at, size := front(command), C.size_t(len(command))
	place, passed := C.uint8_t(locality), C.uint32_t(elapsed)
	if completes {
		C.tpmsim_complete(&it.holder, at, size, place, passed, front(random[:]), front(response), &answered)
	} else {
		C.tpmsim_execute(&it.holder, at, size, place, passed, front(random[:]), front(response), &answered)
	}
	return outcome{
		response[:answered.size:answered.size], int(answered.drawn),
		uint32(answered.code), uint8(answered.check),
	}
}

func (it *native) powerCycle() { C.tpmsim_power_cycle(&it.holder) }

func (it *native) image() []byte {
	text := make([]byte, C.TPMSIM_STATE_SIZE)
	return text[:C.tpmsim_save(&it.holder, front(text), C.size_t(len(text)))]
}

func (it *native) stateText() []byte {
	text := make([]byte, C.TPMSIM_STATE_SIZE)
	return text[:C.tpmsim_snapshot(&it.holder, front(text), C.size_t(len(text)))]
}

// front returns a pointer to the first byte of a slice. The pointer is never nil, even if the slice
// is empty.
func front(bytes []byte) *C.uint8_t {
	if len(bytes) == 0 {
		bytes = []byte{0}
	}
	return (*C.uint8_t)(unsafe.Pointer(&bytes[0]))
}

// fault converts the return code of a call that reads an image or a state text. first is the return
// code for the first entry of faults.
func fault(told, first int, of error) error {
	switch at := told - first; {
	case told == C.TPMSIM_DONE:
		return nil
	case at >= 0 && at < len(faults):
		return fmt.Errorf("%w: %s", of, faults[at])
	default:
		return ErrMemory
	}
}

// Version returns the version of the linked library, such as 0.1.0.
func Version() string {
	number := uint32(C.tpmsim_version())
	return fmt.Sprintf("%d.%d.%d", number>>16, number>>8&0xff, number&0xff)
}
