//go:build linux && cgo && (amd64 || arm64)

package tpmsim

import (
	"crypto/rand"
	"fmt"
	"strconv"
)

// source provides random bytes, from a seed or from the system. System bytes that a command did not
// draw are passed to the next command again.
type source struct {
	seeded bool
	seed   []byte
	count  uint64 // with a seed: how many commands have received bytes
	bytes  [randomBytes]byte
}

// drawn fills a buffer with the system's random bytes.
func drawn(bytes []byte) error {
	if _, err := rand.Read(bytes); err != nil {
		return fmt.Errorf("%w: %v", ErrRandom, err)
	}
	return nil
}

func (it *source) begin() error {
	if it.seeded {
		return nil
	}
	return drawn(it.bytes[:])
}

// ofNewDevice returns the random bytes from which a new device derives its seeds and proofs.
func (it *source) ofNewDevice() (*[randomBytes]byte, error) {
	if it.seeded {
		bytes := shake256(it.seed)
		return &bytes, nil
	}
	var bytes [randomBytes]byte
	return &bytes, drawn(bytes[:])
}

// next returns the bytes that the next command may draw.
func (it *source) next() *[randomBytes]byte {
	if it.seeded {
		it.count++
		it.bytes = shake256(strconv.AppendUint(append([]byte{}, it.seed...), it.count, 10))
	}
	return &it.bytes
}

// renew replaces the bytes that a command drew.
func (it *source) renew(count int) error {
	if it.seeded {
		return nil
	}
	return drawn(it.bytes[:count])
}
