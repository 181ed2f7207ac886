// Package vault is the code under test: it gets random bytes from a TPM.
package vault

import (
	"encoding/binary"
	"fmt"
)

// TPM has the same methods as go-tpm's transport.TPM.
type TPM interface {
	Send(command []byte) ([]byte, error)
}

// RandomBytes sends TPM2_GetRandom.
func RandomBytes(tpm TPM, count uint16) ([]byte, error) {
	command := []byte{0x80, 1, 0, 0, 0, 12, 0, 0, 1, 0x7b}
	response, err := tpm.Send(binary.BigEndian.AppendUint16(command, count))
	if err != nil {
		return nil, err
	}
	if code := binary.BigEndian.Uint32(response[6:]); code != 0 {
		return nil, fmt.Errorf("the TPM refuses: %03x", code)
	}
	return response[12:], nil
}
