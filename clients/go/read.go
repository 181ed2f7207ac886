//go:build linux && cgo && (amd64 || arm64)

package tpmsim

import "io"

// Read reads the response to the command that Write executed. After the end of the response it
// returns io.EOF.
func (tpm *TPM) Read(buffer []byte) (int, error) {
	tpm.lock.Lock()
	defer tpm.lock.Unlock()
	if len(tpm.response) == 0 {
		return 0, io.EOF
	}
	count := copy(buffer, tpm.response)
	tpm.response = tpm.response[count:]
	return count, nil
}
