//go:build linux && cgo && (amd64 || arm64)

package tpmsim

import (
	"fmt"
	"strings"
)

// log contains the lines of a script, with the responses as comments.
type log struct{ text strings.Builder }

func (it *log) line(line string) { it.text.WriteString(line + "\n") }

func (it *log) command(completes bool, buffer, drawn, response []byte) {
	if completes {
		it.line("# completed")
	}
	if len(drawn) > 0 {
		it.line(fmt.Sprintf("entropy %x", drawn))
	}
	it.line(fmt.Sprintf("cmd %x", buffer))
	it.line(fmt.Sprintf("# %x", response))
}

// logged adds a line to the log, if there is one.
func (tpm *TPM) logged(line string) {
	if tpm.log != nil {
		tpm.log.line(line)
	}
}

// logAnew restarts the log, if there is one.
func (tpm *TPM) logAnew() error {
	if tpm.log == nil {
		return nil
	}
	return tpm.beginLog()
}

func (tpm *TPM) beginLog() error {
	if !tpm.native.isThere() {
		return ErrClosed
	}
	tpm.log = new(log)
	tpm.log.line(fmt.Sprintf("# state %x", tpm.native.stateText()))
	if tpm.locality > 0 {
		tpm.logged(fmt.Sprintf("loc %d", tpm.locality))
	}
	if tpm.elapsed > 0 {
		tpm.logged(fmt.Sprintf("wait %d", tpm.elapsed))
	}
	return nil
}

// BeginLog starts a log from the current state of the device. Without this call, there is no log.
func (tpm *TPM) BeginLog() error {
	tpm.lock.Lock()
	defer tpm.lock.Unlock()
	return tpm.beginLog()
}

// Log returns the log, a script with the responses as comments. tpmsim-explain reports why each
// command in it was refused. The log is empty without BeginLog. It contains all secrets.
func (tpm *TPM) Log() string {
	tpm.lock.Lock()
	defer tpm.lock.Unlock()
	if tpm.log == nil {
		return ""
	}
	return tpm.log.text.String()
}
