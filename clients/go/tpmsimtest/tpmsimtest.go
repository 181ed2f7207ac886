// Package tpmsimtest opens TPMs for tests.
//
//	func TestMine(t *testing.T) {
//		tpm := tpmsimtest.Open(t)
//		...
//	}
package tpmsimtest

import (
	"errors"
	"os"
	"testing"

	"example.org/tpmsim"
)

// Open makes a TPM with these options, as tpmsim.Open does, and closes it when the test and its
// subtests end. If the test failed, the TPM's log is then written to a file in the folder for
// temporary files, and the test's output names this file: tpmsim-explain reads it.
func Open(t testing.TB, options ...tpmsim.Option) *tpmsim.TPM {
	t.Helper()
	tpm, err := tpmsim.Open(options...)
	if err == nil {
		err = tpm.BeginLog()
	}
	if err != nil {
		t.Fatal(err)
	}
	t.Cleanup(func() { end(t, tpm) })
	return tpm
}

// end writes the log of a test that failed, and closes the TPM, unless the test has closed it.
func end(t testing.TB, tpm *tpmsim.TPM) {
	if t.Failed() {
		keepLog(t, tpm.Log())
	}
	if err := tpm.Close(); err != nil && !errors.Is(err, os.ErrClosed) {
		t.Error(err)
	}
}

func keepLog(t testing.TB, text string) {
	file, err := os.CreateTemp("", "tpmsim-*.log")
	if err != nil {
		t.Logf("the TPM's log is not written: %v", err)
		return
	}
	defer file.Close()
	if _, err := file.WriteString(text); err != nil {
		t.Logf("the TPM's log is not written: %v", err)
		return
	}
	t.Logf("tpmsim-explain %s says why the TPM refused commands", file.Name())
}
