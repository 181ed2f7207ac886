package tpmsimtest_test

import (
	"fmt"
	"os"
	"strings"
	"testing"

	"example.org/tpmsim"
	"example.org/tpmsim/tpmsimtest"
)

// fails is a test that has failed. It collects what Open reports.
type fails struct {
	testing.TB
	cleanups []func()
	said     string
}

func (*fails) Helper()             {}
func (*fails) Failed() bool        { return true }
func (it *fails) Cleanup(f func()) { it.cleanups = append(it.cleanups, f) }
func (it *fails) Logf(format string, those ...interface{}) {
	it.said += fmt.Sprintf(format, those...)
}

func TestATestClosesItsTPM(t *testing.T) {
	var tpm *tpmsim.TPM
	t.Run("inner", func(t *testing.T) {
		tpm = tpmsimtest.Open(t, tpmsim.WithSeed([]byte("mine")))
		if tpm.IsClosed() {
			t.Fatal("it is closed too early")
		}
	})
	if !tpm.IsClosed() {
		t.Fatal("it is open")
	}
	t.Run("closed by the test", func(t *testing.T) {
		if err := tpmsimtest.Open(t).Close(); err != nil {
			t.Fatal(err)
		}
	})
}

func TestAFailedTestKeepsItsLog(t *testing.T) {
	t.Setenv("TMPDIR", t.TempDir())
	failed := &fails{TB: t}
	tpm := tpmsimtest.Open(failed, tpmsim.WithoutStartup())
	if _, err := tpm.Execute([]byte{0x80, 1, 0, 0, 0, 12, 0, 0, 1, 0x7b, 0, 4}); err == nil {
		t.Fatal("it is not started")
	}
	failed.cleanups[0]()
	path := strings.Fields(failed.said)[1]
	text, err := os.ReadFile(path)
	if err != nil || !strings.Contains(string(text), "\ncmd 80010000000c0000017b0004\n# 80010000000a00000100\n") {
		t.Fatal(failed.said, err)
	}
}
