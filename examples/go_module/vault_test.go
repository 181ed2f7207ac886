package vault

import (
	"bytes"
	"testing"

	"example.org/tpmsim"
	"example.org/tpmsim/tpmsimtest"
)

func TestNewBytes(t *testing.T) {
	tpm := tpmsimtest.Open(t)
	first, err := RandomBytes(tpm, 16)
	if err != nil {
		t.Fatal(err)
	}
	second, err := RandomBytes(tpm, 16)
	if err != nil || len(second) != 16 || bytes.Equal(first, second) {
		t.Fatal(second, err)
	}
}

func TestNotStarted(t *testing.T) {
	if _, err := RandomBytes(tpmsimtest.Open(t, tpmsim.WithoutStartup()), 16); err == nil {
		t.Fatal("a device that is not started answers")
	}
}

func TestSeed(t *testing.T) {
	seed := tpmsim.WithSeed([]byte("mine"))
	first, _ := RandomBytes(tpmsimtest.Open(t, seed), 16)
	second, _ := RandomBytes(tpmsimtest.Open(t, seed), 16)
	if !bytes.Equal(first, second) {
		t.Fatal("a seed draws other bytes")
	}
}
