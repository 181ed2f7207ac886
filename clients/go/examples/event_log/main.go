// A measured boot: each piece of software is measured into a PCR before it runs, and its digest is
// logged. A verifier that gets the log and the PCR values replays the log, and trusts it if the
// values are the same.
package main

import (
	"bytes"
	"crypto/sha256"
	"fmt"
	"strings"

	"example.org/tpmsim"
	. "example.org/tpmsim/examples/commands"
)

type measurement struct {
	pcr    uint32
	digest []byte
}

var boot = []struct {
	pcr  uint32
	data string
}{
	{0, "firmware 1.0"},
	{7, "secure boot is on"},
	{4, "boot loader"},
	{11, "kernel and initrd"},
	{11, "enter-initrd"},
}

var pcrs = []int{0, 4, 7, 11}

// measured boots the TPM, and returns the log.
func measured(tpm *tpmsim.TPM) (log []measurement) {
	for _, it := range boot {
		log = append(log, measurement{it.pcr, Measure(tpm, it.pcr, it.data)})
	}
	return log
}

// valuesOf returns the values of the PCRs.
func valuesOf(tpm *tpmsim.TPM) map[int][]byte {
	answer := Must(tpm, 0x17e, nil, nil, Selection(pcrs...))
	// The values follow the update counter, the selection and the number of values.
	answer.Parameters = answer.Parameters[4+10+4:]
	values := map[int][]byte{}
	for _, pcr := range pcrs {
		values[pcr] = answer.Buffer()
	}
	return values
}

// replayed returns the values of the PCRs after the measurements in a log.
func replayed(log []measurement) map[int][]byte {
	values := map[int][]byte{}
	for _, pcr := range pcrs {
		values[pcr] = make([]byte, sha256.Size)
	}
	for _, it := range log {
		value := sha256.Sum256(Join(values[int(it.pcr)], it.digest))
		values[int(it.pcr)] = value[:]
	}
	return values
}

// verdict returns a verifier's judgement of a log.
func verdict(log []measurement, values map[int][]byte) string {
	var wrong []string
	for _, pcr := range pcrs {
		if !bytes.Equal(replayed(log)[pcr], values[pcr]) {
			wrong = append(wrong, fmt.Sprint(pcr))
		}
	}
	if wrong == nil {
		return "the PCRs are those of the log"
	}
	return fmt.Sprintf("PCR %s differ", strings.Join(wrong, ", "))
}

func main() {
	tpm := Open()
	defer tpm.Close()
	log := measured(tpm)
	values := valuesOf(tpm)
	fmt.Printf("%d measurements: %s\n", len(log), verdict(log, values))
	shortened := append(append([]measurement{}, log[:2]...), log[3:]...)
	fmt.Println("Without the boot loader's:", verdict(shortened, values))
	turned := append([]measurement{}, log...)
	turned[3], turned[4] = turned[4], turned[3]
	fmt.Println("In another order:", verdict(turned, values))
	other := sha256.Sum256([]byte("firmware 1.1"))
	forged := append([]measurement{{0, other[:]}}, log[1:]...)
	fmt.Println("With another firmware:", verdict(forged, values))
}
