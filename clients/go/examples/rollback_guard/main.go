// A counter contains the lowest version that may be started. A key that is sealed for a version is
// released as long as the counter does not exceed that version. The counter never decreases, even
// if its index is deleted and defined again.
package main

import (
	"encoding/binary"
	"fmt"
	"log"

	"example.org/tpmsim"
	. "example.org/tpmsim/examples/commands"
)

// The attributes of a counter that is written and read with its own authorization value or with the
// owner's.
const counter = 0x00060016

const key = "the key of this version."

func increment(tpm *tpmsim.TPM) { Must(tpm, 0x134, []uint32{Index, Index}, Password("")) }

func lowest(tpm *tpmsim.TPM) uint64 {
	data, err := Read(tpm, "")
	if err != nil {
		log.Fatal(err)
	}
	return binary.BigEndian.Uint64(data)
}

// atMost executes TPM2_PolicyNV: the counter is at most this version.
func atMost(tpm *tpmsim.TPM, session uint32, version uint64) error {
	operand := Sized(binary.BigEndian.AppendUint64(nil, version))
	handles := []uint32{Index, Index, session}
	_, err := Send(tpm, 0x149, handles, Password(""), operand, []byte{0, 0, 0, 9})
	return err
}

// keyOf returns the key that is sealed for a version, or the reason for the refusal.
func keyOf(tpm *tpmsim.TPM, version uint64) (string, error) {
	policy := DigestOf(tpm, func(trial uint32) error { return atMost(tpm, trial, version) })
	parent := StorageKey(tpm, "")
	handle := Sealed(tpm, parent, "", policy, key)
	session := StartSession(tpm, Policy)
	defer Flush(tpm, session, handle, parent)
	if err := atMost(tpm, session, version); err != nil {
		return "", err
	}
	return Unseal(tpm, handle, ByPolicy(session, ""))
}

func tell(tpm *tpmsim.TPM, what string, version uint64) {
	key, err := keyOf(tpm, version)
	Tell(what, key, err)
}

func main() {
	tpm := Open()
	defer tpm.Close()
	Define(tpm, counter, "")
	increment(tpm)
	first := lowest(tpm)
	tell(tpm, "Version 1", first)
	increment(tpm)
	fmt.Println("The counter went up by", lowest(tpm)-first)
	tell(tpm, "Version 1", first)
	tell(tpm, "Version 2", first+1)

	if err := tpm.Reset(); err != nil {
		log.Fatal(err)
	}
	tell(tpm, "After a power cycle, version 1", first)
	Must(tpm, 0x122, []uint32{Owner, Index}, Password(""))
	Define(tpm, counter, "")
	increment(tpm)
	fmt.Println("Defined anew it went up by", lowest(tpm)-first)
}
