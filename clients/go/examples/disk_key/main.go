// A disk's key is sealed to PCRs 7 and 11 and a PIN. After PCR 11 has changed, the TPM no longer
// releases it. The second branch of its policy, which requires the owner's passphrase, recovers it.
package main

import (
	"example.org/tpmsim"
	. "example.org/tpmsim/examples/commands"
)

const (
	diskKey    = "the key of a disk, of 32 bytes.."
	pin        = "7391"
	passphrase = "kept in a drawer"
)

// byPIN satisfies the first branch: the current values of the PCRs, and the PIN.
func byPIN(tpm *tpmsim.TPM, session uint32) error {
	_, err := Send(tpm, 0x17f, []uint32{session}, nil, []byte{0, 0}, Selection(7, 11))
	if err == nil {
		_, err = Send(tpm, 0x18c, []uint32{session}, nil)
	}
	return err
}

// byPassphrase satisfies the second branch: TPM2_PolicySecret with the owner's passphrase.
func byPassphrase(tpm *tpmsim.TPM, session uint32, passphrase string) error {
	_, err := Send(tpm, 0x151, []uint32{Owner, session}, Password(passphrase), make([]byte, 10))
	return err
}

// either executes TPM2_PolicyOR with the branches.
func either(tpm *tpmsim.TPM, session uint32, branches [2][]byte) error {
	digests := Join(Number(2), Sized(branches[0]), Sized(branches[1]))
	_, err := Send(tpm, 0x171, []uint32{session}, nil, digests)
	return err
}

// opened returns the disk's key if one of the branches is satisfied, or the reason for the refusal.
func opened(tpm *tpmsim.TPM, disk uint32, branches [2][]byte, pin, passphrase string) (string, error) {
	session := StartSession(tpm, Policy)
	defer Flush(tpm, session)
	if err := byPIN(tpm, session); err != nil {
		return "", err
	}
	if either(tpm, session, branches) == nil {
		return Unseal(tpm, disk, ByPolicy(session, pin))
	}
	Must(tpm, 0x180, []uint32{session}, nil) // TPM2_PolicyRestart
	if err := byPassphrase(tpm, session, passphrase); err != nil {
		return "", err
	}
	if err := either(tpm, session, branches); err != nil {
		return "", err
	}
	return Unseal(tpm, disk, ByPolicy(session, ""))
}

func main() {
	tpm := Open()
	defer tpm.Close()
	Must(tpm, 0x129, []uint32{Owner}, Password(""), Sized([]byte(passphrase)))
	Measure(tpm, 7, "secure boot is on")
	Measure(tpm, 11, "kernel and initrd")
	branches := [2][]byte{
		DigestOf(tpm, func(trial uint32) error { return byPIN(tpm, trial) }),
		DigestOf(tpm, func(trial uint32) error { return byPassphrase(tpm, trial, passphrase) }),
	}
	policy := DigestOf(tpm, func(trial uint32) error { return either(tpm, trial, branches) })

	disk := Sealed(tpm, StorageKey(tpm, passphrase), pin, policy, diskKey)
	key, err := opened(tpm, disk, branches, pin, "")
	Tell("With the PIN", key, err)
	key, err = opened(tpm, disk, branches, "1234", "")
	Tell("With another PIN", key, err)

	Measure(tpm, 11, "the system is started")
	key, err = opened(tpm, disk, branches, pin, "a guess")
	Tell("After PCR 11 moved on", key, err)
	key, err = opened(tpm, disk, branches, pin, passphrase)
	Tell("With the passphrase", key, err)
}
