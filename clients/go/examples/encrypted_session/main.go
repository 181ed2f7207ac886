// A secret is sent to the TPM in encrypted form. The session is bound to the owner, whose
// authorization value is not sent at all. An eavesdropper learns neither the secret nor this value,
// and cannot replay the commands.
package main

import (
	"bytes"
	"errors"
	"fmt"
	"log"

	"example.org/tpmsim"
	. "example.org/tpmsim/examples/commands"
)

const (
	secret = "a secret of 24 bytes, ok"
	owner  = "the owner's value"

	// The attributes of an NV index that the owner writes and reads, and the attribute that the
	// device adds when the index is written.
	byOwner = 0x0002_0002
	written = 0x2000_0000
)

// heard contains everything that was sent to and from the TPM, and last contains the last command.
var heard, last []byte

func wasHeard(what string) string {
	if bytes.Contains(heard, []byte(what)) {
		return "heard"
	}
	return "not heard"
}

// area returns the public area of the index, with the additional attributes more.
func area(more uint32) []byte {
	return Join(Number(Index), []byte{0, 0x0b}, Number(byOwner|more), []byte{0, 0, 0, byte(len(secret))})
}

// names returns the Names of the owner and of the index, which are part of cpHash.
func names(more uint32) []byte {
	return Join(Number(Owner), []byte{0, 0x0b}, SHA256(area(more)))
}

// send sends a command that the owner authorizes, and records the traffic.
func send(tpm *tpmsim.TPM, session *Session, code uint32, handles []uint32, names, parameters []byte,
	attributes byte) ([]byte, error) {
	by, parameters := session.Entry(code, names, parameters, attributes)
	last = Command(code, handles, by, parameters)
	rest, err := tpm.Execute(last)
	heard = Join(heard, last, rest)
	if err != nil {
		return nil, err
	}
	return session.Answered(code, by, AnswerOf(code, true, rest))
}

// read reads the secret, which is encrypted in the response.
func read(tpm *tpmsim.TPM, session *Session) (string, error) {
	sizes := []byte{0, byte(len(secret)), 0, 0}
	data, err := send(tpm, session, 0x14e, []uint32{Owner, Index}, names(written), sizes, Encrypt)
	if err != nil {
		return "", err
	}
	data, _ = Front(data)
	return string(data), nil
}

func main() {
	tpm := Open()
	defer tpm.Close()
	Must(tpm, 0x129, []uint32{Owner}, Password(""), Sized([]byte(owner)))

	session := StartBound(tpm, Owner, owner)
	index := Join(Sized(nil), Sized(area(0)))
	if _, err := send(tpm, session, 0x12a, []uint32{Owner}, Number(Owner), index, 0); err != nil {
		log.Fatal(err)
	}
	data := Join(Sized([]byte(secret)), []byte{0, 0})
	if _, err := send(tpm, session, 0x137, []uint32{Owner, Index}, names(0), data, Decrypt); err != nil {
		log.Fatal(err)
	}
	came, err := read(tpm, session)
	Tell("Read", came, err)
	fmt.Println("The secret was", wasHeard(secret))
	fmt.Println("The owner's value was", wasHeard(owner))
	_, err = tpm.Execute(last)
	var refusal *tpmsim.Refusal
	if errors.As(err, &refusal) {
		fmt.Println("Sent again: refused by", refusal.Check())
	}

	came, err = read(tpm, StartBound(tpm, Owner, "a guess"))
	Tell("By a guess", came, err)
}
