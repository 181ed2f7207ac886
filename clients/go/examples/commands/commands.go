// Package commands makes the bytes of the commands that the examples need. A real program would use
// a TPM library.
package commands

import (
	"bytes"
	"encoding/binary"
	"fmt"
	"log"

	"example.org/tpmsim"
)

// Handles, and the kinds of sessions.
const (
	Owner   = 0x40000001
	Null    = 0x40000007
	Lockout = 0x4000000a
	Index   = 0x01000001

	Policy = 1
	Trial  = 3
)

// By is the authorization for a handle: an entry of the authorization area. Value is a password or
// an HMAC.
type By struct {
	Session    uint32
	Nonce      []byte
	Attributes byte
	Value      []byte
}

// Password returns an authorization with a password.
func Password(value string) *By { return &By{Session: 0x40000009, Value: []byte(value)} }

// ByPolicy returns an authorization with a policy session. If the policy requires a password, value
// is that password.
func ByPolicy(session uint32, value string) *By {
	return &By{session, make([]byte, 16), 1, []byte(value)}
}

func (by *By) entry() []byte {
	return Join(Number(by.Session), Sized(by.Nonce), []byte{by.Attributes}, Sized(by.Value))
}

// An Answer is the response to a command. Entry is the entry of its authorization area.
type Answer struct {
	Handle            uint32
	Parameters, Entry []byte
}

// Buffer removes the first sized buffer from the parameters, and returns it.
func (it *Answer) Buffer() (buffer []byte) {
	buffer, it.Parameters = Front(it.Parameters)
	return buffer
}

// Front returns the first sized buffer in some bytes, and the bytes after it.
func Front(rest []byte) (buffer, after []byte) {
	size := 2 + binary.BigEndian.Uint16(rest)
	return rest[2:size], rest[size:]
}

// Join concatenates texts.
func Join(texts ...[]byte) []byte { return bytes.Join(texts, nil) }

// Number encodes a number in four bytes.
func Number(value uint32) []byte { return binary.BigEndian.AppendUint32(nil, value) }

// Sized returns a buffer preceded by its size.
func Sized(buffer []byte) []byte {
	return append(binary.BigEndian.AppendUint16(nil, uint16(len(buffer))), buffer...)
}

// Selection returns a selection of PCRs in the SHA-256 bank.
func Selection(pcrs ...int) []byte {
	bits := make([]byte, 3)
	for _, pcr := range pcrs {
		bits[pcr/8] |= 1 << (pcr % 8)
	}
	return append([]byte{0, 0, 0, 1, 0, 0x0b, 3}, bits...)
}

// Command returns the bytes of a command, with this authorization for its first handle.
func Command(code uint32, handles []uint32, by *By, parameters ...[]byte) []byte {
	var body []byte
	for _, handle := range handles {
		body = append(body, Number(handle)...)
	}
	tag := []byte{0x80, 1}
	if by != nil {
		tag[1] = 2
		body = append(body, Join(Number(uint32(len(by.entry()))), by.entry())...)
	}
	body = append(body, Join(parameters...)...)
	return Join(tag, Number(uint32(10+len(body))), Number(code), body)
}

// Send sends a command, with this authorization for its first handle.
func Send(tpm *tpmsim.TPM, code uint32, handles []uint32, by *By, parameters ...[]byte) (*Answer, error) {
	rest, err := tpm.Execute(Command(code, handles, by, parameters...))
	if err != nil {
		return nil, err
	}
	return AnswerOf(code, by != nil, rest), nil
}

// AnswerOf parses the bytes after the header of a response, with or without entries.
func AnswerOf(code uint32, hasEntries bool, rest []byte) *Answer {
	answer := new(Answer)
	switch code {
	case 0x131, 0x157, 0x176: // CreatePrimary, Load and StartAuthSession return a handle
		answer.Handle, rest = binary.BigEndian.Uint32(rest), rest[4:]
	}
	answer.Parameters = rest
	if hasEntries {
		size := binary.BigEndian.Uint32(rest)
		answer.Parameters, answer.Entry = rest[4:4+size], rest[4+size:]
	}
	return answer
}

// Must sends a command, and ends the program if it is refused.
func Must(tpm *tpmsim.TPM, code uint32, handles []uint32, by *By, parameters ...[]byte) *Answer {
	answer, err := Send(tpm, code, handles, by, parameters...)
	if err != nil {
		log.Fatal(err)
	}
	return answer
}

// StartSession starts a SHA-256 session, neither bound nor salted.
func StartSession(tpm *tpmsim.TPM, kind byte) uint32 {
	parameters := Join(Sized(make([]byte, 16)), []byte{0, 0, kind, 0, 0x10, 0, 0x0b})
	return Must(tpm, 0x176, []uint32{Null, Null}, nil, parameters).Handle
}

// Flush flushes sessions and objects.
func Flush(tpm *tpmsim.TPM, handles ...uint32) {
	for _, handle := range handles {
		Must(tpm, 0x165, nil, nil, Number(handle))
	}
}

// DigestOf returns the policy digest of the assertions that `tell` makes in a trial session. The
// session is then flushed.
func DigestOf(tpm *tpmsim.TPM, tell func(session uint32) error) []byte {
	trial := StartSession(tpm, Trial)
	if err := tell(trial); err != nil {
		log.Fatal(err)
	}
	digest := Must(tpm, 0x189, []uint32{trial}, nil).Buffer()
	Flush(tpm, trial)
	return digest
}

// StorageKey returns an AES storage key in the owner hierarchy. The same template always results in
// the same key.
func StorageKey(tpm *tpmsim.TPM, owner string) uint32 {
	template := []byte{0, 0x25, 0, 0x0b, 0, 3, 4, 0x72, 0, 0, 0, 6, 0, 0x80, 0, 0x43, 0, 0}
	parameters := Join(Sized(make([]byte, 4)), Sized(template), make([]byte, 6))
	return Must(tpm, 0x131, []uint32{Owner}, Password(owner), parameters).Handle
}

// Sealed seals data in a child of a storage key, with an authorization value and a policy, and
// loads the object.
func Sealed(tpm *tpmsim.TPM, parent uint32, value string, policy []byte, data string) uint32 {
	sensitive := Join(Sized([]byte(value)), Sized([]byte(data)))
	public := Join([]byte{0, 8, 0, 0x0b, 0, 0, 0, 0x12}, Sized(policy), []byte{0, 0x10, 0, 0})
	parameters := Join(Sized(sensitive), Sized(public), make([]byte, 6))
	made := Must(tpm, 0x153, []uint32{parent}, Password(""), parameters)
	areas := Join(Sized(made.Buffer()), Sized(made.Buffer()))
	return Must(tpm, 0x157, []uint32{parent}, Password(""), areas).Handle
}

// Unseal returns the data that an object seals.
func Unseal(tpm *tpmsim.TPM, handle uint32, by *By) (string, error) {
	answer, err := Send(tpm, 0x15e, []uint32{handle}, by)
	if err != nil {
		return "", err
	}
	return string(answer.Buffer()), nil
}

// Define defines the NV index of the examples, with these attributes.
func Define(tpm *tpmsim.TPM, attributes uint32, value string) {
	area := Join(Number(Index), []byte{0, 0x0b}, Number(attributes), []byte{0, 0, 0, 8})
	Must(tpm, 0x12a, []uint32{Owner}, Password(""), Sized([]byte(value)), Sized(area))
}

// Read reads the index of the examples.
func Read(tpm *tpmsim.TPM, value string) ([]byte, error) {
	answer, err := Send(tpm, 0x14e, []uint32{Index, Index}, Password(value), []byte{0, 8, 0, 0})
	if err != nil {
		return nil, err
	}
	return answer.Buffer(), nil
}

// Measure measures data into a PCR, and returns the digest for the SHA-256 bank.
func Measure(tpm *tpmsim.TPM, pcr uint32, data string) []byte {
	answer := Must(tpm, 0x13c, []uint32{pcr}, Password(""), Sized([]byte(data)))
	// The SHA-256 digest comes after the number of digests, and after the SHA-1 digest. Each digest
	// is preceded by its algorithm.
	return answer.Parameters[4+2+20+2:][:32]
}

// `Tell` prints a line of an example: the result, or why it was refused.
func Tell(what, came string, err error) {
	if err != nil {
		came = err.Error()
	}
	fmt.Printf("%s: %s\n", what, came)
}

// Open makes a TPM, and ends the program if that fails.
func Open() *tpmsim.TPM {
	tpm, err := tpmsim.Open()
	if err != nil {
		log.Fatal(err)
	}
	return tpm
}
