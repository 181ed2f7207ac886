package commands

import (
	"crypto/aes"
	"crypto/cipher"
	"crypto/hmac"
	"crypto/rand"
	"crypto/sha256"
	"errors"
	"log"

	"example.org/tpmsim"
)

// Attributes of a session: the device decrypts the first parameter of the command, or encrypts the
// first parameter of the response.
const (
	Decrypt = 0x20
	Encrypt = 0x40
)

const continues = 1

// A Session computes HMACs, is bound to the entity that it authorizes, and encrypts with AES-128 in
// CFB mode.
type Session struct {
	handle                uint32
	key                   []byte
	nonceTPM, nonceCaller []byte
	value                 []byte
}

// SHA256 returns the digest of a text.
func SHA256(text []byte) []byte {
	digest := sha256.Sum256(text)
	return digest[:]
}

func mac(key []byte, texts ...[]byte) []byte {
	mac := hmac.New(sha256.New, key)
	mac.Write(Join(texts...))
	return mac.Sum(nil)
}

// kdfa derives 256 bits from a key and two nonces.
func kdfa(key []byte, label string, newer, older []byte) []byte {
	return mac(key, Number(1), []byte(label), []byte{0}, newer, older, Number(256))
}

func newNonce() []byte {
	nonce := make([]byte, 16)
	if _, err := rand.Read(nonce); err != nil {
		log.Fatal(err)
	}
	return nonce
}

// StartBound starts a session that is bound to a handle with this authorization value.
func StartBound(tpm *tpmsim.TPM, bind uint32, value string) *Session {
	nonce := newNonce()
	parameters := Join(Sized(nonce), []byte{0, 0, 0, 0, 6, 0, 0x80, 0, 0x43, 0, 0x0b})
	answer := Must(tpm, 0x176, []uint32{Null, bind}, nil, parameters)
	it := &Session{handle: answer.Handle, nonceTPM: answer.Buffer(), value: []byte(value)}
	it.key = kdfa(it.value, "ATH", it.nonceTPM, nonce)
	return it
}

// stream returns a cipher stream that encrypts or decrypts, with keys derived from two nonces.
func (it *Session) stream(make func(cipher.Block, []byte) cipher.Stream, newer, older []byte) cipher.Stream {
	both := kdfa(Join(it.key, it.value), "CFB", newer, older)
	block, err := aes.NewCipher(both[:16])
	if err != nil {
		log.Fatal(err)
	}
	return make(block, both[16:])
}

// Entry returns the authorization entry of a command whose handles have these Names, and the
// command's parameters. If the attributes request it, the first parameter is encrypted.
func (it *Session) Entry(code uint32, names, parameters []byte, attributes byte) (*By, []byte) {
	it.nonceCaller = newNonce()
	parameters = Join(parameters)
	if attributes&Decrypt != 0 {
		data, _ := Front(parameters)
		it.stream(cipher.NewCFBEncrypter, it.nonceCaller, it.nonceTPM).XORKeyStream(data, data)
	}
	attributes |= continues
	cpHash := SHA256(Join(Number(code), names, parameters))
	hmac := mac(it.key, cpHash, it.nonceCaller, it.nonceTPM, []byte{attributes})
	return &By{it.handle, it.nonceCaller, attributes, hmac}, parameters
}

// Answered checks that the response came from the device, and returns the decrypted parameters.
func (it *Session) Answered(code uint32, by *By, answer *Answer) ([]byte, error) {
	nonce, after := Front(answer.Entry)
	given, _ := Front(after[1:])
	rpHash := SHA256(Join(Number(0), Number(code), answer.Parameters))
	if !hmac.Equal(given, mac(it.key, rpHash, nonce, it.nonceCaller, after[:1])) {
		return nil, errors.New("the response is not the TPM's")
	}
	it.nonceTPM = append([]byte{}, nonce...)
	parameters := Join(answer.Parameters)
	if by.Attributes&Encrypt != 0 {
		data, _ := Front(parameters)
		it.stream(cipher.NewCFBDecrypter, it.nonceTPM, it.nonceCaller).XORKeyStream(data, data)
	}
	return parameters, nil
}
