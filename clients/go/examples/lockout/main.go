// Wrong PINs are counted. After three of them the TPM checks no more PINs until an hour of device
// time has passed, or until the lockout is reset with lockoutAuth.
package main

import (
	"log"
	"time"

	"example.org/tpmsim"
	. "example.org/tpmsim/examples/commands"
)

// The attributes of an index that is written and read with its own authorization value.
const byValue = 0x00040004

const (
	pin   = "7391"
	wrong = "1234"
	hour  = 3600
)

// `tell` prints the data of the index for a PIN, or the reason for the refusal.
func tell(tpm *tpmsim.TPM, what, pin string) {
	data, err := Read(tpm, pin)
	Tell(what, string(data), err)
}

func main() {
	tpm := Open()
	defer tpm.Close()
	protection := Join(Number(3), Number(hour), Number(24*hour))
	Must(tpm, 0x13a, []uint32{Lockout}, Password(""), protection)
	Define(tpm, byValue, pin)
	Must(tpm, 0x137, []uint32{Index, Index}, Password(pin), Sized([]byte("the data")), []byte{0, 0})
	tell(tpm, "The right PIN", pin)
	for i := 0; i < 3; i++ {
		tell(tpm, "A wrong one", wrong)
	}
	tell(tpm, "The right PIN", pin)

	if err := tpm.Wait(time.Hour); err != nil {
		log.Fatal(err)
	}
	tell(tpm, "An hour later", pin)
	tell(tpm, "A wrong one", wrong)
	tell(tpm, "The right PIN", pin)
	Must(tpm, 0x139, []uint32{Lockout}, Password(""))
	tell(tpm, "After a reset", pin)
}
