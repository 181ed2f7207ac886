package tpmsim

import (
	"encoding/binary"
	"fmt"
	"math/bits"
)

// headerBytes is the size of the header of a response: tag, size and code.
const headerBytes = 10

// A Code is a response code, TPM_RC.
type Code uint32

// Success is the code of a command that was accepted.
const Success = Code(0)

// noSuchCommand is the number of the check that refuses commands which the TPM does not have.
const noSuchCommand = 4

// CodeOf returns the code of a response of at least 10 bytes.
func CodeOf(response []byte) Code {
	return Code(binary.BigEndian.Uint32(response[headerBytes-4 : headerBytes]))
}

// Place returns the parameter, handle or session to which a code refers, such as p1, h2 or s1, or
// an empty string.
func (code Code) Place() string {
	number := uint32(code) >> 8 & 0xf
	switch {
	case code&0x080 == 0 || code>>8 == 0:
		return ""
	case code&0x040 != 0:
		return fmt.Sprintf("p%d", number)
	case number&8 != 0:
		return fmt.Sprintf("s%d", number-8)
	default:
		return fmt.Sprintf("h%d", number)
	}
}

// Name returns the code's name without the parameter, handle or session, such as AUTH_FAIL. The
// name is empty for a code that this device never returns.
func (code Code) Name() string {
	if code == Success {
		return "SUCCESS"
	}
	if code.Place() != "" {
		code &= 0x0bf
	}
	return codes[code]
}

// String returns a code as text, such as AUTH_FAIL/s1 (98E).
func (code Code) String() string {
	name, place := code.Name(), code.Place()
	if name == "" {
		name = "unknown"
	}
	if place != "" {
		name += "/" + place
	}
	if code == Success {
		return name
	}
	return fmt.Sprintf("%s (%03X)", name, uint32(code))
}

// A Refusal is the error of a command that the TPM refused.
type Refusal struct {
	Command uint32 // TPM_CC, also of a command that the TPM does not have; 0 if there is none
	Code    Code
	check   uint8
}

// Check returns the name of the check that refused the command, such as G9. Traces and docs/table
// use the same names.
func (it *Refusal) Check() string {
	switch {
	case it.check == 255:
		return "M"
	case it.check > 20:
		return fmt.Sprintf("A%d", it.check-20)
	default:
		return fmt.Sprintf("G%d", it.check)
	}
}

// Error returns what was refused and why, such as "GetRandom: INITIALIZE (100), by G5".
func (it *Refusal) Error() string {
	name, known := commands[it.Command]
	if !known {
		name = "unknown command"
	}
	if it.check == noSuchCommand {
		name = fmt.Sprintf("%s (%X): %s", name, it.Command, missing(it.Command))
	}
	return fmt.Sprintf("%s: %v, by %s", name, it.Code, it.Check())
}

// missing says that the TPM has no command with this code, or whose bytes are in the other order.
func missing(command uint32) string {
	if turned, known := commands[bits.ReverseBytes32(command)]; known {
		return "its bytes in the other order are " + turned
	}
	return "tpmsim has no such command"
}
