// A caller in Go that calls the C library, and logs what it executes:
//
//	explained LOG
//
// The completing layer answers two commands. The last command reads an index that nobody has written.
package main

// #include "tpmsim.h"
import "C"

import (
	"encoding/hex"
	"fmt"
	"io"
	"os"
	"strings"
	"unsafe"
)

// logCommand adds a command, which tpmsim_complete executed if completes is true: the random bytes that it
// drew, the command, and its response.
func logCommand(log io.Writer, completes bool, buffer, drawn, response []byte) {
	if completes {
		fmt.Fprintln(log, "# completed")
	}
	if len(drawn) > 0 {
		fmt.Fprintf(log, "entropy %x\n", drawn)
	}
	fmt.Fprintf(log, "cmd %x\n# %x\n", buffer, response)
}

func bytes(text string) []byte {
	found, err := hex.DecodeString(strings.ReplaceAll(text, " ", ""))
	if err != nil {
		panic(err)
	}
	return found
}

func pointer(bytes []byte) *C.uint8_t { return (*C.uint8_t)(unsafe.Pointer(&bytes[0])) }

func main() {
	log, err := os.Create(os.Args[1])
	if err != nil {
		panic(err)
	}
	var holder C.struct_tpmsim
	random, image, response := make([]byte, 256), make([]byte, 28361), make([]byte, 4096)
	for i := range random {
		random[i] = byte(i + 1)
	}
	if C.tpmsim_manufacture(&holder, pointer(random)) != C.TPMSIM_DONE {
		panic("no memory")
	}
	size := C.tpmsim_save(&holder, pointer(image), C.size_t(len(image)))
	fmt.Fprintf(log, "# image %x\n", image[:size])
	for _, it := range []struct {
		completes bool
		command   string
	}{
		{false, "8001 0000000c 00000144 0000"},
		{true, "8001 0000000c 0000017b 0010"},
		{true, "8001 0000000d 00000146 0001 07"},
		{true, "8001 0000000e 00000186 0000 000b"},
		{false, "8001 0000000d 00000146 0001 07"},
		{false, "8002 0000002d 0000012a 40000001 00000009 40000009 0000 00 0000 0000 " +
			"000e 01000001 000b 00020002 0000 0008"},
		{false, "8002 00000023 0000014e 40000001 01000001 00000009 40000009 0000 00 0000 0008 0000"},
	} {
		var told C.struct_tpmsim_answered
		buffer := bytes(it.command)
		at, size := pointer(buffer), C.size_t(len(buffer))
		if it.completes {
			C.tpmsim_complete(&holder, at, size, 0, 0, pointer(random), pointer(response), &told)
		} else {
			C.tpmsim_execute(&holder, at, size, 0, 0, pointer(random), pointer(response), &told)
		}
		logCommand(log, it.completes, buffer, random[:told.drawn], response[:told.size])
		fmt.Printf("%08x by %d: %x\n", told.code, told.check, response[8:10])
	}
	C.tpmsim_free(&holder)
	log.Close()
}
