// A caller of the Go module that logs what it executes, and prints the log. The completing layer
// answers two commands.
package main

import (
	"fmt"

	"example.org/tpmsim"
)

func main() {
	tpm, err := tpmsim.Open(tpmsim.WithSeed([]byte("mine")), tpmsim.WithCompletion())
	if err != nil {
		panic(err)
	}
	if err := tpm.BeginLog(); err != nil {
		panic(err)
	}
	for _, command := range [][]byte{
		{0x80, 1, 0, 0, 0, 12, 0, 0, 1, 0x7b, 0, 16},       // GetRandom
		{0x80, 1, 0, 0, 0, 13, 0, 0, 1, 0x46, 0, 1, 7},     // StirRandom
		{0x80, 1, 0, 0, 0, 14, 0, 0, 1, 0x86, 0, 0, 0, 11}, // HashSequenceStart
	} {
		if _, err := tpm.Execute(command); err != nil {
			panic(err)
		}
	}
	fmt.Print(tpm.Log())
}
