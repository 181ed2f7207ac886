package tpmsim_test

import (
	"fmt"
	"log"

	"example.org/tpmsim"
)

// TPM2_GetRandom of four bytes.
var getRandom = []byte{0x80, 1, 0, 0, 0, 12, 0, 0, 1, 0x7b, 0, 4}

func Example() {
	tpm, err := tpmsim.Open()
	if err != nil {
		log.Fatal(err)
	}
	defer tpm.Close()
	response, err := tpm.Send(getRandom)
	if err != nil {
		log.Fatal(err)
	}
	fmt.Println(len(response), tpmsim.CodeOf(response))
	// Output: 16 SUCCESS
}

func ExampleWithSeed() {
	for range make([]struct{}, 2) {
		tpm, err := tpmsim.Open(tpmsim.WithSeed([]byte("mine")))
		if err != nil {
			log.Fatal(err)
		}
		drawn, err := tpm.Execute(getRandom)
		fmt.Printf("%x %v\n", drawn[2:], err)
		tpm.Close()
	}
	// Output:
	// b290d2af <nil>
	// b290d2af <nil>
}

func ExampleTPM_Execute() {
	tpm, err := tpmsim.Open(tpmsim.WithoutStartup())
	if err != nil {
		log.Fatal(err)
	}
	defer tpm.Close()
	_, err = tpm.Execute(getRandom)
	fmt.Println(err)
	// Output: GetRandom: INITIALIZE (100), by G5
}

func ExampleTPM_Snapshot() {
	tpm, err := tpmsim.Open()
	if err != nil {
		log.Fatal(err)
	}
	defer tpm.Close()
	before, err := tpm.Snapshot()
	if err != nil {
		log.Fatal(err)
	}
	fmt.Println(tpm.PowerCycle(), tpm.Restore(before))
	_, err = tpm.Execute(getRandom)
	fmt.Println(err)
	// Output:
	// <nil> <nil>
	// <nil>
}
