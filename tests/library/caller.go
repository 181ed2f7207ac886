// A caller in Go, through cgo. Go's memory contains the handle, which contains only a pointer to
// C's memory.
package main

// #include "tpmsim.h"
import "C"

import (
	"errors"
	"fmt"
)

type Device struct{ holder C.struct_tpmsim }

func New(random *[256]C.uint8_t) (*Device, error) {
	device := new(Device)
	if C.tpmsim_manufacture(&device.holder, &random[0]) != C.TPMSIM_DONE {
		return nil, errors.New("no memory")
	}
	return device, nil
}

func (device *Device) Execute(buffer []C.uint8_t, random *[256]C.uint8_t) ([]C.uint8_t, error) {
	var answered C.struct_tpmsim_answered
	response := make([]C.uint8_t, 4096)
	if C.tpmsim_execute(&device.holder, &buffer[0], C.size_t(len(buffer)), 0, 0, &random[0],
		&response[0], &answered) != C.TPMSIM_DONE {
		return nil, errors.New("no device")
	}
	return response[:answered.size], nil
}

func (device *Device) Close() { C.tpmsim_free(&device.holder) }

func main() {
	var random [256]C.uint8_t
	for i := range random {
		random[i] = C.uint8_t(i)
	}
	device, err := New(&random)
	if err != nil {
		panic(err)
	}
	device.Execute([]C.uint8_t{0x80, 1, 0, 0, 0, 12, 0, 0, 1, 0x44, 0, 0}, &random)
	response, _ := device.Execute([]C.uint8_t{0x80, 1, 0, 0, 0, 12, 0, 0, 1, 0x7b, 0, 4}, &random)
	for _, it := range response {
		fmt.Printf("%02x", it)
	}
	fmt.Println()
	device.Close()
	_, err = device.Execute([]C.uint8_t{0}, &random)
	fmt.Println(err)
}
