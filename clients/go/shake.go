//go:build linux && cgo && (amd64 || arm64)

package tpmsim

import "math/bits"

// roundConstants are the round constants of Keccak-f[1600] (FIPS 202).
var roundConstants = [24]uint64{
	0x0000000000000001, 0x0000000000008082, 0x800000000000808a,
	0x8000000080008000, 0x000000000000808b, 0x0000000080000001,
	0x8000000080008081, 0x8000000000008009, 0x000000000000008a,
	0x0000000000000088, 0x0000000080008009, 0x000000008000000a,
	0x000000008000808b, 0x800000000000008b, 0x8000000000008089,
	0x8000000000008003, 0x8000000000008002, 0x8000000000000080,
	0x000000000000800a, 0x800000008000000a, 0x8000000080008081,
	0x8000000000008080, 0x0000000080000001, 0x8000000080008008,
}

// moves contains the steps rho and pi, lane by lane: the target of each lane, and the number of
// bits by which it is rotated.
var moves = [24]struct{ target, bits int }{
	{10, 1}, {7, 3}, {11, 6}, {17, 10}, {18, 15}, {3, 21},
	{5, 28}, {16, 36}, {8, 45}, {21, 55}, {24, 2}, {4, 14},
	{15, 27}, {23, 41}, {19, 56}, {13, 8}, {12, 25}, {2, 43},
	{20, 62}, {14, 18}, {22, 39}, {9, 61}, {6, 20}, {1, 44},
}

// rate is the number of bytes absorbed or squeezed between two permutations.
const rate = 136

type lanes [25]uint64

// mixColumns performs the step theta.
func (it *lanes) mixColumns() {
	var parity [5]uint64
	for at, lane := range it {
		parity[at%5] ^= lane
	}
	for at := range it {
		it[at] ^= parity[(at+4)%5] ^ bits.RotateLeft64(parity[(at+1)%5], 1)
	}
}

// moveLanes performs the steps rho and pi.
func (it *lanes) moveLanes() {
	moved := it[1]
	for _, move := range moves {
		it[move.target], moved = bits.RotateLeft64(moved, move.bits), it[move.target]
	}
}

// mixRows performs the step chi.
func (it *lanes) mixRows() {
	before := *it
	for at := range it {
		row := at - at%5
		it[at] ^= ^before[row+(at+1)%5] & before[row+(at+2)%5]
	}
}

func (it *lanes) permute() {
	for _, constant := range roundConstants {
		it.mixColumns()
		it.moveLanes()
		it.mixRows()
		it[0] ^= constant
	}
}

// add adds a byte to the state at an offset.
func (it *lanes) add(at int, value byte) {
	it[at/8] ^= uint64(value) << (at % 8 * 8)
}

// shake256 returns the first 256 bytes of the SHAKE256 output for a text.
func shake256(text []byte) (out [randomBytes]byte) {
	var state lanes
	for at, value := range text {
		state.add(at%rate, value)
		if at%rate == rate-1 {
			state.permute()
		}
	}
	state.add(len(text)%rate, 0x1f)
	state.add(rate-1, 0x80)
	state.permute()
	for at := range out {
		if at == rate {
			state.permute()
		}
		out[at] = byte(state[at%rate/8] >> (at % 8 * 8))
	}
	return out
}
