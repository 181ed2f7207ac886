//go:build linux && cgo && (amd64 || arm64)

// Package tpmsim is a TPM 2.0 in your process, for tests.
//
//	tpm, err := tpmsim.Open()
//	if err != nil {
//		return err
//	}
//	defer tpm.Close()
//	response, err := tpm.Send(command)
//
// A TPM is implemented by libtpmsim, which is linked statically, and proved to respond as its
// specification requires. Each test has its own TPM: TPMs share no file, lock or variable. A TPM
// has the methods of go-tpm's transport.TPMCloser, and of the simulator of go-tpm-tools.
//
// The package needs cgo, and Linux on amd64 or arm64. CGO_LDFLAGS=-LFOLDER selects another folder
// with libtpmsim.a.
package tpmsim

import (
	"errors"
	"fmt"
	"os"
	"runtime"
	"sync"
	"time"
)

// The errors of this package. The error of a call wraps one of these, or is a *Refusal.
var (
	ErrMemory   = errors.New("tpmsim: there is no memory for a device")
	ErrRandom   = errors.New("tpmsim: the system has no random bytes")
	ErrImage    = errors.New("tpmsim: the bytes are no image")
	ErrState    = errors.New("tpmsim: the bytes are no state text")
	ErrLocality = errors.New("tpmsim: a locality is 0 to 4")
	ErrWait     = errors.New("tpmsim: 0 to 4294967295 milliseconds pass before a command")
	ErrVersion  = errors.New("tpmsim: the library is of another version than the module")
	ErrClosed   = fmt.Errorf("tpmsim: %w", os.ErrClosed)
)

// TPM2_Startup(CLEAR) and TPM2_Shutdown(CLEAR).
var (
	startup  = []byte{0x80, 1, 0, 0, 0, 12, 0, 0, 1, 0x44, 0, 0}
	shutdown = []byte{0x80, 1, 0, 0, 0, 12, 0, 0, 1, 0x45, 0, 0}
)

const (
	initialize   = Code(0x100)
	lastLocality = 4
	lastWait     = 1<<32 - 1
)

// A TPM is a device in this process. Several goroutines may use it: their commands are executed one
// after another.
type TPM struct {
	lock      sync.Mutex
	native    native
	source    source
	completes bool
	starts    bool
	locality  uint8
	elapsed   uint32
	log       *log
	response  []byte // what Read has not read yet
}

// An Option is an argument of Open.
type Option func(*opening)

type opening struct {
	tpm   *TPM
	seed  []byte
	image []byte
}

// WithSeed derives all secrets and random bytes of the TPM from a seed, so that they are the same
// in each run. In Python and Rust, the same seed results in the same device.
func WithSeed(seed []byte) Option {
	return func(it *opening) { it.seed = append([]byte{}, seed...) }
}

// WithImage opens the device from an image that Save made, in the state after a power cycle.
func WithImage(image []byte) Option {
	return func(it *opening) { it.image = append([]byte{}, image...) }
}

// WithoutStartup leaves TPM2_Startup to the caller after each power-on.
func WithoutStartup() Option {
	return func(it *opening) { it.tpm.starts = false }
}

// WithCompletion puts the completing layer above the device. The layer answers commands on saved
// contexts, and other commands that the device, by design, does not support.
func WithCompletion() Option {
	return func(it *opening) { it.tpm.completes = true }
}

// Open makes a new TPM, and executes TPM2_Startup(CLEAR).
func Open(options ...Option) (*TPM, error) {
	it := opening{tpm: &TPM{starts: true}}
	for _, option := range options {
		option(&it)
	}
	it.tpm.source = source{seed: it.seed, seeded: it.seed != nil}
	if err := it.tpm.begin(it.image); err != nil {
		return nil, err
	}
	runtime.SetFinalizer(it.tpm, func(tpm *TPM) { tpm.native.free() })
	return it.tpm, nil
}

// begin makes the device, from an image if there is one.
func (tpm *TPM) begin(image []byte) error {
	if !isOfHeader() {
		return ErrVersion
	}
	if err := tpm.source.begin(); err != nil {
		return err
	}
	if image != nil {
		if err := tpm.native.open(image); err != nil {
			return err
		}
	} else if err := tpm.manufacture(); err != nil {
		return err
	}
	return tpm.started()
}

func (tpm *TPM) manufacture() error {
	random, err := tpm.source.ofNewDevice()
	if err != nil {
		return err
	}
	return tpm.native.manufacture(random)
}

// started executes TPM2_Startup(CLEAR), unless the option WithoutStartup is set.
func (tpm *TPM) started() error {
	if !tpm.starts {
		return nil
	}
	_, err := tpm.accepted(startup)
	return err
}

// execute executes a command, and replaces the random bytes that it drew. The caller must hold the
// lock.
func (tpm *TPM) execute(command []byte) (outcome, error) {
	if !tpm.native.isThere() {
		return outcome{}, ErrClosed
	}
	random := tpm.source.next()
	told := tpm.native.execute(command, tpm.locality, tpm.elapsed, random, tpm.completes)
	tpm.elapsed = 0
	if tpm.log != nil {
		tpm.log.command(tpm.completes, command, random[:told.drawn], told.response)
	}
	if err := tpm.source.renew(told.drawn); err != nil {
		tpm.native.free() // so that no random bytes are drawn twice
		return outcome{}, err
	}
	return told, nil
}

// accepted executes a command, and returns the bytes after the header of the response, or the
// refusal. The caller must hold the lock.
func (tpm *TPM) accepted(command []byte) ([]byte, error) {
	told, err := tpm.execute(command)
	if err != nil {
		return nil, err
	}
	if code := CodeOf(told.response); code != Success {
		if told.command == 0 && len(command) >= headerBytes {
			told.command = uint32(CodeOf(command)) // the two codes are at the same offset
		}
		return nil, &Refusal{told.command, code, told.check}
	}
	return told.response[headerBytes:], nil
}

// Send executes a command, whatever its bytes are, and returns the response. A refused command also
// has a response.
func (tpm *TPM) Send(command []byte) ([]byte, error) {
	tpm.lock.Lock()
	defer tpm.lock.Unlock()
	told, err := tpm.execute(command)
	return told.response, err
}

// Execute executes a command, and returns the bytes after the header of the response. If the
// command is refused, the error is a *Refusal.
func (tpm *TPM) Execute(command []byte) ([]byte, error) {
	tpm.lock.Lock()
	defer tpm.lock.Unlock()
	return tpm.accepted(command)
}

// Write executes a command, as a write to the file /dev/tpm0 does; Read then reads its response.
func (tpm *TPM) Write(command []byte) (int, error) {
	tpm.lock.Lock()
	defer tpm.lock.Unlock()
	told, err := tpm.execute(command)
	if err != nil {
		return 0, err
	}
	tpm.response = told.response
	return len(command), nil
}

// Close frees the device.
func (tpm *TPM) Close() error {
	tpm.lock.Lock()
	defer tpm.lock.Unlock()
	if !tpm.native.isThere() {
		return ErrClosed
	}
	tpm.native.free()
	return nil
}

// IsClosed reports whether Close was called.
func (tpm *TPM) IsClosed() bool {
	tpm.lock.Lock()
	defer tpm.lock.Unlock()
	return !tpm.native.isThere()
}

// Reset restarts the TPM as a reboot of its computer would: TPM2_Shutdown(CLEAR) if it is started,
// a power cycle, and TPM2_Startup(CLEAR).
func (tpm *TPM) Reset() error {
	return tpm.restart((*TPM).cycle)
}

// ManufactureReset restarts with a new device. If there is a seed, the new device is the same as
// the first one.
func (tpm *TPM) ManufactureReset() error {
	return tpm.restart(func(tpm *TPM) error {
		if err := tpm.manufacture(); err != nil {
			return err
		}
		return tpm.logAnew()
	})
}

func (tpm *TPM) restart(act func(*TPM) error) error {
	tpm.lock.Lock()
	defer tpm.lock.Unlock()
	var refusal *Refusal
	_, err := tpm.accepted(shutdown)
	if errors.As(err, &refusal) && refusal.Code == initialize {
		err = nil
	}
	if err == nil {
		err = act(tpm)
	}
	if err == nil {
		err = tpm.started()
	}
	return err
}

func (tpm *TPM) cycle() error {
	if !tpm.native.isThere() {
		return ErrClosed
	}
	tpm.native.powerCycle()
	tpm.logged("power")
	return nil
}

// PowerCycle power-cycles the device without TPM2_Shutdown. The device then expects TPM2_Startup.
func (tpm *TPM) PowerCycle() error {
	tpm.lock.Lock()
	defer tpm.lock.Unlock()
	return tpm.cycle()
}

// SetLocality sets the locality of the next commands, 0 to 4. At first the locality is 0.
func (tpm *TPM) SetLocality(locality int) error {
	tpm.lock.Lock()
	defer tpm.lock.Unlock()
	if locality < 0 || locality > lastLocality {
		return ErrLocality
	}
	tpm.locality = uint8(locality)
	tpm.logged(fmt.Sprintf("loc %d", locality))
	return nil
}

// Wait lets time pass before the next command, in whole milliseconds. The call returns at once: it
// only advances the device's time.
func (tpm *TPM) Wait(duration time.Duration) error {
	tpm.lock.Lock()
	defer tpm.lock.Unlock()
	milliseconds := duration.Milliseconds()
	if milliseconds < 0 || milliseconds > lastWait-int64(tpm.elapsed) {
		return ErrWait
	}
	tpm.elapsed += uint32(milliseconds)
	tpm.logged(fmt.Sprintf("wait %d", milliseconds))
	return nil
}

// Save returns the image, which contains everything that the device keeps while it has no power.
// WithImage opens it.
func (tpm *TPM) Save() ([]byte, error) {
	return tpm.written((*native).image)
}

// Snapshot returns the state text: the whole state, with sessions, objects, PCRs and times. It
// contains all secrets in plain text. It does not contain the locality, nor the time that has
// elapsed since the last command.
func (tpm *TPM) Snapshot() ([]byte, error) {
	return tpm.written((*native).stateText)
}

func (tpm *TPM) written(text func(*native) []byte) ([]byte, error) {
	tpm.lock.Lock()
	defer tpm.lock.Unlock()
	if !tpm.native.isThere() {
		return nil, ErrClosed
	}
	return text(&tpm.native), nil
}

// Restore replaces the state with that in a state text, which may come from any device in any
// process. If the bytes are not a state text, nothing changes. The log restarts.
func (tpm *TPM) Restore(text []byte) error {
	tpm.lock.Lock()
	defer tpm.lock.Unlock()
	if !tpm.native.isThere() {
		return ErrClosed
	}
	if err := tpm.native.restore(text); err != nil {
		return err
	}
	tpm.elapsed = 0
	return tpm.logAnew()
}
