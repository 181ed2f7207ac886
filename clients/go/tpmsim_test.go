package tpmsim

import (
	"bytes"
	"encoding/binary"
	"encoding/hex"
	"errors"
	"fmt"
	"io"
	"os"
	"runtime"
	"strings"
	"sync"
	"syscall"
	"testing"
	"time"
)

// The interfaces of go-tpm's transport.TPMCloser, and of the simulator of go-tpm-tools.
type tpmCloser interface {
	Send(input []byte) ([]byte, error)
	io.Closer
}

type simulator interface {
	io.ReadWriteCloser
	Reset() error
	ManufactureReset() error
	IsClosed() bool
}

var (
	_ tpmCloser = (*TPM)(nil)
	_ simulator = (*TPM)(nil)
)

func open(t *testing.T, options ...Option) *TPM {
	t.Helper()
	tpm, err := Open(options...)
	if err != nil {
		t.Fatal(err)
	}
	t.Cleanup(func() { tpm.Close() })
	return tpm
}

// command returns a command without sessions. rest contains the bytes after the header.
func command(code uint32, rest ...byte) []byte {
	text := binary.BigEndian.AppendUint32([]byte{0x80, 1}, uint32(10+len(rest)))
	return append(binary.BigEndian.AppendUint32(text, code), rest...)
}

func getRandom(count byte) []byte { return command(0x17b, 0, count) }

// flush returns TPM2_FlushContext of the first HMAC session, and startSession returns the command
// that starts that session.
func flush() []byte { return command(0x165, 2, 0, 0, 0) }

func startSession() []byte {
	rest := append([]byte{0x40, 0, 0, 7, 0x40, 0, 0, 7, 0, 16}, make([]byte, 16)...)
	return command(0x176, append(rest, 0, 0, 0, 0, 0x10, 0, 0x0b)...)
}

func accept(t *testing.T, tpm *TPM, buffer []byte) []byte {
	t.Helper()
	parameters, err := tpm.Execute(buffer)
	if err != nil {
		t.Fatal(err)
	}
	return parameters
}

func succeed(t *testing.T, err error) {
	t.Helper()
	if err != nil {
		t.Fatal(err)
	}
}

func wantText(t *testing.T, got fmt.Stringer, wanted string) {
	t.Helper()
	if got.String() != wanted {
		t.Errorf("%s, and not %s", got, wanted)
	}
}

func wantError(t *testing.T, err, wanted error) {
	t.Helper()
	if !errors.Is(err, wanted) {
		t.Errorf("%v, and not %v", err, wanted)
	}
}

func wantRefusal(t *testing.T, err error, wanted string) {
	t.Helper()
	if err == nil || err.Error() != wanted {
		t.Errorf("%v, and not %s", err, wanted)
	}
}

// clock returns the device's time since power-on.
func clock(t *testing.T, tpm *TPM) time.Duration {
	t.Helper()
	answer := accept(t, tpm, command(0x181))
	return time.Duration(binary.BigEndian.Uint64(answer)) * time.Millisecond
}

func snapshot(t *testing.T, tpm *TPM) []byte {
	t.Helper()
	text, err := tpm.Snapshot()
	succeed(t, err)
	return text
}

func TestItIsStarted(t *testing.T) {
	tpm := open(t)
	if got := accept(t, tpm, getRandom(16)); len(got) != 18 {
		t.Errorf("%d bytes", len(got))
	}
	other := open(t, WithoutStartup())
	_, err := other.Execute(getRandom(16))
	wantRefusal(t, err, "GetRandom: INITIALIZE (100), by G5")
	accept(t, other, startup)
}

func TestItDrawsFreshBytes(t *testing.T) {
	seen := map[string]bool{}
	for range make([]struct{}, 10) {
		tpm := open(t)
		for range make([]struct{}, 10) {
			seen[string(accept(t, tpm, getRandom(16)))] = true
		}
	}
	if len(seen) != 100 {
		t.Errorf("%d of 100 differ", len(seen))
	}
}

func TestASeedMakesTheSame(t *testing.T) {
	var texts [3][]byte
	for at, seed := range []string{"mine", "mine", "other"} {
		tpm := open(t, WithSeed([]byte(seed)))
		texts[at] = append(accept(t, tpm, getRandom(8)), snapshot(t, tpm)...)
	}
	if !bytes.Equal(texts[0], texts[1]) || bytes.Equal(texts[0], texts[2]) {
		t.Error("a seed does not decide")
	}
}

func TestARefusalIsTold(t *testing.T) {
	tpm := open(t)
	for _, it := range []struct {
		buffer []byte
		wanted string
	}{
		{nil, "unknown command: COMMAND_SIZE (142), by G1"},
		{command(0x17e, 0, 0, 0), "PCR_Read: INSUFFICIENT/p1 (1DA), by G11"},
		{startup, "Startup: INITIALIZE (100), by G5"},
		{command(0xbad), "unknown command (BAD): tpmsim has no such command: COMMAND_CODE (143), by G4"},
		{command(0x7b010000), "unknown command (7B010000): its bytes in the other order are GetRandom: COMMAND_CODE (143), by G4"},
		{flush(), "FlushContext: HANDLE/p1 (1CB), by A2"},
	} {
		_, err := tpm.Execute(it.buffer)
		wantRefusal(t, err, it.wanted)
	}
	response, err := tpm.Send(nil)
	succeed(t, err)
	wantText(t, CodeOf(response), "COMMAND_SIZE (142)")
	for code, wanted := range map[Code]string{
		0x18b: "HANDLE/h1 (18B)", 0x9a2: "BAD_AUTH/s1 (9A2)", 0x084: "VALUE (084)",
		0x907: "LOCALITY (907)", 0: "SUCCESS", 0xfff: "unknown/p15 (FFF)",
	} {
		wantText(t, code, wanted)
	}
}

func TestResets(t *testing.T) {
	tpm := open(t)
	accept(t, tpm, startSession())
	succeed(t, tpm.Wait(time.Second))
	clock(t, tpm)
	image, err := tpm.Save()
	succeed(t, err)
	succeed(t, tpm.Reset())
	if clock(t, tpm) != 0 {
		t.Error("the power was not cycled")
	}
	_, err = tpm.Execute(flush())
	wantRefusal(t, err, "FlushContext: HANDLE/p1 (1CB), by A2")
	same, err := tpm.Save()
	succeed(t, err)
	// The first fields of an image are the seeds of the hierarchies, which differ between devices.
	if !bytes.Equal(image[10:80], same[10:80]) {
		t.Error("it is another device")
	}
	succeed(t, tpm.PowerCycle())
	succeed(t, tpm.Reset())
	succeed(t, tpm.ManufactureReset())
	other, err := tpm.Save()
	succeed(t, err)
	if bytes.Equal(image[10:80], other[10:80]) {
		t.Error("it is the same device")
	}
	accept(t, tpm, getRandom(1))
}

func TestTimeAndLocality(t *testing.T) {
	tpm := open(t)
	succeed(t, tpm.Wait(time.Hour))
	succeed(t, tpm.Wait(time.Millisecond))
	if got := clock(t, tpm); got != time.Hour+time.Millisecond || clock(t, tpm) != got {
		t.Errorf("%v", got)
	}
	wantError(t, tpm.Wait(-time.Second), ErrWait)
	succeed(t, tpm.Wait(lastWait*time.Millisecond))
	wantError(t, tpm.Wait(time.Millisecond), ErrWait)
	wantError(t, tpm.SetLocality(5), ErrLocality)
	wantError(t, tpm.SetLocality(-1), ErrLocality)
	resetPCR20, err := hex.DecodeString("80020000001b0000013d00000014000000094000000900000000" + "00")
	succeed(t, err)
	_, err = tpm.Execute(resetPCR20)
	wantRefusal(t, err, "PCR_Reset: LOCALITY (907), by A1")
	succeed(t, tpm.SetLocality(4))
	accept(t, tpm, resetPCR20)
}

func TestTexts(t *testing.T) {
	tpm := open(t)
	accept(t, tpm, startSession())
	text := snapshot(t, tpm)
	other := open(t)
	succeed(t, other.Restore(text))
	accept(t, other, flush())
	image, err := tpm.Save()
	succeed(t, err)
	opened := open(t, WithImage(image))
	_, err = opened.Execute(flush())
	wantRefusal(t, err, "FlushContext: HANDLE/p1 (1CB), by A2")
	wantError(t, tpm.Restore(image), ErrState)
	wantRefusal(t, tpm.Restore(nil), ErrState.Error()+": there are fewer than 42 bytes")
	_, err = Open(WithImage(text))
	wantError(t, err, ErrImage)
	if !bytes.Equal(snapshot(t, tpm), text) {
		t.Error("what was refused changed something")
	}
}

func TestItIsAFile(t *testing.T) {
	tpm := open(t)
	if _, err := tpm.Read(make([]byte, 8)); err != io.EOF {
		t.Errorf("%v is read of nothing", err)
	}
	count, err := tpm.Write(getRandom(8))
	if err != nil || count != 12 {
		t.Fatal(count, err)
	}
	response, err := io.ReadAll(tpm)
	if err != nil || len(response) != 20 {
		t.Error(len(response), err)
	}
}

func TestTheLayer(t *testing.T) {
	stirRandom := command(0x146, 0, 1, 7)
	_, err := open(t).Execute(stirRandom)
	wantRefusal(t, err, "StirRandom (146): tpmsim has no such command: COMMAND_CODE (143), by G4")
	_, err = open(t).Execute(command(0xbad))
	wantRefusal(t, err, "unknown command (BAD): tpmsim has no such command: COMMAND_CODE (143), by G4")
	accept(t, open(t, WithCompletion()), stirRandom)
}

// Of go-tpm, the templates RSASRKTemplate and ECCSRKTemplate.
func TestAsymmetricTemplatesAreRefused(t *testing.T) {
	tpm := open(t)
	for _, parameters := range []string{
		"0001000b00030472000000060080004300100800000000000000",
		"0023000b000304720000000600800043001000030010 00000000",
	} {
		template, err := hex.DecodeString(strings.ReplaceAll(parameters, " ", ""))
		succeed(t, err)
		buffer := []byte{0x40, 0, 0, 1, 0, 0, 0, 9, 0x40, 0, 0, 9, 0, 0, 0, 0, 0, 0, 4, 0, 0, 0, 0, 0, byte(len(template))}
		createPrimary := command(0x131, append(append(buffer, template...), 0, 0, 0, 0, 0, 0)...)
		createPrimary[1] = 2
		_, err = tpm.Execute(createPrimary)
		wantRefusal(t, err, "CreatePrimary: TYPE/p2 (2CA), by G11")
	}
}

func TestItIsClosedOnce(t *testing.T) {
	tpm := open(t)
	if tpm.IsClosed() {
		t.Error("it is closed")
	}
	succeed(t, tpm.Close())
	if !tpm.IsClosed() {
		t.Error("it is open")
	}
	_, sent := tpm.Send(getRandom(1))
	_, saved := tpm.Save()
	_, told := tpm.Snapshot()
	for _, err := range []error{
		tpm.Close(), sent, saved, told, tpm.Reset(), tpm.ManufactureReset(), tpm.PowerCycle(),
		tpm.Restore(nil), tpm.BeginLog(),
	} {
		wantError(t, err, os.ErrClosed)
	}
}

func TestALogBeginsWhereItIsAskedFor(t *testing.T) {
	tpm := open(t)
	succeed(t, tpm.SetLocality(1))
	succeed(t, tpm.Wait(7*time.Millisecond))
	if tpm.Log() != "" {
		t.Error("there is a log")
	}
	succeed(t, tpm.BeginLog())
	accept(t, tpm, getRandom(1))
	succeed(t, tpm.PowerCycle())
	var words []string
	for _, line := range strings.Split(strings.TrimSpace(tpm.Log()), "\n") {
		words = append(words, strings.Fields(line)[0])
	}
	if got := strings.Join(words, " "); got != "# loc wait entropy cmd # power" {
		t.Error(got)
	}
	succeed(t, tpm.Restore(snapshot(t, tpm)))
	if got := strings.Count(tpm.Log(), "\n"); got != 2 {
		t.Errorf("%d lines", got)
	}
}

func TestSHAKE256(t *testing.T) {
	for text, wanted := range map[string]string{"": "46b9dd2b0ba88d13", "abc": "483366601360a877"} {
		if got := shake256([]byte(text)); hex.EncodeToString(got[:8]) != wanted {
			t.Errorf("%x", got[:8])
		}
	}
	for size, wanted := range map[int]byte{135: 145, 136: 73, 137: 22} {
		if got := shake256(bytes.Repeat([]byte{0xa3}, size)); got[255] != wanted {
			t.Errorf("%d: %d", size, got[255])
		}
	}
}

// A thousand devices, each in its own goroutine, use less than half a second of time on each
// processor. The test measures processor time, because other programs may use the processors at the
// same time.
func TestAThousandDevices(t *testing.T) {
	before := processorTime(t)
	thousandDevices(t)
	took := (processorTime(t) - before) / time.Duration(runtime.NumCPU())
	if took > time.Second/2 {
		t.Errorf("they took %v", took)
	}
}

func processorTime(t *testing.T) time.Duration {
	var usage syscall.Rusage
	if err := syscall.Getrusage(syscall.RUSAGE_SELF, &usage); err != nil {
		t.Fatal(err)
	}
	return time.Duration(usage.Utime.Nano() + usage.Stime.Nano())
}

func thousandDevices(t *testing.T) {
	var group sync.WaitGroup
	for number := 0; number < 1000; number++ {
		group.Add(1)
		go func(number int) {
			defer group.Done()
			tpm, err := Open()
			if err == nil {
				_, err = tpm.Execute(getRandom(4))
			}
			if err == nil {
				err = tpm.Close()
			}
			if err != nil {
				t.Errorf("%v: %v", number, err)
			}
		}(number)
	}
	group.Wait()
}

// Several goroutines use one device.
func TestOneDeviceOfSeveral(t *testing.T) {
	tpm := open(t)
	var group sync.WaitGroup
	for range make([]struct{}, 8) {
		group.Add(1)
		go func() {
			defer group.Done()
			for range make([]struct{}, 100) {
				if response, err := tpm.Send(getRandom(4)); err != nil || len(response) != 16 {
					t.Error(len(response), err)
				}
			}
		}()
	}
	group.Wait()
}
