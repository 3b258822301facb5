package vinjakwe

/*
#include "vinjakwe.h"

// The states have their first bytes here: Go's collector does not look at pointers to a type that has none, and would
// free the room.
struct tpm_framer { uint64_t first; };
struct tpm_device { uint64_t first; };
struct tpm_caller { uint64_t first; };
*/
import "C"

import "unsafe"

// room is memory for so many bytes at a multiple of 8.
func room(size, align C.size_t) unsafe.Pointer {
	if align > 8 {
		panic("vinjakwe: the library wants another alignment")
	}
	return unsafe.Pointer(&make([]uint64, (size+7)/8)[0])
}

// unless is nil where a call was done, and else the error.
func unless(done bool, err error) error {
	if done {
		return nil
	}
	return err
}

// A Framer cuts a stream into its buffers, each of which states its size. NewFramer makes one.
type Framer struct {
	framer *C.struct_tpm_framer
	inside bool
}

// NewFramer makes a framer that holds nothing.
func NewFramer() *Framer {
	framer := (*C.struct_tpm_framer)(room(C.tpm_framer_size(), C.tpm_framer_align()))
	C.tpm_framer_init(framer)
	return &Framer{framer: framer}
}

// Push gives the buffers that end in this piece, and ErrBroken, now and from now on, behind the first bytes of one that
// has no size.
func (f *Framer) Push(piece []byte) (frames [][]byte, err error) {
	for {
		var status C.uint32_t
		taken := C.tpm_framer_push(f.framer, place(piece), size(piece), &status)
		piece = piece[taken:]
		switch status {
		case C.TPM_FRAMER_READY:
			out := make([]byte, BufferBytes)
			frames = append(frames, out[:C.tpm_framer_frame(f.framer, place(out), size(out))])
			C.tpm_framer_next(f.framer)
			f.inside = false
		case C.TPM_FRAMER_BROKEN:
			return frames, ErrBroken
		default:
			f.inside = f.inside || taken > 0
		}
		if len(piece) == 0 {
			return frames, nil
		}
	}
}

// Inside says whether the stream stands inside a buffer.
func (f *Framer) Inside() bool { return f.inside }

// A Device in memory answers commands. NewDevice makes one, which is not started.
type Device struct{ device *C.struct_tpm_device }

// NewDevice makes a device of this owner, of which no counter has had a greater value, or gives ErrTooLong.
func NewDevice(owner []byte, greatest uint64) (*Device, error) {
	device := (*C.struct_tpm_device)(room(C.tpm_device_size(), C.tpm_device_align()))
	if C.tpm_device_init(device, place(owner), size(owner), C.uint64_t(greatest)) == 0 {
		return nil, ErrTooLong
	}
	return &Device{device}, nil
}

// RestoreDevice makes a device of this owner and of the bytes that Keep gave: it stands where a power cycle leaves the
// one that gave them. The error is a *Refusal of other bytes, or of an owner's value of more than 48 bytes.
func RestoreDevice(owner, kept []byte) (*Device, error) {
	var refusal C.struct_tpm_refusal
	device := (*C.struct_tpm_device)(room(C.tpm_device_size(), C.tpm_device_align()))
	answer := C.tpm_device_restore(device, place(owner), size(owner), place(kept), size(kept), &refusal)
	if err := judged(answer, &refusal); err != nil {
		return nil, err
	}
	return &Device{device}, nil
}

// Keep gives the bytes of NV memory, which hold authorization values.
func (d *Device) Keep() []byte {
	out := make([]byte, DeviceKeptBytes)
	return out[:C.tpm_device_keep(d.device, place(out), size(out))]
}

// ChangesNV says whether the device that answered this command with this response has changed its NV memory: a host
// then keeps it before it hands out the response.
func ChangesNV(command, response []byte) bool {
	return C.tpm_device_changes_nv(place(command), size(command), place(response), size(response)) != 0
}

// Greatest is the greatest value that any counter of the device has had.
func (d *Device) Greatest() uint64 { return uint64(C.tpm_device_greatest(d.device)) }

// A Counter is an NV counter that is defined: its index, the hash of its Name, its attributes as they are now, its
// policy, which may be empty, whether it has an authorization value, and its value, which is 0 where it was not
// incremented.
type Counter struct {
	Index      uint32
	Hash       Hash
	Attributes uint32
	Policy     []byte
	HasAuth    bool
	Value      uint64
}

// Counters gives the counters that are defined, in the order of their definitions.
func (d *Device) Counters() []Counter {
	found := make([]Counter, C.tpm_device_counters(d.device))
	for which := range found {
		var it C.struct_tpm_counter
		C.tpm_device_counter(d.device, C.size_t(which), &it)
		policy := C.GoBytes(unsafe.Pointer(&it.policy), C.int(it.policy_len))
		found[which] = Counter{uint32(it.index), Hash(it.hash), uint32(it.attributes), policy, it.has_auth != 0,
			uint64(it.value)}
	}
	return found
}

// SessionHash is the hash of the session of this handle, and 0 where it is not loaded.
func (d *Device) SessionHash(session uint32) Hash {
	return Hash(C.tpm_device_session_hash(d.device, C.uint32_t(session)))
}

// PowerCycle switches the power off and on: the counters stay.
func (d *Device) PowerCycle() { C.tpm_device_power_cycle(d.device) }

// Execute gives the response to these bytes. The nonce is 64 fresh random bytes; of another length it is ErrNonce.
func (d *Device) Execute(command, nonce []byte) ([]byte, error) {
	if len(nonce) != NonceBytes {
		return nil, ErrNonce
	}
	out := make([]byte, BufferBytes)
	return out[:C.tpm_device_execute(d.device, place(command), size(command), place(nonce), place(out), size(out))], nil
}

// A Caller is the other end of a session. NewCaller makes one; where a call gives an error, nothing changes.
type Caller struct{ caller *C.struct_tpm_caller }

// NewCaller makes a caller without a session.
func NewCaller() *Caller {
	caller := (*C.struct_tpm_caller)(room(C.tpm_caller_size(), C.tpm_caller_align()))
	C.tpm_caller_init(caller)
	return &Caller{caller}
}

// Start holds the session that a TPM2_StartAuthSession and its reply make, or gives ErrNoSession.
func (c *Caller) Start(command, reply, bindAuth []byte) error {
	held := C.tpm_caller_start(c.caller, place(command), size(command), place(reply), size(reply),
		place(bindAuth), size(bindAuth))
	return unless(held != 0, ErrNoSession)
}

// Seal gives the command with the session, which then waits for the reply, or ErrNotSealed. The nonce is fresh and
// random.
func (c *Caller) Seal(command, first, second, auth, nonce []byte, keep bool) ([]byte, error) {
	out, kept := make([]byte, BufferBytes), C.uint32_t(0)
	if keep {
		kept = 1
	}
	count := C.tpm_caller_seal(c.caller, place(command), size(command), place(first), size(first),
		place(second), size(second), place(auth), size(auth), place(nonce), size(nonce), kept, place(out), size(out))
	return out[:count], unless(count != 0, ErrNotSealed)
}

// Open takes the reply to the sealed command, or gives ErrNotOpened: then nothing in it is to be believed.
func (c *Caller) Open(reply []byte) error {
	return unless(C.tpm_caller_open(c.caller, place(reply), size(reply)) == C.TPM_CALLER_OPENED, ErrNotOpened)
}

// GiveUp frees the session as it was before the command that this refusal answers, or gives ErrNotGivenUp.
func (c *Caller) GiveUp(refusal []byte) error {
	return unless(C.tpm_caller_give_up(c.caller, place(refusal), size(refusal)) != 0, ErrNotGivenUp)
}
