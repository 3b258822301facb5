// Package vinjakwe judges commands and responses of a TPM 2.0, logs of a measured boot, and quotes, by the installed
// library of that name, which pkg-config finds. Bytes are lent to the library for a call and no longer; nothing wants
// to be closed, and nothing that has a state is to be used by two goroutines at once.
package vinjakwe

/*
#include "vinjakwe.h"
extern const char vinjakwe_version[];
static const char *header_version(void) { return VINJAKWE_VERSION; }
static const char *library_version(void) { return vinjakwe_version; }
*/
import "C"

import (
	"errors"
	"fmt"
	"unsafe"
)

// The version of the header that this package was built with.
const Version = "0.1.0"

// How many bytes these have at most, and a nonce exactly.
const (
	BufferBytes = C.TPM_BUFFER_BYTES
	// DeviceKeptBytes is how many bytes a device keeps at most.
	DeviceKeptBytes = C.TPM_DEVICE_KEPT_BYTES
	OwnerBytes      = C.TPM_OWNER_BYTES
	NonceBytes      = C.TPM_NONCE_BYTES
)

func init() {
	for _, found := range []string{C.GoString(C.header_version()), C.GoString(C.library_version())} {
		if found != Version {
			panic("vinjakwe: the library or its header has version " + found + ", and this package is for " + Version)
		}
	}
}

// Refusal says that bytes are refused: the TPM's response code, or 0 where it isn't told, and how many bytes are before
// the first fault.
type Refusal struct{ Code, At uint32 }

func (r *Refusal) Error() string {
	if r.Code == 0 {
		return fmt.Sprintf("refused at %d", r.At)
	}
	return fmt.Sprintf("refused %03x at %d: %s", r.Code, r.At, CodeName(r.Code))
}

// What else may be wrong.
var (
	ErrAttest      = errors.New("this is a whole TPMS_ATTEST, which Check takes; DecodeAttest gives its TPMS_QUOTE_INFO")
	ErrSized       = errors.New("a size stands before it: this is a TPM2B_ATTEST, whose TPMS_ATTEST is behind its first 2 bytes")
	ErrNoCommand   = errors.New("no command has this number")
	ErrNoBank      = errors.New("no bank has this hash")
	ErrRequirement = errors.New("what is required is no TPML_PCR_SELECTION")
	ErrNothing     = errors.New("the nonce has no byte, what is required no register, or the list no digest")
	ErrList        = errors.New("no list of registers, as sha256:0,1,2 or sha256:all")
	ErrPEM         = errors.New("this is no PEM")
	ErrDigest      = errors.New("a digest has another length than those of the policy's hash")
	ErrBroken      = errors.New("no buffer has the size that was stated")
	ErrTooLong     = errors.New("a value is too long")
	ErrNonce       = errors.New("a nonce has 64 bytes")
	ErrNotSealed   = errors.New("no session is free, or the command needs no authorization, " +
		"or a Name or the nonce is too long")
	ErrNoSession  = errors.New("the bytes start no session")
	ErrNotOpened  = errors.New("the reply is not that of the sealed command")
	ErrNotGivenUp = errors.New("the bytes are no refusal, or no command waits")
)

var nothing [1]byte

// place is the address of the bytes, which is not null where there are none.
func place(bytes []byte) *C.uint8_t {
	if len(bytes) == 0 {
		bytes = nothing[:]
	}
	return (*C.uint8_t)(unsafe.Pointer(&bytes[0]))
}

func size(bytes []byte) C.size_t { return C.size_t(len(bytes)) }

func part(bytes []byte, it C.struct_tpm_part) []byte {
	return bytes[it.at : it.at+it.len : it.at+it.len]
}

func judged(answer C.uint32_t, refusal *C.struct_tpm_refusal) error {
	switch answer {
	case C.TPM_DONE:
		return nil
	case C.TPM_REFUSED:
		return &Refusal{uint32(refusal.code), uint32(refusal.at)}
	case C.TPM_NO_COMMAND:
		return ErrNoCommand
	}
	return ErrTooLong
}

// A Session of a command or of a response lends its nonce and its HMAC or password from the bytes that were decoded.
// That of a response has no handle.
type Session struct {
	Handle     uint32
	Nonce      []byte
	Attributes uint8
	HMAC       []byte
}

// A Command lends its parts from the bytes that were decoded.
type Command struct {
	Code       uint32
	Size       int
	Handles    []uint32
	Sessions   []Session
	Parameters []byte
}

// A Response lends its parts from the bytes that were decoded. Of one whose code is not 0 nothing else is there.
type Response struct {
	Code       uint32
	Handles    []uint32
	Parameters []byte
	Sessions   []Session
}

// DecodeCommand gives the command that all the bytes spell, or a *Refusal.
func DecodeCommand(bytes []byte) (*Command, error) {
	var areas C.struct_tpm_command_areas
	var refusal C.struct_tpm_refusal
	answer := C.tpm_command_decode(place(bytes), size(bytes), &refusal)
	if answer == C.TPM_DONE {
		answer = C.tpm_command_cut(place(bytes), size(bytes), &areas, &refusal)
	}
	if err := judged(answer, &refusal); err != nil {
		return nil, err
	}
	command := &Command{Code: uint32(areas.code), Size: int(areas.size), Parameters: part(bytes, areas.parameters)}
	for _, it := range areas.handles[:areas.handle_count] {
		command.Handles = append(command.Handles, uint32(it))
	}
	for _, it := range areas.sessions[:areas.session_count] {
		session := Session{uint32(it.handle), part(bytes, it.nonce), uint8(it.attributes), part(bytes, it.hmac)}
		command.Sessions = append(command.Sessions, session)
	}
	return command, nil
}

// DecodeResponse gives the response that all the bytes spell to the command of this number, or a *Refusal, or
// ErrNoCommand.
func DecodeResponse(command uint32, bytes []byte) (*Response, error) {
	var areas C.struct_tpm_response_areas
	var refusal C.struct_tpm_refusal
	answer := C.tpm_response_decode(C.uint32_t(command), place(bytes), size(bytes), &refusal)
	if answer == C.TPM_DONE {
		answer = C.tpm_response_cut(C.uint32_t(command), place(bytes), size(bytes), &areas, &refusal)
	}
	if err := judged(answer, &refusal); err != nil {
		return nil, err
	}
	response := &Response{Code: uint32(areas.code), Parameters: part(bytes, areas.parameters)}
	if areas.handle_count > 0 {
		response.Handles = []uint32{uint32(areas.handle)}
	}
	for _, it := range areas.sessions[:areas.session_count] {
		session := Session{0, part(bytes, it.nonce), uint8(it.attributes), part(bytes, it.hmac)}
		response.Sessions = append(response.Sessions, session)
	}
	return response, nil
}

// BuildCommand joins the command of this number from the bytes of its parts, or gives the *Refusal of what they spell,
// or ErrNoCommand.
func BuildCommand(command uint32, handles, sessions, parameters []byte) ([]byte, error) {
	var count C.size_t
	var refusal C.struct_tpm_refusal
	out := make([]byte, BufferBytes)
	answer := C.tpm_command_build(C.uint32_t(command), place(handles), size(handles), place(sessions), size(sessions),
		place(parameters), size(parameters), place(out), size(out), &count, &refusal)
	return out[:count], judged(answer, &refusal)
}
