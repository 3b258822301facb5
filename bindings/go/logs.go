package vinjakwe

/*
#include "vinjakwe.h"

// As the states in states.go.
struct tpm_log_replay { uint64_t first; };
*/
import "C"

import (
	"bytes"
	"encoding/binary"
	"fmt"
	"io"
	"unicode/utf16"
)

// LogFault says that a log is none: the kind of its first fault, as "Truncated", and how many bytes are before it.
type LogFault struct {
	Kind string
	At   uint32
}

func (f *LogFault) Error() string { return fmt.Sprintf("log %s at %d", f.Kind, f.At) }

// answerName is the name of what a call on a log or a quote answered, as "Truncated" or "nonce differs".
func answerName(answer C.uint32_t) string {
	var name [C.TPM_LOG_NAME_BYTES]byte
	return string(name[:C.tpm_log_answer_name(answer, place(name[:]), size(name[:]))])
}

func logJudged(kind, at C.uint32_t) error {
	if kind == C.TPM_LOG_DONE {
		return nil
	}
	return &LogFault{answerName(kind), uint32(at)}
}

// A Hash is the number of a hash, TPM_ALG.
type Hash uint16

// String is the hash's name, as "sha256", or its number.
func (h Hash) String() string {
	switch h {
	case SHA1:
		return "sha1"
	case SHA256:
		return "sha256"
	case SHA384:
		return "sha384"
	}
	return fmt.Sprintf("%#06x", uint16(h))
}

// The hashes of the banks.
const (
	SHA1   Hash = C.TPM_ALG_SHA1
	SHA256 Hash = C.TPM_ALG_SHA256
	SHA384 Hash = C.TPM_ALG_SHA384
)

var banks = map[Hash]struct{ at, size int }{SHA1: {0, 20}, SHA256: {480, 32}, SHA384: {1248, 48}}

// Registers has the values of the 24 registers of each bank.
type Registers [C.TPM_REGISTERS_BYTES]byte

// Value is that of a register, or nil where the bank or the register is none.
func (r *Registers) Value(hash Hash, register int) []byte {
	bank, known := banks[hash]
	if !known || register < 0 || register > 23 {
		return nil
	}
	return r[bank.at+bank.size*register:][:bank.size]
}

// Replay gives the registers after a log, or a *LogFault.
func Replay(log []byte) (*Registers, error) {
	var at C.uint32_t
	registers := new(Registers)
	kind := C.tpm_log_replay(place(log), size(log), place(registers[:]), &at)
	if err := logJudged(kind, at); err != nil {
		return nil, err
	}
	return registers, nil
}

// ReplayFrom does what Replay does over the bytes of a reader, of any number, or gives the reader's error.
func ReplayFrom(log io.Reader) (*Registers, error) {
	var at C.uint32_t
	registers, piece := new(Registers), make([]byte, 1<<16)
	replay := (*C.struct_tpm_log_replay)(room(C.tpm_log_replay_size(), C.tpm_log_replay_align()))
	C.tpm_log_replay_init(replay)
	for {
		count, err := log.Read(piece)
		kind := C.tpm_log_replay_feed(replay, place(piece), C.size_t(count), &at)
		if err == io.EOF && kind == C.TPM_LOG_DONE {
			kind = C.tpm_log_replay_end(replay, place(registers[:]), &at)
		}
		if fault := logJudged(kind, at); fault != nil {
			return nil, fault
		} else if err == io.EOF {
			return registers, nil
		} else if err != nil {
			return nil, err
		}
	}
}

// A Digest of a record: its hash, its bytes, and whether it is that hash of the event's data, which is told of SHA-1,
// SHA-256 and SHA-384.
type Digest struct {
	Hash   Hash
	Bytes  []byte
	Hashed bool
}

// An Event is a record of a log: its place among them from 1 on, how many bytes of the log precede it, its register,
// its type, its digests and the event's data, which are lent from the log. A digest that is not a hash of the data is
// not wrong: firmware measures some events by something else.
type Event struct {
	Number   int
	At       uint32
	Register uint32
	Type     uint32
	Digests  []Digest
	Data     []byte
	log      []byte
}

// JSON is the object that `tpmtool events --json` prints of the record, which Events gave: the log is read again. It is
// empty where the log hasn't the record any more, and of any other Event.
func (e Event) JSON() []byte {
	at, number, room := C.uint32_t(e.At), C.size_t(e.Number), make([]byte, 4096+16*len(e.Data))
	return room[:C.tpm_log_event_json(place(e.log), size(e.log), at, number, place(room), size(room))]
}

// Digest is the record's of a bank, or nil where it has none.
func (e Event) Digest(hash Hash) []byte {
	for _, it := range e.Digests {
		if it.Hash == hash {
			return it.Bytes
		}
	}
	return nil
}

// EventTypeName is the name of a type of records, as "EV_SEPARATOR", or "" where the PC Client Platform Firmware
// Profile names none.
func EventTypeName(kind uint32) string {
	var name [C.TPM_EVENT_TYPE_BYTES]byte
	return string(name[:C.tpm_event_type_name(C.uint32_t(kind), place(name[:]), size(name[:]))])
}

// TypeName is the name of the record's type, as "EV_SEPARATOR", or "" where the profile names none.
func (e Event) TypeName() string { return EventTypeName(e.Type) }

// Text is the one that the event's data are, without a zero that ends it (in UTF-16 of EV_IPL all of them): UTF-8 of
// EV_POST_CODE, EV_ACTION, EV_IPL and EV_EFI_ACTION, or UTF-16 of EV_IPL and EV_S_CRTM_VERSION, in which a unit that is
// none is U+FFFD. It is false where they are no text, or the type is another.
func (e Event) Text() (text string, is bool) {
	var it C.struct_tpm_part
	switch C.tpm_log_text(C.uint32_t(e.Type), place(e.Data), size(e.Data), &it) {
	case C.TPM_TEXT:
		return string(part(e.Data, it)), true
	case C.TPM_TEXT_UTF16:
		return wide(part(e.Data, it)), true
	}
	return "", false
}

// wide is the text of UTF-16, in which a unit that is none is U+FFFD.
func wide(bytes []byte) string {
	units := make([]uint16, len(bytes)/2)
	for i := range units {
		units[i] = binary.LittleEndian.Uint16(bytes[2*i:])
	}
	return string(utf16.Decode(units))
}

// A Part of an event's data that a digest is of.
type Part uint32

const (
	Nothing       Part = 0                       // of Vouched: nothing, not even the digest
	DigestAlone   Part = 1                       // of Vouched: the digest alone, and nothing of the data
	AllData       Part = C.TPM_MEASURED_DATA     // all of them
	VariableValue Part = C.TPM_MEASURED_VARIABLE // the value of the variable that they are
	BehindPrefix  Part = C.TPM_MEASURED_TEXT     // what stands behind a prefix that GRUB writes, as "kernel_cmdline: "
	WithoutLast   Part = C.TPM_MEASURED_CUT      // all but the last byte
	Other         Part = C.TPM_MEASURED_OTHER    // none of these: something else was measured than what the log says
)

// String is its word, as tpmtool has it.
func (p Part) String() string {
	switch p {
	case Nothing:
		return "-"
	case DigestAlone:
		return "digest"
	case AllData:
		return "data"
	case VariableValue:
		return "variable"
	case BehindPrefix:
		return "text"
	case WithoutLast:
		return "cut"
	}
	return "other"
}

// Measured is which part of the event's data the digest of each bank is of.
func (e Event) Measured() map[Hash]Part {
	found := map[Hash]Part{}
	for _, it := range e.Digests {
		part := C.tpm_log_measured(C.uint32_t(e.Type), place(e.Data), size(e.Data), C.uint16_t(it.Hash), place(it.Bytes),
			size(it.Bytes))
		if part != C.TPM_QUOTE_NO_BANK {
			found[it.Hash] = Part(part)
		}
	}
	return found
}

// Vouched is what a quote vouches for in a record of a log that Check has compared with it: of each bank in which it
// selects the record's register, the part of the data that this bank's digest is of, or DigestAlone. Of another bank it
// is Nothing, as of a record of EV_NO_ACTION. It never vouches for the type.
func (e Event) Vouched(attest *Attest) map[Hash]Part {
	found := map[Hash]Part{}
	selections := attest.Info[:len(attest.Info)-2-len(attest.Digest)]
	for _, it := range e.Digests {
		part := C.tpm_log_vouched(place(selections), size(selections), C.uint32_t(e.Register), C.uint32_t(e.Type),
			place(e.Data), size(e.Data), C.uint16_t(it.Hash), place(it.Bytes), size(it.Bytes))
		if part == C.TPM_MEASURED_OTHER {
			found[it.Hash] = DigestAlone
		} else if part != C.TPM_LOG_DONE && part != C.TPM_QUOTE_NO_BANK {
			found[it.Hash] = Part(part)
		}
	}
	return found
}

// VouchedText is the text that was measured of the event's data, where a quote vouches for it in this bank: all of it,
// or what stands behind a prefix that GRUB writes. The prefix is left out, since it is not measured: with another
// before it a command of GRUB passes for the kernel's command line. So compare all texts of the register, in their
// order.
func (e Event) VouchedText(attest *Attest, hash Hash) (text string, is bool) {
	switch e.Vouched(attest)[hash] {
	case AllData:
		return e.Text()
	case BehindPrefix:
		// One blank ends each prefix.
		_, e.Data, _ = bytes.Cut(e.Data, []byte(" "))
		return e.Text()
	}
	return "", false
}

// VouchedVariable is the Variable where a quote vouches for its name and its value in this bank: where all the data
// were measured, or all but a last byte that is not the variable's.
func (e Event) VouchedVariable(attest *Attest, hash Hash) (found Variable, is bool) {
	switch e.Vouched(attest)[hash] {
	case WithoutLast:
		e.Data = e.Data[:len(e.Data)-1]
		return e.Variable()
	case AllData:
		return e.Variable()
	}
	return found, false
}

// A Variable of the firmware: its vendor's GUID, its name, in which a unit that is no UTF-16 is U+FFFD, and its value,
// which is lent from the event's data.
type Variable struct {
	GUID  GUID
	Name  string
	Value []byte
}

// Variable is the one that the event's data are, all of them (UEFI_VARIABLE_DATA; PC Client Platform Firmware Profile,
// "Event Types"), and false where they are none, or the type is another than EV_EFI_VARIABLE_DRIVER_CONFIG, _BOOT,
// _BOOT2, _AUTHORITY, EV_EFI_SPDM_DEVICE_POLICY and EV_EFI_SPDM_DEVICE_AUTHORITY.
func (e Event) Variable() (found Variable, is bool) {
	var it C.struct_tpm_variable
	if C.tpm_log_variable(C.uint32_t(e.Type), place(e.Data), size(e.Data), &it) != C.TPM_VARIABLE {
		return found, false
	}
	return variableOf(e.Data, it), true
}

func variableOf(data []byte, it C.struct_tpm_variable) Variable {
	return Variable{guid(data, it.guid), wide(part(data, it.name)), part(data, it.value)}
}

// An Image that was loaded: its address in memory, its bytes there, the address that it was linked for, and the nodes
// of its device path, up to the first fault. The record's digest is of the image, and vouches for none of these.
type Image struct {
	Address, Size, LinkAddress uint64
	Path                       []PathNode
}

// File is the path name of the image's file, in which a unit that is no UTF-16 is U+FFFD, or "" where its path has
// none.
func (i Image) File() (name string) {
	for _, it := range i.Path {
		if it.Type == 4 && it.Subtype == 4 && len(it.Data)%2 == 0 {
			name += fileName(it.Data)
		}
	}
	return name
}

// Image is the one that the event's data tell (PC Client Platform Firmware Profile, "UEFI_IMAGE_LOAD_EVENT"), and false
// where they tell none, or the type is another than EV_EFI_BOOT_SERVICES_APPLICATION, EV_EFI_BOOT_SERVICES_DRIVER and
// EV_EFI_RUNTIME_SERVICES_DRIVER.
func (e Event) Image() (found Image, is bool) {
	var it C.struct_tpm_image
	if C.tpm_log_image(C.uint32_t(e.Type), place(e.Data), size(e.Data), &it) != C.TPM_IMAGE {
		return found, false
	}
	return imageOf(e.Data, it), true
}

func imageOf(data []byte, it C.struct_tpm_image) Image {
	return Image{uint64(it.address), uint64(it.size), uint64(it.link_address), nodes(part(data, it.path))}
}

// nodes are those of a device path, up to the first fault.
func nodes(path []byte) (found []PathNode) {
	var node C.struct_tpm_path_node
	for C.tpm_log_path_node(place(path), size(path), &node) == C.TPM_PATH_NODE {
		found = append(found, PathNode{uint8(node._type), uint8(node.subtype), part(path, node.value)})
		path = path[node.value.at+node.value.len:]
	}
	return found
}

// Events goes over the records of a log, as a bufio.Scanner over lines: Next, Event, and Err behind the last.
type Events struct {
	log   []byte
	place C.struct_tpm_log_place
	event Event
	err   error
}

// NewEvents stands before the first record of these bytes.
func NewEvents(log []byte) *Events { return &Events{log: log} }

// Next goes to the next record, if there is one: behind it is the log's end, or its fault.
func (e *Events) Next() bool {
	var it C.struct_tpm_log_event
	var at C.uint32_t
	from := e.place
	said := C.tpm_log_event(place(e.log), size(e.log), &from, &it, &at)
	if said != C.TPM_EVENT {
		e.err = logJudged(said, at)
		return false
	}
	e.place = from
	e.event = Event{
		Number:   e.event.Number + 1,
		At:       uint32(it.at),
		Register: uint32(it.pcr),
		Type:     uint32(it._type),
		Data:     part(e.log, it.data),
		log:      e.log,
	}
	for _, found := range it.digests[:it.digest_count] {
		e.event.Digests = append(e.event.Digests, Digest{Hash(found.hash), part(e.log, found.digest), found.hashed != 0})
	}
	return true
}

// Event is the record that Next went to.
func (e *Events) Event() Event { return e.event }

// Err is the log's fault, a *LogFault, once Next said that there is no record, or nil.
func (e *Events) Err() error { return e.err }

// A Verdict on a quote: it matches, or the first that fails.
type Verdict int

const (
	Matches  Verdict = C.TPM_ATTEST_MATCHES
	Differs  Verdict = C.TPM_ATTEST_DIFFERS // the digest is another
	Nonce    Verdict = C.TPM_ATTEST_NONCE   // the nonce is another
	Lacks    Verdict = C.TPM_ATTEST_LACKS   // a required register is not selected
	Empty    Verdict = C.TPM_ATTEST_EMPTY   // no register is selected
	Signer   Verdict = -1                   // the signer is another
	Unknown  Verdict = -2                   // a digest of the log is not on the list
	Unsigned Verdict = -3                   // the signature is not by the key
)

// String says it in words.
func (v Verdict) String() string {
	switch v {
	case Matches:
		return "matches"
	case Signer:
		return "signer differs"
	case Unknown:
		return "unknown"
	case Unsigned:
		return "not signed by the key"
	}
	return answerName(C.uint32_t(v))
}

// A Selected register is the one that a quote lacks, or the one of the digest that is not allowed, with how many bytes
// of the log precede its record.
type Selected struct {
	Bank     Hash
	Register uint32
	At       uint32
}

// String is its bank and its number, as "sha256 7", or "-" of none.
func (s Selected) String() string {
	if s == (Selected{}) {
		return "-"
	}
	return fmt.Sprintf("%v %d", s.Bank, s.Register)
}

// How each TPMS_ATTEST begins: TPM_GENERATED_VALUE (Part 2, 6.2).
var generated = []byte("\xffTCG")

// CheckQuote compares the digest of a TPMS_QUOTE_INFO with that of a log's registers, and asks for no nonce and no
// selection, which Check does: the verdict is Matches, Differs or Empty. Otherwise the error is a *LogFault, a
// *Refusal, whose code is 0, since it is not told, ErrNoBank, or ErrAttest for a whole TPMS_ATTEST.
func CheckQuote(log, quote []byte, hash Hash) (Verdict, error) {
	var fault C.struct_tpm_attest_fault
	answer := C.tpm_log_check_quote(place(log), size(log), place(quote), size(quote), C.uint16_t(hash), &fault.at)
	if answer == C.TPM_QUOTE_REFUSED && bytes.HasPrefix(quote, generated) {
		return Differs, ErrAttest
	}
	verdict, _, err := said(answer, &fault)
	if err == nil && verdict == Matches && !selects(quote) {
		verdict = Empty
	}
	return verdict, err
}

// Expected is what Check compares a quote with: the nonce that was sent, the TPML_PCR_SELECTION of the registers that
// have to be there, which Selection makes of a text, the qualified Name of the key, if it is not nil, and the hash of
// the signature's scheme, or 0 for the one whose digests are as long as the quote's. Where AnyNonce is true, the quote
// may be an old one; where AnySelection is true, it may be of any registers. Where Allow is not nil, it has to have a
// digest, the quote has to select each register that it names, and each digest of the log there has to be on it.
type Expected struct {
	Nonce, Selection       []byte
	Signer                 []byte
	Allow                  Allowed
	Hash                   Hash
	AnyNonce, AnySelection bool
}

// Check compares a log with a TPMS_ATTEST of a quote, whose signature has to be verified elsewhere, or by Verify. The
// quote is good where the verdict is Matches and the error nil. Otherwise the error is a *LogFault, a *Refusal of the
// quote's bytes, ErrSized, ErrNoBank, ErrRequirement, or ErrNothing where the nonce has no byte, the selection no
// register, or the list of digests none.
func Check(log, attest []byte, expected Expected) (Verdict, Selected, error) {
	var fault C.struct_tpm_attest_fault
	nonce, selection, hash := expected.Nonce, expected.Selection, expected.Hash
	signed, refused := DecodeAttest(attest)
	if refused != nil {
		signed = &Attest{}
	}
	if expected.AnyNonce {
		nonce = signed.Nonce
	}
	if expected.AnySelection {
		selection = nil
	}
	if hash == 0 {
		hash = signed.hash()
	}
	answer := C.tpm_log_check_attest(place(log), size(log), place(attest), size(attest), C.uint16_t(hash),
		place(nonce), size(nonce), place(selection), size(selection), &fault)
	isNothing := !expected.AnyNonce && len(nonce) == 0 || !expected.AnySelection && !selects(selection) ||
		expected.Allow != nil && len(expected.Allow) == 0
	if isNothing && answer != C.TPM_ATTEST_NO_BANK && answer != C.TPM_ATTEST_REQUIREMENT {
		return Differs, Selected{}, ErrNothing
	}
	verdict, lacks, err := said(answer, &fault)
	if err != nil {
		return verdict, lacks, named(attest, err)
	}
	if expected.Signer != nil && !bytes.Equal(signed.Signer, expected.Signer) {
		return Signer, Selected{}, nil
	}
	if verdict == Matches && expected.Allow != nil {
		verdict, lacks = expected.Allow.compared(log, signed)
	}
	return verdict, lacks, nil
}

// said is what TPM_QUOTE and TPM_ATTEST, which have the same numbers, say of a quote.
func said(answer C.uint32_t, fault *C.struct_tpm_attest_fault) (Verdict, Selected, error) {
	refusal := &Refusal{uint32(fault.code), uint32(fault.at)}
	switch answer {
	case C.TPM_ATTEST_MATCHES, C.TPM_ATTEST_DIFFERS, C.TPM_ATTEST_NONCE, C.TPM_ATTEST_EMPTY:
		return Verdict(answer), Selected{}, nil
	case C.TPM_ATTEST_LACKS:
		return Lacks, Selected{Bank: Hash(fault.hash), Register: uint32(fault.pcr)}, nil
	case C.TPM_ATTEST_REFUSED:
		return Differs, Selected{}, refusal
	case C.TPM_ATTEST_REQUIREMENT:
		return Differs, Selected{}, fmt.Errorf("%w: %v", ErrRequirement, refusal)
	case C.TPM_ATTEST_NO_BANK:
		return Differs, Selected{}, ErrNoBank
	}
	return Differs, Selected{}, logJudged(answer, fault.at)
}
