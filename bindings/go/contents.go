package vinjakwe

/*
#include "vinjakwe.h"
*/
import "C"

import (
	"encoding/binary"
	"fmt"
)

// A Content is what the data of a record say: a VariableContent, TextContent, VersionContent, VersionGUID, Separator,
// Locality, Image, Firmware, Tables, Tag, Partitions, Measurement or Evidence. Its bytes are lent from the data.
// Event.Measured says whether the record's digests are of these.
type Content interface{ isContent() }

// A GUID, 16 bytes as they lie in memory.
type GUID [16]byte

// String is the GUID as text, as "8be4df61-93ca-11d2-aa0d-00e098032b8c": its first three numbers have the less
// significant byte first in memory (UEFI Specification, "GUID and Time Formats").
func (g GUID) String() string {
	numbers := binary.LittleEndian
	return fmt.Sprintf("%08x-%04x-%04x-%x-%x", numbers.Uint32(g[:]), numbers.Uint16(g[4:]), numbers.Uint16(g[6:]), g[8:10],
		g[10:])
}

// A VariableContent is a variable, and what it holds.
type VariableContent struct {
	Variable
	Holds Held
}

// TextContent is text of EV_POST_CODE, EV_ACTION, EV_IPL and EV_EFI_ACTION, without a zero that ends it, in UTF-16
// without all of them. A unit that is no UTF-16 is U+FFFD.
type TextContent string

// VersionContent is the version of the root of trust, of EV_S_CRTM_VERSION, as text.
type VersionContent string

// VersionGUID is the version of the root of trust as a GUID.
type VersionGUID GUID

// Separator is the number of EV_SEPARATOR: 0 or 0xFFFFFFFF, or another where an error was met.
type Separator uint32

// Locality is the start-up locality, which EV_NO_ACTION tells.
type Locality uint32

// Firmware is a part of the firmware's code: the address of its first byte in memory, how many bytes it has there, and
// its description, or no bytes.
type Firmware struct {
	Base, Size uint64
	Name       []byte
}

// Tables are those that the firmware hands to the system, and their description, or no bytes.
type Tables struct {
	Name   []byte
	Tables []Table
}

// A Table that the firmware hands to the system: the GUID that tells what it is, and the address of its first byte.
type Table struct {
	GUID    GUID
	Address uint64
}

// Tag is an event of an operating system, of EV_EVENT_TAG: a number of the system's own, and its data.
type Tag struct {
	ID   uint32
	Data []byte
}

// Partitions are those of a disk, of EV_EFI_GPT_EVENT, and the disk's GUID. An entry whose type is zeros is not used.
type Partitions struct {
	Disk       GUID
	Partitions []Partition
}

// A Partition (EFI_PARTITION_ENTRY): its type, its own GUID, its first and its last block, its attributes' bits, and
// its name, in which a unit that is no UTF-16 is U+FFFD.
type Partition struct {
	Type, GUID              GUID
	First, Last, Attributes uint64
	Name                    string
}

// Measurement is one of a device by SPDM, DEVICE_SECURITY_EVENT_DATA: SpdmHashAlgo; DeviceType, 0 where none is told, 1
// of PCI, 2 of USB; SpdmMeasurementBlock; and DeviceContext.
type Measurement struct {
	Hash, DeviceType uint32
	Block, Context   []byte
}

// Evidence is what a device showed by SPDM, DEVICE_SECURITY_EVENT_DATA2: AuthState, 0 for success, 1 for no
// authentication, 2 for no binding, 3 for a failure without a signature, 4 for a signature that is not valid, 255 for
// no SPDM; DeviceType, as of a Measurement; SubHeaderType, 0 of measurement blocks, 1 of a chain of certificates, 2 of
// something of the platform's maker; SubHeaderUID, by which events belong together; the nodes of its device path; the
// sub-header; and DeviceContext.
type Evidence struct {
	AuthState                 uint8
	DeviceType, SubHeaderType uint32
	UID                       uint64
	Path                      []PathNode
	SubHeader, Context        []byte
}

func (VariableContent) isContent() {}
func (TextContent) isContent()     {}
func (VersionContent) isContent()  {}
func (VersionGUID) isContent()     {}
func (Separator) isContent()       {}
func (Locality) isContent()        {}
func (Image) isContent()           {}
func (Firmware) isContent()        {}
func (Tables) isContent()          {}
func (Tag) isContent()             {}
func (Partitions) isContent()      {}
func (Measurement) isContent()     {}
func (Evidence) isContent()        {}

// Held is what a variable holds: a LoadOption, BootOrder, SignatureLists, Owned, HeldByte, or HeldBytes.
type Held interface{ isHeld() }

// LoadOption is what the firmware may start, of Boot####: its attributes, of which bit 0 says that it is tried; its
// description; its device paths, each by its nodes up to the first fault; and what is handed to the program.
type LoadOption struct {
	Attributes  uint32
	Description string
	Paths       [][]PathNode
	Data        []byte
}

// BootOrder has the numbers of load options in the order in which they are tried.
type BootOrder []uint16

// SignatureLists are those of PK, KEK, db, dbx, dbt and dbr, up to the first fault.
type SignatureLists []SignatureList

// A SignatureList: the type of its signatures, a header, and the signatures.
type SignatureList struct {
	Type       GUID
	Header     []byte
	Signatures []Owned
}

// Owned is a signature of a list, or the one by which something was let be loaded: its owner, and a certificate or a
// hash, which is not parsed.
type Owned struct {
	Owner GUID
	Data  []byte
}

// HeldByte is one byte, as of SecureBoot: 0 where it is off, 1 where it is on.
type HeldByte uint8

// HeldBytes are those of which no more is known, or none.
type HeldBytes []byte

func (LoadOption) isHeld()     {}
func (BootOrder) isHeld()      {}
func (SignatureLists) isHeld() {}
func (Owned) isHeld()          {}
func (HeldByte) isHeld()       {}
func (HeldBytes) isHeld()      {}

// Content is what the event's data say, by the kind that its type has (PC Client Platform Firmware Profile, "Event
// Types"), or nil where nothing of them is known, as of another type, or of data with a fault.
func (e Event) Content() Content {
	var it C.struct_tpm_content
	data := e.Data
	switch C.tpm_log_event_content(C.uint32_t(e.Type), place(data), size(data), &it) {
	case C.TPM_VARIABLE:
		found := variableOf(data, it.variable)
		return VariableContent{found, held(it.holds, found.Value)}
	case C.TPM_TEXT:
		return TextContent(part(data, it.text))
	case C.TPM_TEXT_UTF16:
		return TextContent(wide(part(data, it.text)))
	case C.TPM_VERSION:
		return VersionContent(wide(part(data, it.text)))
	case C.TPM_VERSION_GUID:
		return VersionGUID(guid(data, it.text))
	case C.TPM_SEPARATOR:
		return Separator(it.number)
	case C.TPM_LOCALITY:
		return Locality(it.number)
	case C.TPM_IMAGE:
		return imageOf(data, it.image)
	case C.TPM_FIRMWARE:
		return Firmware{uint64(it.firmware.base), uint64(it.firmware.size), part(data, it.firmware.name)}
	case C.TPM_TABLES:
		return Tables{part(data, it.tables.name), tables(part(data, it.tables.entries))}
	case C.TPM_TAG:
		return Tag{uint32(it.tag.id), part(data, it.tag.value)}
	case C.TPM_PARTITIONS:
		them := it.partitions
		return Partitions{guid(data, them.disk), partitions(part(data, them.entries), int(them.entry_size))}
	case C.TPM_MEASUREMENT:
		found := it.measurement
		return Measurement{uint32(found.hash), uint32(found.device_type), part(data, found.block), part(data, found.context)}
	case C.TPM_EVIDENCE:
		found := it.evidence
		return Evidence{uint8(found.auth_state), uint32(found.device_type), uint32(found.sub_header_type), uint64(found.uid),
			nodes(part(data, found.path)), part(data, found.sub_header), part(data, found.context)}
	}
	return nil
}

func guid(bytes []byte, it C.struct_tpm_part) (found GUID) {
	copy(found[:], part(bytes, it))
	return found
}

func tables(entries []byte) (found []Table) {
	var it C.struct_tpm_table
	for ; C.tpm_log_table(place(entries), size(entries), &it) == C.TPM_TABLE; entries = entries[C.TPM_TABLE_BYTES:] {
		found = append(found, Table{guid(entries, it.guid), uint64(it.address)})
	}
	return found
}

func partitions(entries []byte, each int) (found []Partition) {
	var it C.struct_tpm_partition
	for ; len(entries) > 0; entries = entries[each:] {
		entry := entries[:each]
		C.tpm_log_partition(place(entry), size(entry), &it)
		found = append(found, Partition{guid(entry, it._type), guid(entry, it.guid), uint64(it.first), uint64(it.last),
			uint64(it.attributes), wide(part(entry, it.name))})
	}
	return found
}

func held(holds C.uint32_t, value []byte) Held {
	switch holds {
	case C.TPM_HOLDS_LOAD_OPTION:
		return loadOption(value)
	case C.TPM_HOLDS_BOOT_ORDER:
		order := make(BootOrder, len(value)/2)
		for i := range order {
			order[i] = binary.LittleEndian.Uint16(value[2*i:])
		}
		return order
	case C.TPM_HOLDS_SIGNATURES:
		return signatureLists(value)
	case C.TPM_HOLDS_SIGNATURE:
		return owned(value)
	case C.TPM_HOLDS_BYTE:
		return HeldByte(value[0])
	}
	return HeldBytes(value)
}

func loadOption(value []byte) LoadOption {
	var it C.struct_tpm_load_option
	var path C.struct_tpm_part
	C.tpm_log_load_option(place(value), size(value), &it)
	found := LoadOption{uint32(it.attributes), wide(part(value, it.description)), nil, part(value, it.value)}
	for rest := part(value, it.path); C.tpm_log_device_path(place(rest), size(rest), &path) == C.TPM_DEVICE_PATH; {
		found.Paths = append(found.Paths, nodes(part(rest, path)))
		rest = rest[path.at+path.len:]
	}
	return found
}

func signatureLists(value []byte) (found SignatureLists) {
	var it C.struct_tpm_signature_list
	for C.tpm_log_signature_list(place(value), size(value), &it) == C.TPM_SIGNATURE_LIST {
		list := SignatureList{Type: guid(value, it._type), Header: part(value, it.header)}
		for rest := part(value, it.entries); len(rest) > 0; rest = rest[it.entry_size:] {
			list.Signatures = append(list.Signatures, owned(rest[:it.entry_size]))
		}
		found, value = append(found, list), value[it.entries.at+it.entries.len:]
	}
	return found
}

func owned(value []byte) Owned {
	var it C.struct_tpm_owned
	C.tpm_log_owned(place(value), size(value), &it)
	return Owned{guid(value, it.owner), part(value, it.value)}
}
