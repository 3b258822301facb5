package vinjakwe

/*
#include "vinjakwe.h"
*/
import "C"

import (
	"encoding/hex"
	"fmt"
	"strconv"
	"strings"
	"unsafe"
)

// Allowed has digests by which registers may be extended. ParseAllowed makes one.
type Allowed []C.struct_tpm_allowed

// ParseAllowed reads a list, as the lines of `tpmtool check LOG --extends`: of each line its bank, its register and the
// digest, as "sha256 4 DIGEST", with one space between them. Behind another space stand any words, and behind # a
// comment. A line with nothing but spaces before it says nothing, and a line feed alone ends a line. The error says
// which line is none; the list is then empty and not nil, so that Check gives ErrNothing.
func ParseAllowed(text string) (Allowed, error) {
	found := Allowed{}
	for i, line := range strings.Split(text, "\n") {
		said, _, _ := strings.Cut(line, "#")
		if strings.Trim(said, " ") == "" {
			continue
		}
		entry, isOne := parseEntry(said)
		if !isOne {
			return Allowed{}, fmt.Errorf("line %d is no bank, register and digest, as sha256 4 DIGEST", i+1)
		}
		found = append(found, entry)
	}
	return found, nil
}

// parseEntry reads what stands before a comment, and is false where that is no bank, register and digest.
func parseEntry(said string) (entry C.struct_tpm_allowed, isOne bool) {
	words := append(strings.SplitN(said, " ", 4), "", "")
	for hash := range banks {
		if hash.String() == words[0] {
			entry.hash = C.uint16_t(hash)
		}
	}
	register, err := strconv.Atoi(words[1])
	digest, fault := hex.DecodeString(words[2])
	// Nothing else spells a register: no sign, and no zero before it.
	isRegister := err == nil && register >= 0 && register < 24 && strconv.Itoa(register) == words[1]
	if !isRegister || fault != nil || entry.hash == 0 || len(digest) != banks[Hash(entry.hash)].size {
		return entry, false
	}
	entry.pcr = C.uint32_t(register)
	for i, it := range digest {
		entry.digest[i] = C.uint8_t(it)
	}
	return entry, true
}

// isUnknown says whether the list names the register that a record extends in the bank of this digest, and doesn't
// have the digest for it.
func (a Allowed) isUnknown(event Event, it Digest) bool {
	return C.tpm_log_allowed((*C.struct_tpm_allowed)(unsafe.Pointer(&a[0])), C.size_t(len(a)), C.uint32_t(event.Register),
		C.uint32_t(event.Type), C.uint16_t(it.Hash), place(it.Bytes), size(it.Bytes)) == C.TPM_NOT_ALLOWED
}

// lacking is the least register of the list, by its bank and its number, that the quote doesn't select, and false where
// it selects all.
func (a Allowed) lacking(attest *Attest) (least Selected, lacks bool) {
	for _, it := range a {
		found := Selected{Bank: Hash(it.hash), Register: uint32(it.pcr)}
		isLess := found.Bank < least.Bank || found.Bank == least.Bank && found.Register < least.Register
		if !attest.selects(found.Bank, found.Register) && (!lacks || isLess) {
			least, lacks = found, true
		}
	}
	return least, lacks
}

// compared says whether a quote that matches the log selects each register of the list, which has a digest or more, and
// whether the list has each digest by which the log extends it.
func (a Allowed) compared(log []byte, attest *Attest) (Verdict, Selected) {
	if it, lacks := a.lacking(attest); lacks {
		return Lacks, it
	}
	for events := NewEvents(log); events.Next(); {
		event := events.Event()
		for _, it := range event.Digests {
			if a.isUnknown(event, it) {
				return Unknown, Selected{it.Hash, event.Register, event.At}
			}
		}
	}
	return Matches, Selected{}
}
