package vinjakwe

/*
#include "vinjakwe.h"
*/
import "C"

import "fmt"

// BootFault says why the records of register 7 tell nothing of Secure Boot: the kind of the first fault, as
// "NotMeasured", and how many bytes of the log precede the record that has it, or how many there are, where something
// is missing at the end.
type BootFault struct {
	Kind string
	At   uint32
}

func (f *BootFault) Error() string { return fmt.Sprintf("secure boot unknown %s at %d", f.Kind, f.At) }

// A BootState says whether Secure Boot was on.
type BootState uint32

const (
	On    BootState = C.TPM_SECURE_BOOT_ON    // SecureBoot was 1, PK, KEK and db held something, and an authority is there
	Off   BootState = C.TPM_SECURE_BOOT_OFF   // SecureBoot was 0
	Unset BootState = C.TPM_SECURE_BOOT_UNSET // SecureBoot had no byte
)

// String says it in a word; zero is "unknown".
func (s BootState) String() string {
	if s == 0 {
		return "unknown"
	}
	return answerName(C.uint32_t(s))
}

// A Boot is what a log tells of Secure Boot: its state, whether DMA protection was disabled, and how many bytes of the
// log precede the records of PK, KEK, db and dbx, or 0 where one was not measured, and of each authority.
type Boot struct {
	State                 BootState
	DMAProtectionDisabled bool
	PK, KEK, DB, DBX      uint32
	Authorities           []uint32
}

// SecureBoot says whether Secure Boot was on, by the records of register 7 in the bank of this hash (PC Client Platform
// Firmware Profile, "PCR[7]"). Otherwise the error is a *LogFault, a *BootFault for the first fault of what the records
// tell, or ErrNoBank. It is as true as register 7, for which Check asks a quote.
func SecureBoot(log []byte, hash Hash) (*Boot, error) {
	var view C.struct_tpm_secure_boot
	var count C.size_t
	var at C.uint32_t
	places := make([]uint32, 16)
	for {
		said := C.tpm_log_secure_boot(place(log), size(log), C.uint16_t(hash), &view, (*C.uint32_t)(&places[0]),
			C.size_t(len(places)), &count, &at)
		switch said {
		case C.TPM_SECURE_BOOT_NO_ROOM:
			places = make([]uint32, count)
			continue
		case C.TPM_SECURE_BOOT_NO_BANK:
			return nil, ErrNoBank
		case C.TPM_SECURE_BOOT_ON, C.TPM_SECURE_BOOT_OFF, C.TPM_SECURE_BOOT_UNSET:
			return &Boot{BootState(said), view.dma_protection_disabled != 0, uint32(view.pk), uint32(view.kek), uint32(view.db),
				uint32(view.dbx), places[:count]}, nil
		}
		if said >= C.TPM_SECURE_BOOT_NOT_MEASURED {
			return nil, &BootFault{answerName(said), uint32(at)}
		}
		return nil, logJudged(said, at)
	}
}
