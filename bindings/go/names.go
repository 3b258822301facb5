package vinjakwe

/*
#include "vinjakwe.h"

struct vinjakwe_named {
	uint32_t number;
	const char *name;
};

#define COMMAND(name) {TPM_CC_##name, #name}

const struct vinjakwe_named vinjakwe_commands[] = {
	COMMAND(NV_UndefineSpace), COMMAND(NV_DefineSpace), COMMAND(NV_Increment), COMMAND(PCR_Event), COMMAND(PCR_Reset),
	COMMAND(Startup), COMMAND(NV_Read), COMMAND(FlushContext), COMMAND(NV_ReadPublic), COMMAND(PolicyAuthValue),
	COMMAND(PolicyCommandCode), COMMAND(PolicyOR), COMMAND(StartAuthSession), COMMAND(PCR_Read), COMMAND(PolicyPCR),
	COMMAND(PolicyRestart), COMMAND(PCR_Extend), COMMAND(PolicyGetDigest),
};
*/
import "C"

import "fmt"

// Commands has the number of each command by its name in Part 3.
var Commands = map[string]uint32{}

func init() {
	for _, it := range C.vinjakwe_commands {
		Commands[C.GoString(it.name)] = uint32(it.number)
	}
}

// CodeName is the name of a response code in Part 2, 6.6.3, with the handle, session or parameter that it tells, or its
// number.
func CodeName(code uint32) string {
	var name [C.TPM_CODE_NAME_BYTES]byte
	if count := C.tpm_code_name(C.uint32_t(code), place(name[:]), size(name[:])); count > 0 {
		return string(name[:count])
	}
	return fmt.Sprintf("%#x", code)
}
