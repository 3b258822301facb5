package main

import (
	"errors"
	"fmt"

	"vinjakwe"
)

// boot prints what a log tells of Secure Boot: boot LOG BANK.
func boot(words []string) {
	var fault *vinjakwe.BootFault
	it, err := vinjakwe.SecureBoot(read(words[1]), hashes[words[2]])
	if errors.As(err, &fault) {
		fmt.Fprintf(out, "secure-boot %s unknown %s at %d\n", words[2], fault.Kind, fault.At)
		return
	} else if err != nil {
		tell(err)
		return
	}
	fmt.Fprintf(out, "secure-boot %s %v\n", words[2], it.State)
	if it.DMAProtectionDisabled {
		fmt.Fprintln(out, "dma-protection disabled")
	}
	for i, at := range []uint32{it.PK, it.KEK, it.DB, it.DBX} {
		if at != 0 {
			fmt.Fprintf(out, "%s at %d\n", []string{"PK", "KEK", "db", "dbx"}[i], at)
		}
	}
	for _, at := range it.Authorities {
		fmt.Fprintf(out, "authority at %d\n", at)
	}
}
