package main

import (
	"errors"
	"fmt"
	"strings"

	"vinjakwe"
)

// attest prints what is said of a quote: attest LOG ATTEST NONCE REQUIRE HASH [LIST].
func attest(words []string) {
	expected := vinjakwe.Expected{Hash: hashes[words[5]], AnyNonce: words[3] == "any", AnySelection: words[4] == "any"}
	if !expected.AnyNonce {
		expected.Nonce = unhex(words[3])
	}
	if !expected.AnySelection {
		expected.Selection = unhex(words[4])
	}
	if len(words) > 6 && words[6] != "" {
		var err error
		if expected.Allow, err = vinjakwe.ParseAllowed(string(read(words[6]))); err != nil {
			line, _, _ := strings.Cut(err.Error(), " is no ")
			fmt.Fprintln(out, "no list at", line)
			return
		}
	}
	verdict, lacks, err := vinjakwe.Check(read(words[1]), unhex(words[2]), expected)
	switch {
	case errors.Is(err, vinjakwe.ErrNothing):
		fmt.Fprintln(out, "nothing to compare")
	case errors.Is(err, vinjakwe.ErrRequirement):
		fmt.Fprintln(out, "requirement refused")
	case err != nil:
		tell(err)
	case verdict == vinjakwe.Lacks:
		fmt.Fprintln(out, "lacks", lacks)
	case verdict == vinjakwe.Unknown:
		fmt.Fprintln(out, "unknown", lacks, "at", lacks.At)
	default:
		fmt.Fprintln(out, verdict)
	}
}
