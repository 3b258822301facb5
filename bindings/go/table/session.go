package main

import (
	"fmt"

	"vinjakwe"
)

// session prints what a caller does: start COMMAND REPLY BIND_AUTH, seal COMMAND FIRST SECOND AUTH NONCE keep|last,
// open REPLY, or give-up REPLY.
func session(caller *vinjakwe.Caller, words []string) {
	switch words[0] {
	case "start":
		done("started", caller.Start(unhex(words[1]), unhex(words[2]), unhex(words[3])))
	case "seal":
		sealed, err := caller.Seal(unhex(words[1]), unhex(words[2]), unhex(words[3]), unhex(words[4]), unhex(words[5]),
			words[6] == "keep")
		if err != nil {
			fmt.Fprintln(out, "not sealed")
		} else {
			fmt.Fprintf(out, "%x\n", sealed)
		}
	case "open":
		done("opened", caller.Open(unhex(words[1])))
	case "give-up":
		done("given up", caller.GiveUp(unhex(words[1])))
	}
}

// done prints the word of a call, behind "not" where it gave an error.
func done(word string, err error) {
	if err != nil {
		word = "not " + word
	}
	fmt.Fprintln(out, word)
}
