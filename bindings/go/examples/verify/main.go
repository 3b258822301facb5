// Command verify says what booted on a machine, where a quote by this key vouches for it: verify LOG QUOTE SIGNATURE
// KEY NONCE REGISTERS [ALLOW]. The signature is as `tpm2_quote -s` writes it, the key in PEM, and ALLOW as the lines of
// `tpmtool check LOG --extends`. The status is 0 where each bank proves whether Secure Boot was on.
package main

import (
	"encoding/hex"
	"fmt"
	"os"
	"vinjakwe"
)

// tell prints what the registers of a bank say, where the quote vouches for it, whatever types the log has.
func tell(log []byte, attest *vinjakwe.Attest, quoted vinjakwe.SelectedBank) (status int) {
	boot, err := vinjakwe.SecureBoot(log, quoted.Bank)
	if err != nil || !quoted.Has(7) {
		boot, status = &vinjakwe.Boot{}, 1
	}
	fmt.Printf("bank %v\nSecure Boot %v\n", quoted.Bank, boot.State)
	for events := vinjakwe.NewEvents(log); events.Next(); {
		it := events.Event()
		variable, _ := it.VouchedVariable(attest, quoted.Bank)
		text, isText := it.VouchedText(attest, quoted.Bank)
		switch digest := it.Digest(quoted.Bank); {
		case it.Vouched(attest)[quoted.Bank] == vinjakwe.Nothing:
		case len(boot.Authorities) > 0 && boot.Authorities[0] == it.At:
			boot.Authorities = boot.Authorities[1:]
			fmt.Printf("authority %+q %x\n", variable.Name, digest)
		case it.Register == 4 && it.TypeName() == "EV_EFI_BOOT_SERVICES_APPLICATION":
			fmt.Printf("register 4 image %x\n", digest)
		case it.Register == 8 && isText:
			fmt.Printf("loader 8 %+q\n", text)
		case it.Register == 8:
			fmt.Printf("loader 8 %x\n", digest)
		}
	}
	return status
}

func must[T any](it T, err error) T {
	if err != nil {
		fmt.Println("not to be believed:", err)
		os.Exit(1)
	}
	return it
}

func main() {
	read := func(i int) []byte { return must(os.ReadFile(os.Args[i])) }
	log, quote, signature, key := read(1), read(2), read(3), must(vinjakwe.PublicKey(read(4)))
	wanted := vinjakwe.Expected{Nonce: must(hex.DecodeString(os.Args[5])), Selection: must(vinjakwe.Selection(os.Args[6]))}
	if len(os.Args) > 7 {
		wanted.Allow = must(vinjakwe.ParseAllowed(string(read(7))))
	}
	attest, status := must(vinjakwe.Verify(log, quote, signature, key, wanted)), 0
	for _, quoted := range attest.Selections {
		status |= tell(log, attest, quoted)
	}
	os.Exit(status)
}
