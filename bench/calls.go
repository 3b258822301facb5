// Calls a second from Go, as calls.c makes them from C.
package main

import (
	"encoding/hex"
	"fmt"
	"os"
	"strings"
	"time"

	"vinjakwe"
)

const rounds, roundTime = 5, 200 * time.Millisecond

func bytesOf(text string) []byte {
	bytes, err := hex.DecodeString(text)
	if err != nil {
		panic(err)
	}
	return bytes
}

func read(name string) []byte {
	bytes, err := os.ReadFile(name)
	if err != nil {
		panic(err)
	}
	return bytes
}

func printRate(name string, call func()) {
	most := 0.0
	for round := 0; round < rounds; round++ {
		start, count := time.Now(), 0
		for time.Since(start) < roundTime {
			for i := 0; i < 100; i++ {
				call()
			}
			count += 100
		}
		if rate := float64(count) / time.Since(start).Seconds(); rate > most {
			most = rate
		}
	}
	fmt.Printf("%s %.0f\n", name, most)
}

func main() {
	zeros := strings.Repeat("00", 32)
	command := bytesOf("80020000009700000182" + "00000010" + "00000049" + "02000000" + "0020" + zeros + "01" +
		"0020" + zeros + "00000002" + "0004" + zeros[:40] + "000b" + zeros)
	required := bytesOf("00000001000b03810000") // TPML_PCR_SELECTION: sha256:0,7
	log, quote := read(os.Args[1]), read(os.Args[2])
	expected := vinjakwe.Expected{Nonce: bytesOf(os.Args[3]), Selection: required, Hash: vinjakwe.SHA256}
	printRate("decode", func() {
		if decoded, err := vinjakwe.DecodeCommand(command); err != nil || len(decoded.Sessions) != 1 {
			panic("the command is refused")
		}
	})
	printRate("check", func() {
		verdict, _, err := vinjakwe.Check(log, quote, expected)
		if err != nil || verdict != vinjakwe.Matches {
			panic("the quote does not match the log")
		}
	})
}
