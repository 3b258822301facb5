// Command table answers the lines of the table in checks/bindings.sh by the package, as the other bindings do.
package main

import (
	"bufio"
	"encoding/binary"
	"encoding/hex"
	"errors"
	"fmt"
	"os"
	"strconv"
	"strings"
	"unicode/utf16"

	"vinjakwe"
)

var out = bufio.NewWriter(os.Stdout)

var hashes = map[string]vinjakwe.Hash{"sha1": vinjakwe.SHA1, "sha256": vinjakwe.SHA256, "sha384": vinjakwe.SHA384}

var names = map[uint32]string{}

// unhex gives the bytes of hexadecimal text, none of -.
func unhex(text string) []byte {
	bytes, err := hex.DecodeString(strings.TrimPrefix(text, "-"))
	if err != nil {
		panic(err)
	}
	return bytes
}

func text(bytes []byte) string {
	if len(bytes) == 0 {
		return "-"
	}
	return hex.EncodeToString(bytes)
}

// tell prints an error as tpmtool does.
func tell(err error) {
	var refusal *vinjakwe.Refusal
	var fault *vinjakwe.LogFault
	switch {
	case errors.As(err, &refusal):
		fmt.Fprintf(out, "refused %03x at %d\n", refusal.Code, refusal.At)
	case errors.As(err, &fault):
		fmt.Fprintf(out, "log %s at %d\n", fault.Kind, fault.At)
	default:
		fmt.Fprintln(out, err)
	}
}

func command(bytes []byte) {
	it, err := vinjakwe.DecodeCommand(bytes)
	if err != nil {
		tell(err)
		return
	}
	fmt.Fprintf(out, "command %s size %d\n", names[it.Code], it.Size)
	for i, handle := range it.Handles {
		fmt.Fprintf(out, "handle %d %08x\n", i+1, handle)
	}
	for i, s := range it.Sessions {
		fmt.Fprintf(out, "session %d %08x nonce %s attributes %02x hmac %s\n", i+1, s.Handle, text(s.Nonce),
			s.Attributes, text(s.HMAC))
	}
	fmt.Fprintf(out, "parameters %s\n", text(it.Parameters))
}

func reply(name string, bytes []byte) {
	it, err := vinjakwe.DecodeResponse(vinjakwe.Commands[name], bytes)
	if err != nil {
		tell(err)
		return
	}
	if it.Code != 0 {
		fmt.Fprintf(out, "reply code %03x\n", it.Code)
		return
	}
	fmt.Fprintf(out, "reply %s size %d\n", name, len(bytes))
	for _, handle := range it.Handles {
		fmt.Fprintf(out, "handle 1 %08x\n", handle)
	}
	fmt.Fprintf(out, "parameters %s\n", text(it.Parameters))
	for i, s := range it.Sessions {
		fmt.Fprintf(out, "session %d nonce %s attributes %02x hmac %s\n", i+1, text(s.Nonce), s.Attributes, text(s.HMAC))
	}
}

func registers(it *vinjakwe.Registers, err error) {
	if err != nil {
		tell(err)
		return
	}
	for _, hash := range []string{"sha1", "sha256", "sha384"} {
		for i := 0; i < 24; i++ {
			fmt.Fprintf(out, "%s %d %x\n", hash, i, it.Value(hashes[hash], i))
		}
	}
}

func read(name string) []byte {
	bytes, err := os.ReadFile(name)
	if err != nil {
		panic(err)
	}
	return bytes
}

func events(log []byte) {
	it := vinjakwe.NewEvents(log)
	for it.Next() {
		event := it.Event()
		fmt.Fprintf(out, "%d %08x %s", event.Register, event.Type, text(event.Data))
		for _, digest := range event.Digests {
			fmt.Fprintf(out, " %04x:%s%s", uint16(digest.Hash), text(digest.Bytes), map[bool]string{true: "*"}[digest.Hashed])
		}
		fmt.Fprintln(out)
	}
	if it.Err() != nil {
		tell(it.Err())
	}
}

// vouched prints each record's register, and of each bank what the quote vouches for.
func vouched(log []byte, attest *vinjakwe.Attest) {
	for it := vinjakwe.NewEvents(log); it.Next(); {
		event := it.Event()
		fmt.Fprint(out, event.Register)
		parts := event.Vouched(attest)
		for _, name := range []string{"sha1", "sha256", "sha384"} {
			if part := parts[hashes[name]]; part != vinjakwe.Nothing {
				fmt.Fprintf(out, " %s:%s", name, part)
			}
		}
		fmt.Fprintln(out)
	}
}

// texts prints each record by the name of its type, with its text as JSON escapes it.
func texts(log []byte) {
	it := vinjakwe.NewEvents(log)
	for it.Next() {
		event := it.Event()
		name := event.TypeName()
		if name == "" {
			name = fmt.Sprintf("%08x", event.Type)
		}
		fmt.Fprintf(out, "%d %s", event.Register, name)
		if text, is := event.Text(); is {
			fmt.Fprint(out, " text ")
			for _, unit := range utf16.Encode([]rune(text)) {
				switch {
				case unit == '"' || unit == '\\':
					fmt.Fprintf(out, "\\%c", unit)
				case unit >= 0x20 && unit <= 0x7e:
					fmt.Fprintf(out, "%c", unit)
				default:
					fmt.Fprintf(out, "\\u%04x", unit)
				}
			}
		}
		fmt.Fprintln(out)
	}
	if it.Err() != nil {
		tell(it.Err())
	}
}

func frames(size int, stream []byte) {
	framer := vinjakwe.NewFramer()
	for len(stream) > 0 {
		if size > len(stream) {
			size = len(stream)
		}
		found, err := framer.Push(stream[:size])
		stream = stream[size:]
		for _, frame := range found {
			fmt.Fprintf(out, "frame %x\n", frame)
		}
		if err != nil {
			fmt.Fprintln(out, err)
			return
		}
	}
	if framer.Inside() {
		fmt.Fprintln(out, "inside")
	}
}

func main() {
	for name, code := range vinjakwe.Commands {
		names[code] = name
	}
	var device *vinjakwe.Device
	var caller *vinjakwe.Caller
	number := uint64(0)
	lines := bufio.NewReaderSize(os.Stdin, 1<<20)
	defer out.Flush()
	for {
		line, err := lines.ReadString('\n')
		if err != nil {
			return
		}
		words := append(strings.Fields(line), "", "", "", "")
		switch words[0] {
		case "command":
			command(unhex(words[1]))
		case "reply":
			reply(words[1], unhex(words[2]))
		case "build":
			built, err := vinjakwe.BuildCommand(vinjakwe.Commands[words[1]], unhex(words[2]), unhex(words[3]), unhex(words[4]))
			if err != nil {
				tell(err)
			} else {
				fmt.Fprintf(out, "%x\n", built)
			}
		case "log":
			registers(vinjakwe.Replay(read(words[1])))
		case "pieces":
			file, err := os.Open(words[1])
			if err != nil {
				panic(err)
			}
			registers(vinjakwe.ReplayFrom(file))
			file.Close()
		case "events":
			events(read(words[1]))
		case "texts":
			texts(read(words[1]))
		case "contents":
			contents(read(words[1]))
		case "objects":
			for it := vinjakwe.NewEvents(read(words[1])); it.Next(); {
				fmt.Fprintf(out, "%s\n", it.Event().JSON())
			}
		case "boot":
			boot(words)
		case "quote":
			verdict, err := vinjakwe.CheckQuote(read(words[1]), unhex(words[2]), hashes[words[3]])
			if err != nil {
				tell(err)
			} else {
				fmt.Fprintln(out, "quote", strings.TrimPrefix(verdict.String(), "digest "))
			}
		case "vouched":
			quote, err := vinjakwe.DecodeAttest(unhex(words[2]))
			if err != nil {
				panic(err)
			}
			vouched(read(words[1]), quote)
		case "attest":
			attest(words)
		case "frames":
			size, _ := strconv.Atoi(words[1])
			frames(size, unhex(words[2]))
		case "device":
			if device, err = vinjakwe.NewDevice(unhex(words[1]), 0); err != nil {
				tell(err)
			}
			caller, number = vinjakwe.NewCaller(), 0
		case "start", "seal", "open", "give-up":
			session(caller, words)
		case "power":
			device.PowerCycle()
			fmt.Fprintln(out, "power")
		case "execute":
			nonce := make([]byte, vinjakwe.NonceBytes)
			number++
			for i := 8; i < len(nonce); i += 16 {
				binary.BigEndian.PutUint64(nonce[i:], number)
			}
			response, _ := device.Execute(unhex(words[1]), nonce)
			fmt.Fprintf(out, "%x\n", response)
		case "zeros":
			size, _ := strconv.Atoi(words[1])
			zeros := make([]byte, size)
			copy(zeros, unhex(words[2]))
			command(zeros)
			registers(vinjakwe.Replay(zeros))
		case "code":
			code, _ := strconv.ParseUint(words[1], 16, 32)
			fmt.Fprintln(out, vinjakwe.CodeName(uint32(code)))
		}
	}
}
