package vinjakwe

import (
	"bytes"
	"crypto"
	"crypto/rsa"
	"crypto/sha256"
	"encoding/asn1"
	"encoding/hex"
	"encoding/json"
	"errors"
	"fmt"
	"math/big"
	"os"
	"path/filepath"
	"reflect"
	"strings"
	"testing"
)

const checks = "../../checks/"

var hashes = [...]Hash{SHA1, SHA256, SHA384}

func read(t *testing.T, name string) []byte {
	t.Helper()
	found, err := os.ReadFile(checks + name)
	if err != nil {
		t.Fatal(err)
	}
	return found
}

type signedQuote struct {
	log, quote, nonce []byte
	selected          string
	hash              Hash
}

func quotes(t *testing.T) (found []signedQuote) {
	t.Helper()
	for _, line := range strings.Split(strings.TrimSpace(string(read(t, "quotes/cases.txt"))), "\n") {
		words := strings.Fields(line)
		nonce, err := hex.DecodeString(words[3])
		if err != nil {
			t.Fatal(err)
		}
		it := signedQuote{read(t, "quotes/"+words[1]), read(t, "quotes/"+words[0]+".msg"), nonce, words[4], 0}
		for _, hash := range hashes {
			if hash.String() == words[2] {
				it.hash = hash
			}
		}
		found = append(found, it)
	}
	return found
}

func TestRegistersOfALog(t *testing.T) {
	log := read(t, "logs/worked.log")
	registers, err := Replay(log)
	if err != nil {
		t.Fatal(err)
	}
	var lines strings.Builder
	for _, hash := range hashes {
		for i := 0; i < 24; i++ {
			fmt.Fprintf(&lines, "%v %d %x\n", hash, i, registers.Value(hash, i))
		}
	}
	if lines.String() != string(read(t, "logs/worked.registers")) {
		t.Error("the registers are others")
	}
	if again, err := ReplayFrom(bytes.NewReader(log)); err != nil || *again != *registers {
		t.Error("the registers of a reader are others", err)
	}
}

func TestFaultOfALogThatIsCut(t *testing.T) {
	var fault *LogFault
	if _, err := Replay(read(t, "logs/cut_by_a_byte.log")); !errors.As(err, &fault) ||
		*fault != (LogFault{"Truncated", 211}) {
		t.Error(err)
	}
}

// The last record of the log, of Shim, has a byte behind its variable.
func TestVariablesOfALog(t *testing.T) {
	var names []string
	events := NewEvents(read(t, "logs/secure_on.log"))
	for events.Next() {
		if it, is := events.Event().Variable(); is {
			names = append(names, it.Name)
			if it.Name == "SecureBoot" && !bytes.Equal(it.Value, []byte{1}) {
				t.Error(it)
			}
		}
	}
	if found := strings.Join(names, " "); events.Err() != nil || found != "SecureBoot PK KEK db dbx db" {
		t.Error(found, events.Err())
	}
}

// Each list beside a log has a line for a record, whose third word is the type's name, whose sixth is its place, and
// whose eighth may be "text".
func TestNamesAndTextsOfEachLogWithAList(t *testing.T) {
	lists, err := filepath.Glob(checks + "logs/*.events")
	if err != nil || len(lists) == 0 {
		t.Fatal(lists, err)
	}
	for _, list := range lists {
		name := strings.TrimSuffix(filepath.Base(list), ".events")
		events := NewEvents(read(t, "logs/"+name+".log"))
		for _, line := range strings.Split(strings.TrimSpace(string(read(t, "logs/"+name+".events"))), "\n") {
			words := append(strings.SplitN(line, " ", 9), "", "")
			if line == "" || words[0] == "log" {
				continue
			}
			if !events.Next() {
				t.Fatal(name, line)
			}
			it := events.Event()
			found, wanted := it.TypeName(), words[2]
			if found == "" {
				found = fmt.Sprintf("%08x", it.Type)
			}
			text, is := it.Text()
			// Of text in UTF-8 beyond ASCII the list has its size.
			is = is && (words[7] != "size" || text == strings.Map(ascii, text))
			if found != wanted || fmt.Sprintf("at=%d", it.At) != words[5] || is != (words[7] == "text") {
				t.Error(name, line, found, text)
			} else if is && !strings.Contains(words[8], `\`) && text != words[8] {
				t.Error(name, line, text)
			}
		}
	}
}

// ascii leaves out what is not of ASCII.
func ascii(it rune) rune {
	if it < 0x80 {
		return it
	}
	return -1
}

// boots gives what the lists beside the logs say of Secure Boot: the lines of each bank, without what the variables
// hold.
func boots(t *testing.T) map[string]map[string][]string {
	t.Helper()
	files, err := filepath.Glob(checks + "logs/*.secure")
	if err != nil || len(files) == 0 {
		t.Fatal(files, err)
	}
	found := map[string]map[string][]string{}
	for _, file := range files {
		name, bank := "logs/"+strings.TrimSuffix(filepath.Base(file), ".secure"), ""
		found[name] = map[string][]string{}
		for _, line := range strings.Split(strings.TrimSpace(string(read(t, name+".secure"))), "\n") {
			if words := strings.Fields(line); words[0] == "secure-boot" {
				bank, line = words[1], strings.Join(words[2:], " ")
			}
			line, _, _ = strings.Cut(line, " size ")
			line, _, _ = strings.Cut(line, " variable ")
			found[name][bank] = append(found[name][bank], line)
		}
	}
	return found
}

func bootLines(log []byte, hash Hash) (lines []string) {
	var fault *BootFault
	it, err := SecureBoot(log, hash)
	if errors.As(err, &fault) {
		return []string{fmt.Sprintf("unknown %s at %d", fault.Kind, fault.At)}
	} else if err != nil {
		return []string{err.Error()}
	}
	lines = append(lines, it.State.String())
	if it.DMAProtectionDisabled {
		lines = append(lines, "dma-protection disabled")
	}
	for i, at := range []uint32{it.PK, it.KEK, it.DB, it.DBX} {
		if at != 0 {
			lines = append(lines, fmt.Sprintf("%s at %d", []string{"PK", "KEK", "db", "dbx"}[i], at))
		}
	}
	for _, at := range it.Authorities {
		lines = append(lines, fmt.Sprintf("authority at %d", at))
	}
	return lines
}

func TestSecureBootOfEachLogWithAList(t *testing.T) {
	for name, banks := range boots(t) {
		log := read(t, name+".log")
		for _, hash := range hashes {
			wanted, listed := banks[hash.String()]
			if found := bootLines(log, hash); listed && strings.Join(found, "\n") != strings.Join(wanted, "\n") {
				t.Error(name, hash, found, wanted)
			}
		}
	}
}

func TestTheRecordsThatSecureBootNames(t *testing.T) {
	log := read(t, "logs/secure_on.log")
	boot, err := SecureBoot(log, SHA256)
	if err != nil {
		t.Fatal(err)
	}
	found, events := map[uint32]string{}, NewEvents(log)
	for events.Next() {
		if it, is := events.Event().Variable(); is {
			found[events.Event().At] = it.Name
		}
	}
	if found[boot.PK] != "PK" || found[boot.KEK] != "KEK" || found[boot.DB] != "db" || found[boot.DBX] != "dbx" ||
		found[boot.Authorities[0]] != "db" {
		t.Error(boot, found)
	}
}

func TestSecureBootOfOtherLogs(t *testing.T) {
	var fault *LogFault
	if _, err := SecureBoot(read(t, "logs/cut_by_a_byte.log"), SHA256); !errors.As(err, &fault) ||
		*fault != (LogFault{"Truncated", 211}) {
		t.Error(err)
	}
	if _, err := SecureBoot(nil, 5); !errors.Is(err, ErrNoBank) {
		t.Error(err)
	}
	log := read(t, "logs/secure_on.log")
	it, err := SecureBoot(log, SHA256)
	if err != nil {
		t.Fatal(err)
	}
	last := log[it.Authorities[len(it.Authorities)-1]:]
	more, err := SecureBoot(append(log, bytes.Repeat(last, 40)...), SHA256)
	if err != nil || len(more.Authorities) != len(it.Authorities)+40 ||
		more.Authorities[len(it.Authorities)] != uint32(len(log)) {
		t.Error(more, err)
	}
}

func TestEachQuoteMatchesItsLog(t *testing.T) {
	for _, it := range quotes(t) {
		require, err := Selection(it.selected)
		if err != nil {
			t.Fatal(err)
		}
		wanted := Expected{Nonce: it.nonce, Selection: require, Hash: it.hash}
		if verdict, _, err := Check(it.log, it.quote, wanted); verdict != Matches || err != nil {
			t.Error(verdict, err)
		}
		wanted.Nonce = append(wanted.Nonce, 0)
		if verdict, _, err := Check(it.log, it.quote, wanted); verdict != Nonce || err != nil {
			t.Error(verdict, err)
		}
		attest, err := DecodeAttest(it.quote)
		if err != nil {
			t.Fatal(err)
		}
		if !bytes.Equal(attest.Nonce, it.nonce) {
			t.Errorf("nonce %x", attest.Nonce)
		}
		if verdict, err := CheckQuote(it.log, attest.Info, it.hash); verdict != Matches || err != nil {
			t.Error(verdict, err)
		}
		if _, err := CheckQuote(it.log, it.quote, it.hash); !errors.Is(err, ErrAttest) {
			t.Error(err)
		}
	}
}

func TestAnotherSignerAndASizeBeforeAQuote(t *testing.T) {
	for _, it := range quotes(t) {
		signed, err := DecodeAttest(it.quote)
		if err != nil {
			t.Fatal(err)
		}
		expected := Expected{Nonce: it.nonce, AnySelection: true, Signer: signed.Signer, Hash: it.hash}
		if verdict, _, err := Check(it.log, it.quote, expected); verdict != Matches || err != nil {
			t.Errorf("%v %v", verdict, err)
		}
		expected.Signer = signed.Signer[1:]
		if verdict, _, err := Check(it.log, it.quote, expected); verdict != Signer || err != nil {
			t.Errorf("%v %v", verdict, err)
		}
		sized := append([]byte{0, byte(len(it.quote))}, it.quote...)
		if _, err := DecodeAttest(sized); err != ErrSized {
			t.Error(err)
		}
		if _, _, err := Check(it.log, sized, expected); err != ErrSized {
			t.Error(err)
		}
		sized[1] ^= 1
		if _, err := DecodeAttest(sized); !errors.As(err, new(*Refusal)) {
			t.Error(err)
		}
	}
}

func TestWhatIsVouchedOfEachRecord(t *testing.T) {
	for _, it := range quotes(t) {
		attest, err := DecodeAttest(it.quote)
		if err != nil {
			t.Fatal(err)
		}
		for events := NewEvents(it.log); events.Next(); {
			event, wanted := events.Event(), map[Hash]Part{}
			for hash, part := range event.Measured() {
				for _, entry := range attest.Selections {
					if entry.Bank != hash || !entry.Has(event.Register) || event.Type == 3 {
						continue
					}
					wanted[hash] = part
					if part == Other {
						wanted[hash] = DigestAlone
					}
				}
			}
			if found := event.Vouched(attest); !reflect.DeepEqual(found, wanted) {
				t.Errorf("%v in place of %v", found, wanted)
			}
		}
	}
}

func TestNamesOfWhatIsVouched(t *testing.T) {
	digest := [32]byte{}
	event := Event{Register: 4, Type: 0x80000003, Digests: []Digest{{SHA256, digest[:], false}}, Data: []byte("path")}
	attest, err := DecodeAttest(read(t, "quotes/ecc-sha256.msg"))
	if err != nil {
		t.Fatal(err)
	}
	if found := event.Vouched(attest); found[SHA256].String() != "digest" || found[SHA1].String() != "-" {
		t.Error(found)
	}
	if found := event.Measured()[SHA256].String(); found != "other" {
		t.Error(found)
	}
	event.Register = 8
	if found := event.Vouched(attest)[SHA256]; found != Nothing || found.String() != "-" {
		t.Error(found)
	}
}

// EFI_GLOBAL_VARIABLE, as the UEFI Specification writes it and as the record of SecureBoot has it.
func TestTextOfAGUID(t *testing.T) {
	const global = "8be4df61-93ca-11d2-aa0d-00e098032b8c"
	it := GUID{0x61, 0xdf, 0xe4, 0x8b, 0xca, 0x93, 0xd2, 0x11, 0xaa, 0x0d, 0x00, 0xe0, 0x98, 0x03, 0x2b, 0x8c}
	if it.String() != global {
		t.Error(it)
	}
	count := 0
	for events := NewEvents(read(t, "quotes/17-ovmf-secureboot.log")); events.Next(); {
		if found, is := events.Event().Variable(); is && found.Name == "SecureBoot" {
			count++
			if found.GUID.String() != global {
				t.Error(found.GUID)
			}
		}
	}
	if count != 1 {
		t.Error(count)
	}
}

func TestTextsAndVariablesThatAreVouched(t *testing.T) {
	attest, err := DecodeAttest(read(t, "quotes/ecc-sha256.msg"))
	if err != nil {
		t.Fatal(err)
	}
	record := func(kind uint32, data, measured string) Event {
		digest := sha256.Sum256([]byte(measured))
		return Event{Register: 7, Type: kind, Digests: []Digest{{SHA256, digest[:], false}}, Data: []byte(data)}
	}
	line := "kernel_cmdline: quiet splash"
	for _, it := range []struct{ data, measured, wanted string }{
		{line, line, line}, {line, "quiet splash", "quiet splash"}, {line, "other", ""}, {line, line[1:], ""},
		{"grub_cmd: quiet splash", "quiet splash", "quiet splash"}, {"grub_cmd quiet\x00", "quiet", "quiet"},
		{"module_cmdline: quiet", "quiet", "quiet"}, {"grub_kernel_cmdline quiet", "quiet", "quiet"},
	} {
		event := record(0xd, it.data, it.measured)
		if text, is := event.VouchedText(attest, SHA256); is != (it.wanted != "") || text != it.wanted {
			t.Error(it, text, is)
		}
		event.Register = 8
		if _, is := event.VouchedText(attest, SHA256); is {
			t.Error(it)
		}
	}
	variable := strings.Repeat("\x00", 16) + "\x02" + strings.Repeat("\x00", 7) + "\x03" + strings.Repeat("\x00", 7) +
		"d\x00b\x00key"
	for _, it := range []struct {
		data, measured string
		wanted         bool
	}{
		{variable, variable, true}, {variable + "0", variable, true}, {variable, "key", false},
		{variable, "other", false}, {variable + "0", variable + "0", false},
	} {
		found, is := record(0x800000e0, it.data, it.measured).VouchedVariable(attest, SHA256)
		if is != it.wanted || is && (found.Name != "db" || string(found.Value) != "key") {
			t.Error(it, found, is)
		}
	}
}

// signed gives the signature of a quote, whose spelling is written here, and its key.
func signed(t *testing.T, name string, it signedQuote) ([]byte, crypto.PublicKey) {
	t.Helper()
	key, err := PublicKey(read(t, "quotes/"+name+".pem"))
	if err != nil {
		t.Fatal(err)
	}
	sig, parts := read(t, "quotes/"+name+".sig"), [][]byte{}
	spelled := []byte{0, byte(RSASSA), 0, byte(it.hash)}
	if _, isRSA := key.(*rsa.PublicKey); isRSA {
		parts = append(parts, sig)
	} else {
		var numbers struct{ R, S *big.Int }
		if _, err := asn1.Unmarshal(sig, &numbers); err != nil {
			t.Fatal(err)
		}
		spelled[1] = byte(ECDSA)
		parts = append(parts, numbers.R.Bytes(), numbers.S.Bytes())
	}
	for _, part := range parts {
		spelled = append(append(spelled, byte(len(part)>>8), byte(len(part))), part...)
	}
	return spelled, key
}

func TestEachQuoteIsByItsKey(t *testing.T) {
	names := []string{"ecc-sha256", "ecc-two-banks", "rsa-sha1", "not-measured"}
	_, other := signed(t, names[2], quotes(t)[2])
	for i, it := range quotes(t) {
		spelled, key := signed(t, names[i], it)
		attest, err := DecodeAttest(it.quote)
		if err != nil {
			t.Fatal(err)
		}
		expected := Expected{Nonce: it.nonce, AnySelection: true}
		if found, err := Verify(it.log, it.quote, spelled, key, expected); err != nil || !reflect.DeepEqual(found, attest) {
			t.Error(found, err)
		}
		verdict := func(quote, spelled []byte, key crypto.PublicKey, expected Expected) Verdict {
			var mismatch *Mismatch
			found, err := Verify(it.log, quote, spelled, key, expected)
			if found != nil || !errors.As(err, &mismatch) {
				t.Fatal(found, err)
			}
			return mismatch.Verdict
		}
		if i != 2 && verdict(it.quote, spelled, other, expected) != Unsigned ||
			verdict(append(append([]byte{}, it.quote...), 0), spelled, key, expected) != Unsigned ||
			verdict(it.quote, append(append([]byte{}, spelled[:len(spelled)-1]...), ^spelled[len(spelled)-1]), key,
				expected) != Unsigned ||
			verdict(it.quote, spelled, key, Expected{Nonce: []byte{1}, AnySelection: true}) != Nonce {
			t.Error("not the verdict that is wanted")
		}
		if _, err := Verify(it.log, it.quote, nil, key, expected); !errors.As(err, new(*Refusal)) {
			t.Error(err)
		}
	}
	if _, err := PublicKey([]byte("key")); !errors.Is(err, ErrPEM) {
		t.Error(err)
	}
}

func TestWhatAMismatchSays(t *testing.T) {
	for mismatch, wanted := range map[Mismatch]string{
		{Verdict: Differs}: "digest differs", {Verdict: Nonce}: "nonce differs", {Verdict: Empty}: "selects nothing",
		{Lacks, Selected{SHA1, 7, 0}}:      "selection lacks sha1 7",
		{Unknown, Selected{SHA256, 4, 73}}: "unknown sha256 4 at 73",
		{Verdict: Unsigned}:                "not signed by the key",
	} {
		if found := mismatch.Error(); found != wanted {
			t.Error(found)
		}
	}
}

func TestTheHashByTheLengthOfTheDigest(t *testing.T) {
	for _, it := range quotes(t) {
		verdict, _, err := Check(it.log, it.quote, Expected{Nonce: it.nonce, AnySelection: true})
		if verdict != Matches || err != nil {
			t.Error(verdict, err)
		}
	}
}

func TestAListOfDigests(t *testing.T) {
	it := quotes(t)[0]
	var lines []string
	var first Event
	for events := NewEvents(it.log); events.Next(); {
		event := events.Event()
		if event.Type == 3 || event.Register > 7 {
			continue
		}
		if len(lines) == 0 {
			first = event
		}
		lines = append(lines, fmt.Sprintf("sha256 %d %x words # a comment", event.Register, event.Digest(SHA256)))
	}
	expected := Expected{Nonce: it.nonce, AnySelection: true, Hash: it.hash}
	for text, wanted := range map[string]Verdict{
		"# a boot\n\n" + strings.Join(lines, "\n"): Matches,
		strings.ReplaceAll(strings.Join(lines, "\n"), fmt.Sprintf("%x", first.Digest(SHA256)), strings.Repeat("00", 32)): Unknown,
		"sha256 9 " + strings.Repeat("00", 32): Lacks,
	} {
		var err error
		if expected.Allow, err = ParseAllowed(text); err != nil {
			t.Fatal(err)
		}
		verdict, place, err := Check(it.log, it.quote, expected)
		if verdict != wanted || err != nil || verdict == Unknown && place != (Selected{SHA256, first.Register, first.At}) {
			t.Errorf("%v %v %v", verdict, place, err)
		}
	}
	// The first by bank and register, whatever the list's order.
	zeros := strings.Repeat("00", 48)
	allowed, err := ParseAllowed("sha384 0 " + zeros + "\nsha256 9 " + zeros[:64] + "\nsha1 23 " + zeros[:40] +
		"\nsha256 8 " + zeros[:64] + "\nsha1 3 " + zeros[:40])
	if err != nil {
		t.Fatal(err)
	}
	expected.Allow = allowed
	verdict, place, err := Check(it.log, it.quote, expected)
	if verdict != Lacks || place != (Selected{Bank: SHA1, Register: 3}) || err != nil {
		t.Errorf("%v %v %v", verdict, place, err)
	}
}

func TestAListWithoutADigest(t *testing.T) {
	for _, it := range quotes(t) {
		expected := Expected{Nonce: it.nonce, AnySelection: true, Hash: it.hash}
		if verdict, _, err := Check(it.log, it.quote, expected); verdict != Matches || err != nil {
			t.Error(verdict, err)
		}
		for _, text := range []string{"", "# none", "  \n#", "\n\n", "# sha256 0 " + strings.Repeat("00", 32)} {
			allowed, err := ParseAllowed(text)
			if allowed == nil || len(allowed) != 0 || err != nil {
				t.Errorf("%q %v %v", text, allowed, err)
			}
			expected.Allow = allowed
			if verdict, _, err := Check(it.log, it.quote, expected); verdict == Matches || !errors.Is(err, ErrNothing) {
				t.Errorf("%q %v %v", text, verdict, err)
			}
		}
		// What is given where a line is none allows nothing, whoever leaves the error alone.
		expected.Allow, _ = ParseAllowed("sha256 4")
		if verdict, _, err := Check(it.log, it.quote, expected); verdict == Matches || !errors.Is(err, ErrNothing) {
			t.Error(verdict, err)
		}
	}
}

// As the proved reader takes it: checks/check.txt has the same lines.
func TestHowAListIsSpelled(t *testing.T) {
	line, zeros, many := "sha256 4 "+strings.Repeat("0a", 32), strings.Repeat("00", 32), strings.Repeat(" ", 100000)
	replaced := func(old, new string) string { return strings.Replace(line, old, new, 1) }
	rights := []string{
		line, "sha256 4 " + strings.Repeat("0A", 32), line + "#", line + " ", line + " words", line + " \r", line + " \t",
		line + "  # words", line + "\n", "\n\n" + line, "   \n" + line, "  # words\n" + line, "#" + many + "\n" + line,
		line + many, "# \x85\xff\n" + line,
	}
	for _, between := range []string{"\f", "\v", "\r", "\x1c", "\x1d", "\x1e", "\x85", "\u0085", "\u2028", "\t"} {
		rights = append(rights, "# words"+between+line+"\n"+line)
	}
	for _, text := range rights {
		allowed, err := ParseAllowed(text)
		if err != nil || len(allowed) != 1 {
			t.Errorf("%.80q %v %v", text, allowed, err)
			continue
		}
		it := allowed[0]
		for i, found := range it.digest {
			if it.pcr != 4 || Hash(it.hash) != SHA256 || found != 10 && i < 32 || found != 0 && i >= 32 {
				t.Errorf("%.80q %v", text, it)
			}
		}
	}
	for _, text := range []string{
		"sha256 4", "md5 4 00", "sha256 24 " + zeros, "sha256 4 " + zeros[1:] + "g", "sha256 4 " + zeros[2:], line + "0",
		line + "00", " " + line, replaced(" ", "  "), replaced(" 4 ", " 4  "), strings.ReplaceAll(line, " ", "\t"),
		line + "\t", line + "\r", "\r", "\t", "\f", replaced("4", "04"), replaced("4", "+4"), replaced("4", "-4"),
		replaced("4", "0x4"), replaced("4", "\u0664"), replaced("4", "100"), replaced("0a", "\u0660a"), strings.ToUpper(line),
		"sha512 4 " + zeros + zeros, replaced(" 0a", " #0a"), line + "\x00", "\ufeff" + line,
	} {
		_, err := ParseAllowed("# a list\n" + line + "\n" + text + "\nneither")
		if err == nil || err.Error() != "line 3 is no bank, register and digest, as sha256 4 DIGEST" {
			t.Errorf("%q %v", text, err)
		}
	}
}

func TestSignaturesByTheirParts(t *testing.T) {
	for _, scheme := range []uint16{RSASSA, RSAPSS} {
		it, err := DecodeSignature(append([]byte{0, byte(scheme), 0, 0xb, 0, 3}, "sig"...))
		if err != nil || it.Scheme != scheme || it.Hash != SHA256 || string(it.Sig) != "sig" || it.R.Sign() != 0 {
			t.Errorf("%v %v", it, err)
		}
	}
	ecdsa := []byte{0, 0x18, 0, 4, 0, 2, 1, 2, 0, 1, 3}
	it, err := DecodeSignature(ecdsa)
	if err != nil || it.Scheme != ECDSA || it.Hash != SHA1 || it.R.Int64() != 258 || it.S.Int64() != 3 {
		t.Errorf("%v %v", it, err)
	}
	var refusal *Refusal
	if _, err := DecodeSignature(ecdsa[:10]); !errors.As(err, &refusal) || *refusal != (Refusal{0x9a, 10}) {
		t.Error(err)
	}
	if said := (&Refusal{0, 3}).Error(); said != "refused at 3" {
		t.Error(said)
	}
}

func TestNamesOfCodes(t *testing.T) {
	for code, name := range map[uint32]string{
		0: "TPM_RC_SUCCESS", 0x921: "TPM_RC_LOCKOUT", 0x9a2: "TPM_RC_BAD_AUTH for session 1",
		0xfe1: "TPM_RC_RESERVED_BITS for parameter 15", 0x184: "TPM_RC_VALUE for handle 1", 0x1084: "0x1084",
	} {
		if found := CodeName(code); found != name {
			t.Errorf("%#x is %s", code, found)
		}
	}
}

func TestImagesOfEachLogWithAList(t *testing.T) {
	lists, _ := filepath.Glob(checks + "logs/*.json")
	files := map[string]bool{}
	for _, list := range lists {
		name := "logs/" + strings.TrimSuffix(filepath.Base(list), ".json")
		events := NewEvents(read(t, name+".log"))
		for _, line := range strings.Split(strings.TrimSpace(string(read(t, name+".json"))), "\n") {
			var told struct {
				Measured map[string]string
				Image    *struct {
					Address, Link string
					Length        uint64
				}
			}
			if err := json.Unmarshal([]byte(line), &told); err != nil {
				t.Fatal(err)
			}
			if told.Measured == nil || !events.Next() {
				continue
			}
			if found := string(events.Event().JSON()); found != line {
				t.Error(found, line)
			}
			it, is := events.Event().Image()
			// An image whose device path has a fault is none in the list.
			if told.Image != nil && (!is || fmt.Sprintf("%#x", it.Address) != told.Image.Address ||
				it.Size != told.Image.Length || fmt.Sprintf("%#x", it.LinkAddress) != told.Image.Link) {
				t.Error(line, it)
			}
			files[it.File()] = true
		}
	}
	if !files[`\EFI\BOOT\BOOTX64.EFI`] {
		t.Error(files)
	}
}

// The list beside the log has the partitions of each disk.
func TestPartitionsOfALog(t *testing.T) {
	events := NewEvents(read(t, "logs/partitions.log"))
	found := 0
	for _, line := range strings.Split(strings.TrimSpace(string(read(t, "logs/partitions.json"))), "\n") {
		var told struct {
			Number     int
			Measured   map[string]string
			Partitions *struct {
				Count int
				List  []struct {
					First, Last uint64
					Name        string
				}
			}
		}
		if err := json.Unmarshal([]byte(line), &told); err != nil {
			t.Fatal(err)
		}
		if told.Measured == nil || !events.Next() || told.Partitions == nil {
			continue
		}
		it, is := events.Event().Content().(Partitions)
		if !is || len(it.Partitions) != told.Partitions.Count || len(told.Partitions.List) != told.Partitions.Count {
			t.Fatal(line, it)
		}
		for i, wanted := range told.Partitions.List {
			one := it.Partitions[i]
			if one.First != wanted.First || one.Last != wanted.Last || one.Name != wanted.Name {
				t.Error(line, one)
			}
			found++
		}
	}
	if found == 0 {
		t.Error("no partition")
	}
}

func TestContentsOfOtherRecords(t *testing.T) {
	event := Event{Type: 4, Data: []byte{0xff, 0xff, 0xff, 0xff}}
	if event.Content() != Separator(0xffffffff) {
		t.Error(event.Content())
	}
	event.Data = nil
	if event.Content() != nil {
		t.Error(event.Content())
	}
	for events := NewEvents(read(t, "logs/secure_on.log")); events.Next(); {
		if it, is := events.Event().Content().(VariableContent); is && it.Name == "SecureBoot" && it.Holds != HeldByte(1) {
			t.Error(it)
		}
	}
}

// The lists beside the logs have of each record what each digest is of.
func TestWhatWasMeasuredOfEachLogWithAList(t *testing.T) {
	lists, _ := filepath.Glob(checks + "logs/*.json")
	for _, list := range lists {
		name := "logs/" + strings.TrimSuffix(filepath.Base(list), ".json")
		events := NewEvents(read(t, name+".log"))
		for _, line := range strings.Split(strings.TrimSpace(string(read(t, name+".json"))), "\n") {
			var told struct{ Measured map[string]string }
			if err := json.Unmarshal([]byte(line), &told); err != nil {
				t.Fatal(err)
			}
			if told.Measured == nil {
				continue
			}
			events.Next()
			found := map[string]string{}
			for hash, part := range events.Event().Measured() {
				found[hash.String()] = part.String()
			}
			if !reflect.DeepEqual(found, told.Measured) {
				t.Errorf("%s: %v in place of %v", name, found, told.Measured)
			}
		}
	}
}

func TestNothingComparedIsNoSuccess(t *testing.T) {
	noRegister, _ := hex.DecodeString("00000001000b03000000")
	for _, it := range quotes(t) {
		require, err := Selection(it.selected)
		if err != nil {
			t.Fatal(err)
		}
		for _, wanted := range []Expected{
			{Hash: it.hash}, {Nonce: it.nonce, Hash: it.hash}, {Selection: require, Hash: it.hash},
			{Nonce: it.nonce, Selection: make([]byte, 4), Hash: it.hash},
			{Nonce: it.nonce, Selection: noRegister, Hash: it.hash},
		} {
			if verdict, _, err := Check(it.log, it.quote, wanted); verdict == Matches || !errors.Is(err, ErrNothing) {
				t.Error(wanted, verdict, err)
			}
		}
		for _, wanted := range []Expected{
			{AnyNonce: true, Selection: require, Hash: it.hash}, {Nonce: it.nonce, AnySelection: true, Hash: it.hash},
		} {
			if verdict, _, err := Check(it.log, it.quote, wanted); verdict != Matches || err != nil {
				t.Error(wanted, verdict, err)
			}
		}
	}
	// The digest of no register is SHA-256 of no bytes.
	empty, _ := hex.DecodeString("000000000020e3b0c44298fc1c149afbf4c8996fb92427ae41e4649b934ca495991b7852b855")
	if verdict, err := CheckQuote(read(t, "logs/worked.log"), empty, SHA256); verdict != Empty || err != nil {
		t.Error(verdict, err)
	}
}

func TestListsOfRegisters(t *testing.T) {
	spelled, err := Selection("sha256:0,7+sha1:1")
	if err != nil || hex.EncodeToString(spelled) != "00000003000403020000000b03810000000c03000000" {
		t.Errorf("%x %v", spelled, err)
	}
	for _, text := range []string{"", "sha256", "sha256:", "sha256:24", "sha256:-1", "md5:0", "sha256:0+", "sha256:0,"} {
		if _, err := Selection(text); !errors.Is(err, ErrList) {
			t.Errorf("%q: %v", text, err)
		}
	}
}

// As in examples/policy.c: the digests are those of Python's hashlib.
func TestDigestOfAPolicy(t *testing.T) {
	selected, _ := hex.DecodeString("00000001000b03810000")
	composite, _ := hex.DecodeString("f5a5fd42d16a20302798ef6ed309979b43003d2320d9f0e8ea9831a92759fb4b")
	policy, _ := NewPolicy(SHA256)
	known, _ := NewPolicy(SHA256)
	if err := policy.PCR(selected, composite); err != nil {
		t.Fatal(err)
	}
	policy.CommandCode(Commands["NV_Increment"])
	known.AuthValue()
	if err := policy.Or(policy.Digest(), known.Digest()); err != nil {
		t.Fatal(err)
	}
	if policy.String() != "sha256 0cbc8809e81cb16ff30999fbee7e2683f52d23fb11af4cc3636eca86dfb154cf" {
		t.Error(policy)
	}
	before := policy.String()
	var refusal *Refusal
	if err := policy.Or(policy.Digest()); !errors.As(err, &refusal) || policy.String() != before {
		t.Error(err, policy)
	}
	if err := policy.PCR(selected, composite[1:]); err != ErrDigest || policy.String() != before {
		t.Error(err, policy)
	}
	policy.Restart()
	if !bytes.Equal(policy.Digest(), make([]byte, 32)) {
		t.Error(policy)
	}
	if _, err := NewPolicy(5); err != ErrNoBank {
		t.Error(err)
	}
}

func TestADeviceIsMadeAgainOfWhatItKept(t *testing.T) {
	device, err := NewDevice([]byte("owner"), 40)
	if err != nil {
		t.Fatal(err)
	}
	for _, it := range []struct {
		command string
		changes bool
	}{
		{"80010000000c000001440000", false},
		{"8002000000330000012a400000010000000e4000000900000000056f776e6572000161000e01800001000b0202001200000008", true},
		{"8002000000240000013440000001018000010000000e4000000900000000056f776e6572", true},
		{"80010000002b0000017640000007400000070010000000000000000000000000000000000000010010000b", false},
	} {
		command, _ := hex.DecodeString(it.command)
		reply, err := device.Execute(command, make([]byte, NonceBytes))
		if err != nil || !bytes.Equal(reply[6:10], make([]byte, 4)) || ChangesNV(command, reply) != it.changes {
			t.Errorf("%x %v", reply, err)
		}
	}
	kept := device.Keep()
	again, err := RestoreDevice([]byte("owner"), kept)
	if err != nil {
		t.Fatal(err)
	}
	counters := again.Counters()
	if len(counters) != 1 || again.Greatest() != 41 || !bytes.Equal(again.Keep(), kept) {
		t.Fatal(counters, again.Greatest())
	}
	if it := counters[0]; it.Index != 0x01800001 || it.Hash != SHA256 || it.Attributes != 0x22020012 ||
		len(it.Policy) != 0 || !it.HasAuth || it.Value != 41 {
		t.Error(it)
	}
	if device.SessionHash(0x03000000) != SHA256 || again.SessionHash(0x03000000) != 0 {
		t.Error(device.SessionHash(0x03000000), again.SessionHash(0x03000000))
	}
	kept[len(kept)-1] ^= 1
	var refusal *Refusal
	if _, err := RestoreDevice([]byte("owner"), kept); !errors.As(err, &refusal) || refusal.Code != 0x09F ||
		int(refusal.At) != len(kept)-32 {
		t.Error(err)
	}
	if _, err := RestoreDevice([]byte("owner"), nil); !errors.As(err, &refusal) || refusal.Code != 0x09A ||
		refusal.At != 0 {
		t.Error(err)
	}
}

func TestADeviceStartsOnce(t *testing.T) {
	device, err := NewDevice(nil, 0)
	if err != nil {
		t.Fatal(err)
	}
	startup, _ := hex.DecodeString("80010000000c000001440000")
	for _, wanted := range []string{"80010000000a00000000", "80010000000a00000100"} {
		if reply, err := device.Execute(startup, make([]byte, NonceBytes)); err != nil ||
			hex.EncodeToString(reply) != wanted {
			t.Errorf("%x %v", reply, err)
		}
	}
	if _, err := device.Execute(startup, make([]byte, NonceBytes-1)); err != ErrNonce {
		t.Error(err)
	}
}
