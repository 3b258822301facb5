package vinjakwe

/*
#include "vinjakwe.h"
*/
import "C"

import (
	"bytes"
	"encoding/binary"
	"fmt"
	"math/big"
)

// Selection is the TPML_PCR_SELECTION of registers as tpm2-tools list them, "sha1:7+sha256:0,1,2" or "sha256:all", or
// from one to another, "sha256:0-7"; else ErrList.
func Selection(text string) ([]byte, error) {
	spelled := make([]byte, C.TPM_SELECTION_BYTES)
	if C.tpm_selection(place([]byte(text)), C.size_t(len(text)), place(spelled), size(spelled)) == 0 {
		return nil, fmt.Errorf("%w: %q", ErrList, text)
	}
	return spelled, nil
}

// A SelectedBank is an entry of a quote's selection: its bank, and the registers that are selected there.
type SelectedBank struct {
	Bank      Hash
	Registers []int
}

// Has says whether the register is selected.
func (s SelectedBank) Has(register uint32) bool {
	for _, it := range s.Registers {
		if it == int(register) {
			return true
		}
	}
	return false
}

// An Attest is a quote as it was signed, a TPMS_ATTEST, by its parts, which are lent from the bytes that were decoded:
// who signed, the nonce, the clock in milliseconds, how often the TPM was reset and restarted, whether the clock is
// safe, the firmware's version, and the registers. Info is its TPMS_QUOTE_INFO whole, and Digest the digest in it.
type Attest struct {
	Signer, Nonce    []byte
	Clock            uint64
	Resets, Restarts uint32
	Safe             bool
	Firmware         uint64
	Selections       []SelectedBank
	Digest, Info     []byte
}

// selects says whether the register of a bank is selected.
func (a *Attest) selects(bank Hash, register uint32) bool {
	for _, it := range a.Selections {
		if it.Bank == bank && it.Has(register) {
			return true
		}
	}
	return false
}

// hash is the one whose digests are as long as the quote's, or else any, which it doesn't match.
func (a *Attest) hash() Hash {
	for hash, bank := range banks {
		if bank.size == len(a.Digest) {
			return hash
		}
	}
	return SHA256
}

// DecodeAttest gives the quote as it was signed that all the bytes spell, or a *Refusal, or ErrSized.
func DecodeAttest(signed []byte) (*Attest, error) {
	var it C.struct_tpm_attest
	var refusal C.struct_tpm_refusal
	answer := C.tpm_attest_decode(place(signed), size(signed), &it, &refusal)
	if err := judged(answer, &refusal); err != nil {
		return nil, named(signed, err)
	}
	attest := &Attest{
		Signer: part(signed, it.signer), Nonce: part(signed, it.nonce), Clock: uint64(it.clock),
		Resets: uint32(it.reset_count), Restarts: uint32(it.restart_count), Safe: it.safe != 0,
		Firmware: uint64(it.firmware_version),
		Digest:   part(signed, it.digest), Info: signed[it.selections.at:],
	}
	attest.Selections = entries(part(signed, it.selections))
	return attest, nil
}

// named is ErrSized in the place of a *Refusal of bytes that begin with the size of a TPMS_ATTEST and that.
func named(signed []byte, err error) error {
	if _, refused := err.(*Refusal); refused && len(signed) > 6 && bytes.HasPrefix(signed[2:], generated) &&
		int(binary.BigEndian.Uint16(signed)) == len(signed)-2 {
		return ErrSized
	}
	return err
}

// The schemes of signatures, TPM_ALG.
const (
	RSASSA uint16 = C.TPM_ALG_RSASSA
	RSAPSS uint16 = C.TPM_ALG_RSAPSS
	ECDSA  uint16 = C.TPM_ALG_ECDSA
)

// A Signature of a quote, a TPMT_SIGNATURE, by its scheme, its hash and its parts: the bytes of one by an RSA key,
// which are lent from those that were decoded, or the numbers of one by a key on a curve.
type Signature struct {
	Scheme uint16
	Hash   Hash
	Sig    []byte
	R, S   *big.Int
}

// DecodeSignature gives the signature that all the bytes spell, as `tpm2_quote -s` writes it without `-f plain`, or a
// *Refusal. Whether it is right is for another package.
func DecodeSignature(signature []byte) (*Signature, error) {
	var it C.struct_tpm_signature
	var refusal C.struct_tpm_refusal
	answer := C.tpm_signature_decode(place(signature), size(signature), &it, &refusal)
	if err := judged(answer, &refusal); err != nil {
		return nil, err
	}
	return &Signature{
		Scheme: uint16(it.scheme), Hash: Hash(it.hash), Sig: part(signature, it.sig),
		R: new(big.Int).SetBytes(part(signature, it.r)), S: new(big.Int).SetBytes(part(signature, it.s)),
	}, nil
}

// entries are those of the TPML_PCR_SELECTION that these bytes begin with, or none where there are too few.
func entries(spelled []byte) (found []SelectedBank) {
	if len(spelled) < 4 {
		return nil
	}
	count, entry := binary.BigEndian.Uint32(spelled), spelled[4:]
	for ; count > 0 && len(entry) >= 6; count, entry = count-1, entry[6:] {
		selected := SelectedBank{Bank: Hash(binary.BigEndian.Uint16(entry))}
		for i := 0; i < 24; i++ {
			if entry[3+i/8]>>(i%8)&1 != 0 {
				selected.Registers = append(selected.Registers, i)
			}
		}
		found = append(found, selected)
	}
	return found
}

// selects says whether these entries have a register.
func selects(spelled []byte) bool {
	for _, it := range entries(spelled) {
		if len(it.Registers) > 0 {
			return true
		}
	}
	return false
}

// A Policy is the digest of a policy in a hash, without a device (Part 1, "Enhanced Authorization"; Part 3, 23). Where
// a call gives an error, nothing changes. NewPolicy makes one.
type Policy struct {
	policy C.struct_tpm_policy
	size   int
}

// NewPolicy makes a policy that asserts nothing, in this hash, or gives ErrNoBank.
func NewPolicy(hash Hash) (*Policy, error) {
	it := &Policy{size: banks[hash].size}
	if C.tpm_policy_start(&it.policy, C.uint16_t(hash)) != C.TPM_DONE {
		return nil, ErrNoBank
	}
	return it, nil
}

// Digest is what an object with this policy has as its authPolicy.
func (p *Policy) Digest() []byte {
	digest := make([]byte, p.size)
	for i := range digest {
		digest[i] = byte(p.policy.digest[i])
	}
	return digest
}

// String is the hash and the digest in hexadecimal.
func (p *Policy) String() string { return fmt.Sprintf("%v %x", Hash(p.policy.hash), p.Digest()) }

// Restart is TPM2_PolicyRestart: nothing is asserted any more.
func (p *Policy) Restart() { C.tpm_policy_restart(&p.policy) }

// PCR is TPM2_PolicyPCR: the registers of a TPML_PCR_SELECTION have values with this digest. The error is a *Refusal of
// the selection, or ErrDigest.
func (p *Policy) PCR(selection, digest []byte) error {
	var refusal C.struct_tpm_refusal
	answer := C.tpm_policy_pcr(&p.policy, place(selection), size(selection), place(digest), size(digest), &refusal)
	if answer == C.TPM_POLICY_NO_DIGEST {
		return ErrDigest
	}
	return judged(answer, &refusal)
}

// Or is TPM2_PolicyOR: the policy is one of those with these 2 to 8 digests. The error is a *Refusal of another list.
func (p *Policy) Or(digests ...[]byte) error {
	var refusal C.struct_tpm_refusal
	spelled := binary.BigEndian.AppendUint32(nil, uint32(len(digests)))
	for _, digest := range digests {
		spelled = append(binary.BigEndian.AppendUint16(spelled, uint16(len(digest))), digest...)
	}
	return judged(C.tpm_policy_or(&p.policy, place(spelled), size(spelled), &refusal), &refusal)
}

// CommandCode is TPM2_PolicyCommandCode: the command is the one of this number.
func (p *Policy) CommandCode(command uint32) {
	C.tpm_policy_command_code(&p.policy, C.uint32_t(command))
}

// AuthValue is TPM2_PolicyAuthValue: the authorization value of the entity is known.
func (p *Policy) AuthValue() { C.tpm_policy_auth_value(&p.policy) }
