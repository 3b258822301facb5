package vinjakwe

import (
	"crypto"
	"crypto/ecdsa"
	"crypto/rsa"
	_ "crypto/sha1"
	_ "crypto/sha256"
	_ "crypto/sha512"
	"crypto/x509"
	"encoding/pem"
	"fmt"
)

// crypto is the hash, as the packages crypto/.. have it.
func (h Hash) crypto() crypto.Hash {
	switch h {
	case SHA1:
		return crypto.SHA1
	case SHA384:
		return crypto.SHA384
	}
	return crypto.SHA256
}

// PublicKey is that of a PEM, as x509.ParsePKIXPublicKey gives it.
func PublicKey(text []byte) (crypto.PublicKey, error) {
	block, _ := pem.Decode(text)
	if block == nil {
		return nil, ErrPEM
	}
	return x509.ParsePKIXPublicKey(block.Bytes)
}

// IsBy says whether it is the signature of these bytes by this key, as crypto/rsa and crypto/ecdsa judge it.
func (s *Signature) IsBy(key crypto.PublicKey, signed []byte) bool {
	hash := s.Hash.crypto()
	hasher := hash.New()
	hasher.Write(signed)
	digest := hasher.Sum(nil)
	switch key := key.(type) {
	case *rsa.PublicKey:
		return s.Scheme == RSASSA && rsa.VerifyPKCS1v15(key, hash, digest, s.Sig) == nil ||
			s.Scheme == RSAPSS && rsa.VerifyPSS(key, hash, digest, s.Sig, nil) == nil
	case *ecdsa.PublicKey:
		return s.Scheme == ECDSA && ecdsa.Verify(key, digest, s.R, s.S)
	}
	return false
}

// A Mismatch says why a quote is not to be believed: the verdict, and the register that it names.
type Mismatch struct {
	Verdict  Verdict
	Register Selected
}

func (m *Mismatch) Error() string {
	switch m.Verdict {
	case Lacks:
		return fmt.Sprintf("%v %v", m.Verdict, m.Register)
	case Unknown:
		return fmt.Sprintf("%v %v at %d", m.Verdict, m.Register, m.Register.At)
	}
	return m.Verdict.String()
}

// Verify gives what a quote says that is to be believed: its signature, a TPMT_SIGNATURE, is by this key, and Check
// matches by the signature's hash. Otherwise the error is a *Mismatch, or what Check or DecodeSignature give.
func Verify(log, attest, signature []byte, key crypto.PublicKey, expected Expected) (*Attest, error) {
	it, err := DecodeSignature(signature)
	if err != nil {
		return nil, err
	}
	if !it.IsBy(key, attest) {
		return nil, &Mismatch{Verdict: Unsigned}
	}
	expected.Hash = it.Hash
	verdict, register, err := Check(log, attest, expected)
	if err != nil {
		return nil, err
	}
	if verdict != Matches {
		return nil, &Mismatch{verdict, register}
	}
	return DecodeAttest(attest)
}
