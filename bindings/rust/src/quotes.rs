//! Quotes as they were signed, by their parts; lists of registers; and policies without a device.
use crate::{c, judged, part, Bank, Fault};
use core::fmt;

/// A TPML_PCR_SELECTION: for each bank the registers that are selected there.
#[derive(Clone, Copy, Debug, PartialEq, Eq)]
pub struct Selection([u8; c::TPM_SELECTION_BYTES]);

impl Selection {
    /// What tpm2-tools' lists say, as `sha1:7+sha256:0,1,2` or `sha256:all`, or from one to another, `sha256:0-7`; none
    /// where the text is no such list.
    pub fn of(text: &str) -> Option<Self> {
        let mut spelled = [0; c::TPM_SELECTION_BYTES];
        // SAFETY: the text is there for the call, and so many bytes, and nothing else is written.
        let count = unsafe { c::tpm_selection(text.as_ptr(), text.len(), spelled.as_mut_ptr(), spelled.len()) };
        (count > 0).then_some(Selection(spelled))
    }

    /// Its bytes, as `check` takes them.
    pub fn as_bytes(&self) -> &[u8] {
        &self.0
    }
}

/// A quote as it was signed, a TPMS_ATTEST, whose parts borrow from the bytes that were decoded.
#[derive(Clone, Copy, Debug)]
pub struct Attest<'a> {
    /// The qualified Name of the key that signed.
    pub signer: &'a [u8],
    /// What the verifier sent.
    pub nonce: &'a [u8],
    /// The TPM's clock, in milliseconds.
    pub clock: u64,
    /// How often the TPM was reset.
    pub resets: u32,
    /// How often it was restarted or resumed since.
    pub restarts: u32,
    /// Whether no greater clock was ever told.
    pub safe: bool,
    /// The version of the TPM's firmware.
    pub firmware: u64,
    /// The digest of the selected registers.
    pub digest: &'a [u8],
    /// The TPMS_QUOTE_INFO whole, as `check_quote` takes it.
    pub info: &'a [u8],
    pub(crate) selections: &'a [u8],
}

impl<'a> Attest<'a> {
    /// The quote as it was signed that all the bytes spell, or the first fault, or `Sized`.
    pub fn decode(bytes: &'a [u8]) -> Result<Self, Fault> {
        let (mut it, mut refusal) = (c::tpm_attest::default(), c::tpm_refusal::default());
        // SAFETY: the bytes are there for the call, and what is written is there and lies nowhere else.
        judged(unsafe { c::tpm_attest_decode(bytes.as_ptr(), bytes.len(), &mut it, &mut refusal) }, refusal)
            .map_err(|fault| named(bytes, fault))?;
        Ok(Attest {
            signer: part(bytes, it.signer),
            nonce: part(bytes, it.nonce),
            clock: it.clock,
            resets: it.reset_count,
            restarts: it.restart_count,
            safe: it.safe != 0,
            firmware: it.firmware_version,
            digest: part(bytes, it.digest),
            info: bytes.get(it.selections.at..).unwrap_or(&[]),
            selections: part(bytes, it.selections),
        })
    }

    /// The entries of its selection, each a bank and the registers that are selected there, in rising order.
    pub fn selections(&self) -> impl Iterator<Item = (Bank, impl Iterator<Item = usize> + 'a)> + 'a {
        entries(self.selections).filter_map(|entry| {
            let bank = Bank::from_number(u16::from_be_bytes([entry[0], entry[1]]))?;
            Some((bank, (0..24).filter(|i| entry[3 + i / 8] >> (i % 8) & 1 != 0)))
        })
    }
}

/// The signature of a quote, a TPMT_SIGNATURE, whose parts borrow from the bytes that were decoded.
#[derive(Clone, Copy, Debug, PartialEq, Eq)]
pub enum Signature<'a> {
    /// RSASSA, of PKCS #1 version 1.5, of this bank's hash.
    RsaSsa(Bank, &'a [u8]),
    /// RSAPSS.
    RsaPss(Bank, &'a [u8]),
    /// ECDSA, by its numbers r and s, the more significant byte first.
    Ecdsa(Bank, &'a [u8], &'a [u8]),
}

impl<'a> Signature<'a> {
    /// The signature that all the bytes spell, as `tpm2_quote -s` writes it without `-f plain`, or the first fault.
    /// Whether it is right is for another crate.
    pub fn decode(bytes: &'a [u8]) -> Result<Self, Fault> {
        let (mut it, mut refusal) = (c::tpm_signature::default(), c::tpm_refusal::default());
        // SAFETY: the bytes are there for the call, and what is written is there and lies nowhere else.
        judged(unsafe { c::tpm_signature_decode(bytes.as_ptr(), bytes.len(), &mut it, &mut refusal) }, refusal)?;
        let bank = Bank::from_number(it.hash).ok_or(Fault::NoBank)?;
        Ok(match it.scheme {
            c::TPM_ALG_RSASSA => Signature::RsaSsa(bank, part(bytes, it.sig)),
            c::TPM_ALG_RSAPSS => Signature::RsaPss(bank, part(bytes, it.sig)),
            _ => Signature::Ecdsa(bank, part(bytes, it.r), part(bytes, it.s)),
        })
    }
}

/// The digest of a policy in a hash, without a device (Part 1, "Enhanced Authorization"; Part 3, 23). Where a call
/// gives a fault, nothing changes.
#[derive(Clone, Copy)]
pub struct Policy {
    policy: c::tpm_policy,
    bank: Bank,
}

impl Policy {
    /// A policy that asserts nothing, in this bank's hash.
    pub fn new(bank: Bank) -> Self {
        let mut policy = c::tpm_policy::default();
        // SAFETY: what is written lies there and nowhere else; each bank has a hash.
        unsafe { c::tpm_policy_start(&mut policy, bank as u16) };
        Policy { policy, bank }
    }

    /// What an object with this policy has as its authPolicy.
    pub fn digest(&self) -> &[u8] {
        &self.policy.digest[..self.bank.digest_bytes()]
    }

    /// TPM2_PolicyRestart: nothing is asserted any more.
    pub fn restart(&mut self) {
        // SAFETY: a policy lies there.
        unsafe { c::tpm_policy_restart(&mut self.policy) };
    }

    /// TPM2_PolicyPCR: the registers of a TPML_PCR_SELECTION have values with this digest; or Length of a digest of
    /// another hash.
    pub fn pcr(&mut self, selection: &[u8], digest: &[u8]) -> Result<(), Fault> {
        let mut refusal = c::tpm_refusal::default();
        // SAFETY: all are there for the call, and what is written lies nowhere else.
        let answer = unsafe {
            c::tpm_policy_pcr(&mut self.policy, selection.as_ptr(), selection.len(), digest.as_ptr(), digest.len(),
                &mut refusal)
        };
        judged(answer, refusal)
    }

    /// TPM2_PolicyOR: the policy is one of those with the 2 to 8 digests of this TPML_DIGEST.
    pub fn or(&mut self, digests: &[u8]) -> Result<(), Fault> {
        let mut refusal = c::tpm_refusal::default();
        // SAFETY: the same.
        judged(unsafe { c::tpm_policy_or(&mut self.policy, digests.as_ptr(), digests.len(), &mut refusal) }, refusal)
    }

    /// TPM2_PolicyCommandCode: the command is the one of this number.
    pub fn command_code(&mut self, code: u32) {
        // SAFETY: a policy lies there.
        unsafe { c::tpm_policy_command_code(&mut self.policy, code) };
    }

    /// TPM2_PolicyAuthValue: the authorization value of the entity is known.
    pub fn auth_value(&mut self) {
        // SAFETY: the same.
        unsafe { c::tpm_policy_auth_value(&mut self.policy) };
    }
}

impl fmt::Display for Policy {
    fn fmt(&self, f: &mut fmt::Formatter<'_>) -> fmt::Result {
        write!(f, "{} ", self.bank)?;
        self.digest().iter().try_for_each(|byte| write!(f, "{byte:02x}"))
    }
}

impl fmt::Debug for Policy {
    fn fmt(&self, f: &mut fmt::Formatter<'_>) -> fmt::Result {
        write!(f, "Policy({self})")
    }
}

/// The entries of the TPML_PCR_SELECTION that these bytes begin with, or none where there are too few.
fn entries(spelled: &[u8]) -> impl Iterator<Item = &[u8]> {
    let (count, entries) = spelled.split_first_chunk().unwrap_or((&[0; 4], &[]));
    entries.chunks_exact(6).take(u32::from_be_bytes(*count) as usize)
}

/// Whether these entries have a register.
pub(crate) fn selects(spelled: &[u8]) -> bool {
    entries(spelled).any(|entry| entry[3..] != [0; 3])
}

/// Whether these bytes begin as each TPMS_ATTEST does, by TPM_GENERATED_VALUE (Part 2, 6.2).
pub(crate) fn is_attest(bytes: &[u8]) -> bool {
    bytes.starts_with(b"\xffTCG")
}

/// The fault is `Sized` in the place of a refusal of bytes that begin with the size of a TPMS_ATTEST and that.
pub(crate) fn named(bytes: &[u8], fault: Fault) -> Fault {
    let sized = bytes.split_first_chunk().filter(|(size, rest)| u16::from_be_bytes(**size) as usize == rest.len());
    match fault {
        Fault::Refused(_) if sized.is_some_and(|(_, rest)| is_attest(rest)) => Fault::Sized,
        fault => fault,
    }
}
