//! Digests by which registers may be extended.
use crate::{c, events, Attest, Bank, Event, Fault, Verdict};
use core::mem::{offset_of, size_of};

/// A digest by which a register of a bank may be extended.
#[derive(Clone, Copy, Debug, PartialEq, Eq)]
#[repr(C)]
pub struct AllowedDigest {
    /// The register.
    pub register: u32,
    /// The bank.
    pub bank: Bank,
    /// The digest, of which as many bytes count as those of the bank have.
    pub digest: [u8; 48],
}

// It lies as in C.
const _: () = assert!(
    size_of::<AllowedDigest>() == size_of::<c::tpm_allowed>()
        && offset_of!(AllowedDigest, register) == offset_of!(c::tpm_allowed, pcr)
        && offset_of!(AllowedDigest, bank) == offset_of!(c::tpm_allowed, hash)
        && offset_of!(AllowedDigest, digest) == offset_of!(c::tpm_allowed, digest)
);

/// The digests of a list, a text or its bytes, as the lines of `tpmtool check LOG --extends`: of each line its bank,
/// its register and the digest, as `sha256 4 DIGEST`, with one space between them. Behind another space stand any
/// words, and behind `#` a comment. A line with nothing but spaces before it says nothing, and a line feed alone ends a
/// line. It is the number of a line that is none.
pub fn allowed_digests<T: AsRef<[u8]> + ?Sized>(list: &T) -> impl Iterator<Item = Result<AllowedDigest, usize>> + '_ {
    let lines = list.as_ref().split(|it| *it == b'\n').map(before_comment).zip(1..);
    lines.filter(|(said, _)| said.iter().any(|it| *it != b' ')).map(|(said, number)| entry(said).ok_or(number))
}

fn before_comment(line: &[u8]) -> &[u8] {
    line.split(|it| *it == b'#').next().unwrap_or_default()
}

/// What stands before a comment.
fn entry(said: &[u8]) -> Option<AllowedDigest> {
    let mut words = said.split(|it| *it == b' ');
    let bank = words.next().and_then(|name| Bank::ALL.into_iter().find(|it| it.name().as_bytes() == name))?;
    let register = register(words.next()?)?;
    let (digits, mut digest) = (words.next()?, [0; 48]);
    if digits.len() != 2 * bank.digest_bytes() {
        return None;
    }
    for (byte, pair) in digest.iter_mut().zip(digits.chunks(2)) {
        let value = |at: usize| char::from(pair[at]).to_digit(16);
        *byte = (16 * value(0)? + value(1)?) as u8;
    }
    Some(AllowedDigest { register, bank, digest })
}

/// The register of a number that has no sign and no zero before it.
fn register(word: &[u8]) -> Option<u32> {
    let number = core::str::from_utf8(word).ok()?.parse().ok().filter(|it| *it < 24)?;
    (word.len() == if number < 10 { 1 } else { 2 }).then_some(number)
}

/// Whether a list names the register that a record extends in the bank of this digest, and doesn't have the digest for
/// it.
fn is_unknown(list: &[AllowedDigest], event: &Event, hash: u16, digest: &[u8]) -> bool {
    // SAFETY: the list lies as in C, and both are there for the call.
    let said = unsafe {
        c::tpm_log_allowed(list.as_ptr().cast(), list.len(), event.register, event.kind, hash, digest.as_ptr(),
            digest.len())
    };
    said == c::TPM_NOT_ALLOWED
}

/// What is said of a quote that matches the log: whether it selects each register of the list, of which the least by
/// its bank and its number is told otherwise, and whether the list has each digest by which the log extends it.
pub(crate) fn compared(list: &[AllowedDigest], log: &[u8], attest: &Attest) -> Result<Verdict, Fault> {
    let is_selected = |it: &AllowedDigest| {
        let mut selected = attest.selections().filter(|(bank, _)| *bank == it.bank);
        selected.any(|(_, mut registers)| registers.any(|register| register == it.register as usize))
    };
    let lacking = list.iter().filter(|it| !is_selected(it)).min_by_key(|it| (it.bank as u16, it.register));
    if let Some(it) = lacking {
        return Ok(Verdict::Lacks(it.bank, it.register));
    }
    for event in events(log) {
        let event = event?;
        for digest in event.digests.iter().filter(|it| is_unknown(list, &event, it.hash, it.bytes)) {
            let bank = Bank::from_number(digest.hash).ok_or(Fault::NoBank)?;
            return Ok(Verdict::Unknown(bank, event.register, event.at));
        }
    }
    Ok(Verdict::Matches)
}
