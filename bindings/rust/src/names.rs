//! Names.
use crate::c;
use core::fmt;

/// A name of at most `N` bytes.
#[derive(Clone, Copy, Debug, PartialEq, Eq)]
pub struct Name<const N: usize> {
    bytes: [u8; N],
    count: usize,
}

impl<const N: usize> Name<N> {
    /// What a call writes to so many bytes, unless it answers that it wrote none.
    pub(crate) fn written(call: impl FnOnce(*mut u8, usize) -> usize) -> Option<Self> {
        let mut bytes = [0; N];
        let count = call(bytes.as_mut_ptr(), N);
        (count > 0).then_some(Name { bytes, count })
    }

    /// Its characters.
    pub fn as_str(&self) -> &str {
        self.bytes.get(..self.count).and_then(|it| core::str::from_utf8(it).ok()).unwrap_or("")
    }
}

impl<const N: usize> fmt::Display for Name<N> {
    fn fmt(&self, f: &mut fmt::Formatter<'_>) -> fmt::Result {
        f.write_str(self.as_str())
    }
}

/// The name of a response code, as `TPM_RC_LOCKOUT`, or `TPM_RC_BAD_AUTH for session 1`.
pub type CodeName = Name<{ c::TPM_CODE_NAME_BYTES }>;

impl CodeName {
    /// The name of this code (Part 2, 6.6.3), or none where it isn't listed there.
    pub fn of(code: u32) -> Option<Self> {
        // SAFETY: so many bytes are there, and nothing else is written.
        Name::written(|bytes, room| unsafe { c::tpm_code_name(code, bytes, room) })
    }
}
