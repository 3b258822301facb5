//! Whether Secure Boot was on, by a log.
use crate::{c, log_judged, Bank, Fault};
use core::fmt;

/// Whether Secure Boot was on.
#[derive(Clone, Copy, Debug, PartialEq, Eq)]
pub enum SecureBootState {
    /// SecureBoot was 1, PK, KEK and db held something, and there is an authority.
    On,
    /// SecureBoot was 0.
    Off,
    /// SecureBoot had no byte.
    Unset,
}

impl fmt::Display for SecureBootState {
    fn fmt(&self, f: &mut fmt::Formatter<'_>) -> fmt::Result {
        f.write_str(match self {
            SecureBootState::On => "on",
            SecureBootState::Off => "off",
            SecureBootState::Unset => "unset",
        })
    }
}

/// The kind of the first fault of what the records of register 7 tell of Secure Boot, as `NotMeasured`, and how many
/// bytes of the log precede the record that has it, or how many there are, where something is missing at the end.
#[derive(Clone, Copy, Debug, PartialEq, Eq)]
pub struct SecureBootFault {
    /// The kind, one of SECURE_BOOT_FAULTS.
    pub kind: &'static str,
    /// The position.
    pub at: u32,
}

impl fmt::Display for SecureBootFault {
    fn fmt(&self, f: &mut fmt::Formatter<'_>) -> fmt::Result {
        write!(f, "secure boot unknown {} at {}", self.kind, self.at)
    }
}

/// The kinds of these faults, by their numbers in the header from TPM_SECURE_BOOT_NOT_MEASURED on.
pub const SECURE_BOOT_FAULTS: [&str; 12] = ["NotMeasured", "OtherType", "NoVariable", "Twice", "OtherValue", "Debugger",
    "BadSeparator", "NoSeparator", "Late", "NoKey", "NoAuthority", "NoSecureBoot"];

/// What a log tells of Secure Boot. A place is how many bytes of the log precede a record.
#[derive(Clone, Copy, Debug, PartialEq, Eq)]
pub struct SecureBoot<'a> {
    /// Whether it was on.
    pub state: SecureBootState,
    /// Whether the firmware says that DMA protection was disabled.
    pub dma_protection_disabled: bool,
    /// The place of PK, if it was measured.
    pub pk: Option<u32>,
    /// The place of KEK.
    pub kek: Option<u32>,
    /// The place of db.
    pub db: Option<u32>,
    /// The place of dbx.
    pub dbx: Option<u32>,
    /// The places of the authorities, in their order.
    pub authorities: &'a [u32],
}

/// Whether Secure Boot was on, by the records of register 7 in this bank (PC Client Platform Firmware Profile,
/// "PCR\[7\]"). The places of the authorities are written to `room`. A fault is the log's, `Fault::SecureBoot` for the
/// first of what the records tell, or `Fault::Room` with the number of authorities where there is less room. It is as
/// true as register 7, for which `check` asks a quote.
pub fn secure_boot<'a>(log: &[u8], bank: Bank, room: &'a mut [u32]) -> Result<SecureBoot<'a>, Fault> {
    let (mut view, mut count, mut at) = (c::tpm_secure_boot::default(), 0, 0);
    // SAFETY: the log is there for the call, and what is written is there and lies nowhere else.
    let said = unsafe {
        c::tpm_log_secure_boot(log.as_ptr(), log.len(), bank as u16, &mut view, room.as_mut_ptr(), room.len(),
            &mut count, &mut at)
    };
    let state = state(said, count, at)?;
    let place = |at: u32| (at != 0).then_some(at);
    let authorities = room.get(..count).ok_or(Fault::Room(count))?;
    Ok(SecureBoot {
        state,
        dma_protection_disabled: view.dma_protection_disabled != 0,
        pk: place(view.pk),
        kek: place(view.kek),
        db: place(view.db),
        dbx: place(view.dbx),
        authorities,
    })
}

fn state(said: u32, count: usize, at: u32) -> Result<SecureBootState, Fault> {
    match said {
        c::TPM_SECURE_BOOT_ON => return Ok(SecureBootState::On),
        c::TPM_SECURE_BOOT_OFF => return Ok(SecureBootState::Off),
        c::TPM_SECURE_BOOT_UNSET => return Ok(SecureBootState::Unset),
        c::TPM_SECURE_BOOT_NO_ROOM => return Err(Fault::Room(count)),
        _ => {}
    }
    match said.checked_sub(c::TPM_SECURE_BOOT_NOT_MEASURED).and_then(|kind| SECURE_BOOT_FAULTS.get(kind as usize)) {
        Some(kind) => Err(Fault::SecureBoot(SecureBootFault { kind, at })),
        None => Err(log_judged(said, at).err().unwrap_or(Fault::NoBank)),
    }
}
