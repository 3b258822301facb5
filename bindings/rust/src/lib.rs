//! Commands and responses of a TPM 2.0, logs of a measured boot, and quotes, judged by the installed library vinjakwe.
//! Views borrow from the bytes that were decoded; nothing is allocated, and nothing uses the standard library.
#![no_std]
#![warn(missing_docs)]

mod allowed;
mod boots;
mod buffers;
#[cfg(feature = "alloc")]
extern crate alloc;
#[doc(hidden)]
pub mod c;
mod contents;
mod logs;
mod names;
mod paths;
mod quotes;
mod states;

use core::fmt;

pub use allowed::{allowed_digests, AllowedDigest};
pub use boots::{secure_boot, SecureBoot, SecureBootFault, SecureBootState, SECURE_BOOT_FAULTS};
pub use buffers::{build_command, Command, List, Response, Session};
pub use contents::{
    BootOrder, Content, Evidence, Firmware, Held, LoadOption, Measurement, Owned, Partition, Partitions, SignatureList,
    SignatureLists, Table, Tables,
};
pub use logs::{
    check, check_quote, events, replay, Bank, Digest, Event, Events, Expected, Image, MeasuredPart, Nonce, Registers,
    Replay, Required, Text, TypeName, Variable, Verdict,
};
pub use names::{CodeName, Name};
pub use paths::{path_nodes, PathNode, PathText};
pub use quotes::{Attest, Policy, Selection, Signature};
pub use states::{changes_nv, Caller, Counter, Device, Framer, Place, Room};

/// The version of this crate and of the library that it wants.
pub const VERSION: &str = env!("CARGO_PKG_VERSION");
/// How many bytes a command or a response has at most.
pub const BUFFER_BYTES: usize = c::TPM_BUFFER_BYTES;
/// How many bytes the nonce of a command has that is handed to a device.
pub const NONCE_BYTES: usize = c::TPM_NONCE_BYTES;
/// How many bytes a device keeps at most.
pub const DEVICE_KEPT_BYTES: usize = c::TPM_DEVICE_KEPT_BYTES;
/// How many bytes the registers of all banks have.
pub const REGISTERS_BYTES: usize = c::TPM_REGISTERS_BYTES;

/// Whether the library that was found has this crate's version: to be asked once, before anything else.
pub fn check_version() -> Result<(), Fault> {
    // SAFETY: the library has its version there, and a zero behind it, which ends a shorter one.
    let found = unsafe { c::vinjakwe_version };
    if found.strip_suffix(&[0]) == Some(VERSION.as_bytes()) { Ok(()) } else { Err(Fault::Version) }
}

/// The TPM's response code (Part 2, 6.6.3), which is 0 where it is not told, and how many bytes are before the first
/// fault.
#[derive(Clone, Copy, Debug, PartialEq, Eq)]
pub struct Refusal {
    /// The code.
    pub code: u32,
    /// The position.
    pub at: u32,
}

impl fmt::Display for Refusal {
    fn fmt(&self, f: &mut fmt::Formatter<'_>) -> fmt::Result {
        write!(f, "refused {:03x} at {}", self.code, self.at)
    }
}

/// The kind of a log's first fault, as `Truncated`, and how many bytes are before it.
#[derive(Clone, Copy, Debug, PartialEq, Eq)]
pub struct LogFault {
    /// The kind, one of LOG_FAULTS.
    pub kind: &'static str,
    /// The position.
    pub at: u32,
}

impl fmt::Display for LogFault {
    fn fmt(&self, f: &mut fmt::Formatter<'_>) -> fmt::Result {
        write!(f, "log {} at {}", self.kind, self.at)
    }
}

/// The kinds of a log's faults, by their numbers in the header.
pub const LOG_FAULTS: [&str; 12] = ["Done", "Truncated", "TooLong", "NotCryptoAgile", "BadHeader", "DuplicateAlgorithm",
    "WrongDigestSize", "UnknownAlgorithm", "RepeatedDigest", "BadRegister", "BadLocality", "LateLocality"];

/// Why there is no command, no response or no verdict.
#[derive(Clone, Copy, Debug, PartialEq, Eq)]
pub enum Fault {
    /// The library that was found has another version than this crate.
    Version,
    /// The bytes are refused.
    Refused(Refusal),
    /// The log is none.
    Log(LogFault),
    /// The records of register 7 tell nothing of Secure Boot.
    SecureBoot(SecureBootFault),
    /// There are more authorities, so many, than room for their places.
    Room(usize),
    /// No command has this number.
    NoCommand,
    /// The room or a value has another length than is wanted.
    Length,
    /// No bank has this hash.
    NoBank,
    /// This is a whole TPMS_ATTEST, which `check` takes; its TPMS_QUOTE_INFO is the `info` of an `Attest`.
    Attest,
    /// This is a TPM2B_ATTEST: a size of 2 bytes stands before the TPMS_ATTEST, which is what is signed.
    Sized,
    /// What is required is no TPML_PCR_SELECTION.
    Requirement(Refusal),
    /// The nonce has no byte, or what is required no register, and neither is to be any; or the list has no digest.
    Nothing,
    /// The call does not apply to what the session has done so far, or to these bytes.
    Session,
    /// A buffer of the stream has no size from 10 to BUFFER_BYTES.
    Broken,
}

impl fmt::Display for Fault {
    fn fmt(&self, f: &mut fmt::Formatter<'_>) -> fmt::Result {
        match self {
            Fault::Version => f.write_str("the library has another version than the crate"),
            Fault::Refused(it) => it.fmt(f),
            Fault::Log(it) => it.fmt(f),
            Fault::SecureBoot(it) => it.fmt(f),
            Fault::Room(count) => write!(f, "there are {count} authorities, and less room"),
            Fault::Attest => f.write_str("this is a whole TPMS_ATTEST, which check takes"),
            Fault::Sized => f.write_str("a size stands before it: this is a TPM2B_ATTEST"),
            Fault::NoCommand => f.write_str("no command has this number"),
            Fault::Length => f.write_str("the room or a value has another length than is wanted"),
            Fault::NoBank => f.write_str("no bank has this hash"),
            Fault::Requirement(it) => write!(f, "requirement {it}"),
            Fault::Nothing => {
                f.write_str("the nonce has no byte, what is required no register, or the list no digest")
            }
            Fault::Session => f.write_str("the session cannot do this"),
            Fault::Broken => f.write_str("no buffer has the size that was stated"),
        }
    }
}

impl core::error::Error for Fault {}

fn judged(answer: u32, refusal: c::tpm_refusal) -> Result<(), Fault> {
    match answer {
        c::TPM_DONE => Ok(()),
        c::TPM_REFUSED => Err(Fault::Refused(Refusal { code: refusal.code, at: refusal.at })),
        c::TPM_NO_COMMAND => Err(Fault::NoCommand),
        _ => Err(Fault::Length),
    }
}

fn log_judged(kind: u32, at: u32) -> Result<(), Fault> {
    match LOG_FAULTS.get(kind as usize) {
        Some(_) if kind == c::TPM_LOG_DONE => Ok(()),
        Some(kind) => Err(Fault::Log(LogFault { kind, at })),
        None => Err(Fault::NoBank),
    }
}

/// The text that a call writes to the beginning of the room, unless it answers that it wrote none.
fn text_in(room: &mut [u8], call: impl FnOnce(*mut u8, usize) -> usize) -> Result<&str, Fault> {
    let count = call(room.as_mut_ptr(), room.len());
    let text = room.get(..count).and_then(|it| core::str::from_utf8(it).ok());
    text.filter(|it| !it.is_empty()).ok_or(Fault::Length)
}

fn part(bytes: &[u8], it: c::tpm_part) -> &[u8] {
    bytes.get(it.at..).and_then(|rest| rest.get(..it.len)).unwrap_or(&[])
}
