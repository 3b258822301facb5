//! A framer, a device and a caller, each in memory of its own.
use crate::{c, Bank, Fault, Refusal, BUFFER_BYTES, DEVICE_KEPT_BYTES, NONCE_BYTES};
#[cfg(feature = "alloc")]
use alloc::boxed::Box;
use core::mem::{align_of, size_of};

/// Room for one of the library's states, a device, a framer, a replay or a caller, which lies where it is until that is
/// dropped.
#[repr(C, align(16))]
pub struct Room([u8; 8192]);

impl Room {
    /// Room with nothing in it.
    #[allow(clippy::new_without_default)]
    pub const fn new() -> Self {
        Room([0; 8192])
    }

}

mod sealed {
    pub trait Sealed {}
}

/// Where a state lies: a `Room` that is borrowed, or with the feature `alloc` a boxed one, which the state then owns.
/// Neither is moved with what holds it.
pub trait Place: sealed::Sealed {
    #[doc(hidden)]
    fn place(&mut self) -> *mut u8;

    /// The place for a state of this size and alignment.
    #[doc(hidden)]
    fn fit(&mut self, size: usize, align: usize) -> Result<*mut u8, Fault> {
        if size > size_of::<Room>() || align > align_of::<Room>() { Err(Fault::Length) } else { Ok(self.place()) }
    }
}

impl sealed::Sealed for &mut Room {}

impl Place for &mut Room {
    fn place(&mut self) -> *mut u8 {
        self.0.as_mut_ptr()
    }
}

#[cfg(feature = "alloc")]
impl sealed::Sealed for Box<Room> {}

#[cfg(feature = "alloc")]
impl Place for Box<Room> {
    fn place(&mut self) -> *mut u8 {
        self.0.as_mut_ptr()
    }
}

/// Cuts a stream into its buffers, each of which states its size.
pub struct Framer<P: Place>(P);

impl<P: Place> Framer<P> {
    /// A framer that holds nothing.
    pub fn new(mut room: P) -> Result<Self, Fault> {
        // SAFETY: the room is large enough and lies where the library wants it, and is borrowed as long as it is used.
        unsafe {
            c::tpm_framer_init(room.fit(c::tpm_framer_size(), c::tpm_framer_align())?);
            Ok(Framer(room))
        }
    }

    /// Takes bytes of the piece up to the end of the present buffer, and gives how many, and whether a buffer is held;
    /// or Broken, now and from now on.
    pub fn push(&mut self, piece: &[u8]) -> Result<(usize, bool), Fault> {
        let mut status = 0;
        // SAFETY: a framer lies there, and the piece is there for the call.
        let taken = unsafe { c::tpm_framer_push(self.0.place(), piece.as_ptr(), piece.len(), &mut status) };
        if status == c::TPM_FRAMER_BROKEN { Err(Fault::Broken) } else { Ok((taken, status == c::TPM_FRAMER_READY)) }
    }

    /// Moves the buffer that is held to the beginning of `out`, or gives none where none is held.
    pub fn take<'o>(&mut self, out: &'o mut [u8; BUFFER_BYTES]) -> Option<&'o [u8]> {
        // SAFETY: a framer lies there, and the room is there for the call.
        let count = unsafe { c::tpm_framer_frame(self.0.place(), out.as_mut_ptr(), out.len()) };
        unsafe { c::tpm_framer_next(self.0.place()) };
        out.get(..count).filter(|frame| !frame.is_empty())
    }
}

/// An NV counter that is defined.
#[derive(Clone, Copy, Debug, PartialEq, Eq)]
pub struct Counter {
    /// Its index.
    pub index: u32,
    /// The number of its hash, TPM_ALG.
    pub hash: u16,
    /// Its attributes as they are now.
    pub attributes: u32,
    /// Whether it has an authorization value.
    pub has_auth: bool,
    /// Its value, where it was incremented.
    pub value: Option<u64>,
    policy: [u8; 48],
    policy_len: usize,
}

impl Counter {
    /// Its policy, which may be empty.
    pub fn policy(&self) -> &[u8] {
        self.policy.get(..self.policy_len).unwrap_or(&[])
    }
}

/// Whether the device that answered this command with this response has changed its NV memory: a host then keeps it
/// before it hands out the response.
pub fn changes_nv(command: &[u8], response: &[u8]) -> bool {
    // SAFETY: the bytes are there for the call.
    unsafe { c::tpm_device_changes_nv(command.as_ptr(), command.len(), response.as_ptr(), response.len()) != 0 }
}

/// A device in memory.
pub struct Device<P: Place>(P);

#[cfg(feature = "alloc")]
impl Device<Box<Room>> {
    /// As `new`, of a device that owns its room.
    pub fn boxed(owner: &[u8], greatest: u64) -> Result<Self, Fault> {
        Device::new(Box::new(Room::new()), owner, greatest)
    }

    /// As `restore`, of a device that owns its room.
    pub fn restore_boxed(owner: &[u8], kept: &[u8]) -> Result<Self, Fault> {
        Device::restore(Box::new(Room::new()), owner, kept)
    }
}

impl<P: Place> Device<P> {
    /// A device of this owner, which is not started, and of which no counter has had a greater value; or Length, of an
    /// owner's value of more than 48 bytes.
    pub fn new(mut room: P, owner: &[u8], greatest: u64) -> Result<Self, Fault> {
        // SAFETY: as for a framer, and the owner's value is there for the call.
        unsafe {
            let place = room.fit(c::tpm_device_size(), c::tpm_device_align())?;
            let made = c::tpm_device_init(place, owner.as_ptr(), owner.len(), greatest);
            if made == 0 { Err(Fault::Length) } else { Ok(Device(room)) }
        }
    }

    /// A device of this owner and of the bytes that `keep` gave, where a power cycle leaves the one that gave them; or
    /// Refused.
    pub fn restore(mut room: P, owner: &[u8], kept: &[u8]) -> Result<Self, Fault> {
        let mut refusal = c::tpm_refusal::default();
        // SAFETY: as for a new one.
        let answer = unsafe {
            let place = room.fit(c::tpm_device_size(), c::tpm_device_align())?;
            c::tpm_device_restore(place, owner.as_ptr(), owner.len(), kept.as_ptr(), kept.len(), &mut refusal)
        };
        if answer == c::TPM_DONE {
            Ok(Device(room))
        } else {
            Err(Fault::Refused(Refusal { code: refusal.code, at: refusal.at }))
        }
    }

    /// The bytes of NV memory, which hold authorization values.
    pub fn keep<'o>(&mut self, out: &'o mut [u8; DEVICE_KEPT_BYTES]) -> &'o [u8] {
        // SAFETY: a device lies there, and the room is there for the call.
        let count = unsafe { c::tpm_device_keep(self.0.place(), out.as_mut_ptr(), out.len()) };
        out.get(..count).unwrap_or(&[])
    }

    /// The greatest value that any counter of the device has had.
    pub fn greatest(&mut self) -> u64 {
        // SAFETY: a device lies there.
        unsafe { c::tpm_device_greatest(self.0.place()) }
    }

    /// The hash of the session of this handle, where it is loaded.
    pub fn session_hash(&mut self, session: u32) -> Option<Bank> {
        // SAFETY: a device lies there.
        Bank::from_number(unsafe { c::tpm_device_session_hash(self.0.place(), session) })
    }

    /// The counter of this place among those that are defined, in the order of their definitions.
    pub fn counter(&mut self, which: usize) -> Option<Counter> {
        let mut it = c::tpm_counter::default();
        // SAFETY: a device lies there, and the view is there for the call.
        let answer = unsafe { c::tpm_device_counter(self.0.place(), which, &mut it) };
        (answer == c::TPM_DONE).then_some(Counter {
            index: it.index,
            hash: it.hash,
            attributes: it.attributes,
            has_auth: it.has_auth != 0,
            value: (it.value != 0).then_some(it.value),
            policy: it.policy,
            policy_len: it.policy_len,
        })
    }

    /// The power is switched off and on: the counters stay.
    pub fn power_cycle(&mut self) {
        // SAFETY: a device lies there.
        unsafe { c::tpm_device_power_cycle(self.0.place()) }
    }

    /// The response to these bytes. The nonce is fresh and random.
    pub fn execute<'o>(
        &mut self,
        command: &[u8],
        nonce: &[u8; NONCE_BYTES],
        out: &'o mut [u8; BUFFER_BYTES],
    ) -> &'o [u8] {
        // SAFETY: a device lies there, and all are there for the call.
        let count = unsafe {
            c::tpm_device_execute(self.0.place(), command.as_ptr(), command.len(), nonce.as_ptr(),
                out.as_mut_ptr(), out.len())
        };
        out.get(..count).unwrap_or(&[])
    }
}

/// The other end of a session. Where a call gives a fault, nothing changes.
pub struct Caller<P: Place>(P);

fn applies(it: bool) -> Result<(), Fault> {
    if it { Ok(()) } else { Err(Fault::Session) }
}

impl<P: Place> Caller<P> {
    /// A caller without a session.
    pub fn new(mut room: P) -> Result<Self, Fault> {
        // SAFETY: the room is large enough and lies where the library wants it, and is borrowed as long as it is used.
        unsafe {
            c::tpm_caller_init(room.fit(c::tpm_caller_size(), c::tpm_caller_align())?);
            Ok(Caller(room))
        }
    }

    /// Holds the session that a TPM2_StartAuthSession and its reply make.
    pub fn start(&mut self, command: &[u8], reply: &[u8], bind_auth: &[u8]) -> Result<(), Fault> {
        // SAFETY: a caller lies there, and all are there for the call.
        applies(0 != unsafe {
            c::tpm_caller_start(self.0.place(), command.as_ptr(), command.len(), reply.as_ptr(), reply.len(),
                bind_auth.as_ptr(), bind_auth.len())
        })
    }

    /// The command with the session, which then waits for the reply. `names` are those of its handles; the nonce is
    /// fresh and random.
    pub fn seal<'o>(&mut self, command: &[u8], names: [&[u8]; 2], auth: &[u8], nonce: &[u8], keep: bool,
        out: &'o mut [u8; BUFFER_BYTES]) -> Result<&'o [u8], Fault> {
        let [first, second] = names;
        // SAFETY: the same.
        let count = unsafe {
            c::tpm_caller_seal(self.0.place(), command.as_ptr(), command.len(), first.as_ptr(), first.len(),
                second.as_ptr(), second.len(), auth.as_ptr(), auth.len(), nonce.as_ptr(), nonce.len(), keep.into(),
                out.as_mut_ptr(), out.len())
        };
        out.get(..count).filter(|sealed| !sealed.is_empty()).ok_or(Fault::Session)
    }

    /// Opens the reply to the sealed command: until it is opened nothing in it is to be believed.
    pub fn open(&mut self, reply: &[u8]) -> Result<(), Fault> {
        // SAFETY: the same.
        applies(c::TPM_CALLER_OPENED == unsafe { c::tpm_caller_open(self.0.place(), reply.as_ptr(), reply.len()) })
    }

    /// Frees the session as it was before the command that this refusal answers.
    pub fn give_up(&mut self, refusal: &[u8]) -> Result<(), Fault> {
        // SAFETY: the same.
        applies(0 != unsafe { c::tpm_caller_give_up(self.0.place(), refusal.as_ptr(), refusal.len()) })
    }
}
