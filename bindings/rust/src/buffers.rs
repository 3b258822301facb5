//! Commands and responses, cut into their parts and joined from them.
use crate::{c, judged, part, Fault};
use core::ops::Deref;

/// Values of which there are `N` at most: a slice of as many as there are.
#[derive(Clone, Copy, Debug)]
pub struct List<T, const N: usize> {
    pub(crate) values: [T; N],
    pub(crate) count: usize,
}

impl<T, const N: usize> Deref for List<T, N> {
    type Target = [T];

    fn deref(&self) -> &[T] {
        &self.values[..self.count.min(N)]
    }
}

/// A session of a command or of a response, of which a response's has no handle.
#[derive(Clone, Copy, Debug, PartialEq, Eq)]
pub struct Session<'a> {
    /// The session's handle or TPM_RS_PW; 0 in a response.
    pub handle: u32,
    /// The nonce of the end that sent it.
    pub nonce: &'a [u8],
    /// The session's attributes.
    pub attributes: u8,
    /// The HMAC or the password.
    pub hmac: &'a [u8],
}

impl<'a> Session<'a> {
    fn of(bytes: &'a [u8], handle: u32, attributes: u8, nonce: c::tpm_part, hmac: c::tpm_part) -> Self {
        Session { handle, nonce: part(bytes, nonce), attributes, hmac: part(bytes, hmac) }
    }
}

/// A command, whose parts borrow from the bytes that were decoded.
#[derive(Clone, Copy, Debug)]
pub struct Command<'a> {
    /// Its number, TPM_CC.
    pub code: u32,
    /// The number of its bytes.
    pub size: usize,
    /// Its handles.
    pub handles: List<u32, 2>,
    /// Its sessions.
    pub sessions: List<Session<'a>, 3>,
    /// The bytes of its parameters.
    pub parameters: &'a [u8],
}

impl<'a> Command<'a> {
    /// The command that all the bytes spell, or the first fault.
    pub fn decode(bytes: &'a [u8]) -> Result<Self, Fault> {
        let (mut it, mut refusal) = (c::tpm_command_areas::default(), c::tpm_refusal::default());
        let (start, len) = (bytes.as_ptr(), bytes.len());
        // SAFETY: the bytes are there for both calls, and what is written is there and lies nowhere else.
        judged(unsafe { c::tpm_command_decode(start, len, &mut refusal) }, refusal)?;
        judged(unsafe { c::tpm_command_cut(start, len, &mut it, &mut refusal) }, refusal)?;
        let sessions = it.sessions.map(|it| Session::of(bytes, it.handle, it.attributes, it.nonce, it.hmac));
        let handles = List { values: it.handles, count: it.handle_count };
        let sessions = List { values: sessions, count: it.session_count };
        Ok(Command { code: it.code, size: it.size, handles, sessions, parameters: part(bytes, it.parameters) })
    }
}

/// A response, whose parts borrow from the bytes that were decoded. Of one whose code is not 0 nothing else is there.
#[derive(Clone, Copy, Debug)]
pub struct Response<'a> {
    /// The response code, TPM_RC.
    pub code: u32,
    /// Its handle, where it has one.
    pub handle: Option<u32>,
    /// The bytes of its parameters.
    pub parameters: &'a [u8],
    /// Its sessions.
    pub sessions: List<Session<'a>, 3>,
}

impl<'a> Response<'a> {
    /// The response that all the bytes spell to the command of this number, or the first fault.
    pub fn decode(command: u32, bytes: &'a [u8]) -> Result<Self, Fault> {
        let (mut it, mut refusal) = (c::tpm_response_areas::default(), c::tpm_refusal::default());
        let (start, len) = (bytes.as_ptr(), bytes.len());
        // SAFETY: as for a command.
        judged(unsafe { c::tpm_response_decode(command, start, len, &mut refusal) }, refusal)?;
        judged(unsafe { c::tpm_response_cut(command, start, len, &mut it, &mut refusal) }, refusal)?;
        let sessions = it.sessions.map(|it| Session::of(bytes, 0, it.attributes, it.nonce, it.hmac));
        let sessions = List { values: sessions, count: it.session_count };
        let handle = (it.handle_count > 0).then_some(it.handle);
        Ok(Response { code: it.code, handle, parameters: part(bytes, it.parameters), sessions })
    }
}

/// Joins the command of this number from the bytes of its parts at the beginning of `out`, and gives them, or the first
/// fault.
pub fn build_command<'o>(
    command: u32,
    handles: &[u8],
    sessions: &[u8],
    parameters: &[u8],
    out: &'o mut [u8],
) -> Result<&'o [u8], Fault> {
    let (mut count, mut refusal) = (0, c::tpm_refusal::default());
    // SAFETY: all are there for the call, and what is written lies nowhere else.
    let answer = unsafe {
        c::tpm_command_build(command, handles.as_ptr(), handles.len(), sessions.as_ptr(), sessions.len(),
            parameters.as_ptr(), parameters.len(), out.as_mut_ptr(), out.len(), &mut count, &mut refusal)
    };
    judged(answer, refusal)?;
    out.get(..count).ok_or(Fault::Length)
}
