//! Device paths, by their nodes, and in text.
use crate::{c, part, text_in, Fault};
use core::fmt::{Display, Formatter, Result as Shown, Write};

/// A node of a device path (UEFI Specification, "Generic Device Path Structures"), whose data borrow from the log.
#[derive(Clone, Copy, Debug, PartialEq, Eq)]
pub struct PathNode<'a> {
    /// Its type.
    pub kind: u8,
    /// Its subtype.
    pub subtype: u8,
    /// Its data.
    pub data: &'a [u8],
}

/// The nodes of a device path, up to the first fault.
pub fn path_nodes(path: &[u8]) -> impl Iterator<Item = PathNode<'_>> + '_ {
    let mut rest = path;
    core::iter::from_fn(move || {
        let (path, mut it) = (rest, c::tpm_path_node::default());
        // SAFETY: the path is there for the call, and what is written lies nowhere else.
        let said = unsafe { c::tpm_log_path_node(path.as_ptr(), path.len(), &mut it) };
        rest = path.get(it.value.at + it.value.len..)?;
        let node = PathNode { kind: it.r#type, subtype: it.subtype, data: part(path, it.value) };
        (said == c::TPM_PATH_NODE).then_some(node)
    })
}

impl<'a> PathNode<'a> {
    /// The name of a file without the zero that ends it, if this is one.
    pub(crate) fn file(&self) -> Option<&'a [u8]> {
        let is_file = (self.kind, self.subtype) == (4, 4) && self.data.len() % 2 == 0;
        is_file.then(|| self.data.strip_suffix(&[0, 0]).unwrap_or(self.data))
    }
}

/// A device path in text, as `tpmtool events --json` has it (UEFI Specification, "Device Path Text Representation"): a
/// slash is between two of its nodes, and a comma between two paths. A unit of a file's name that is no UTF-16 is
/// U+FFFD.
#[derive(Clone, Copy, Debug, PartialEq, Eq)]
pub struct PathText<'r>(&'r str);

impl<'r> PathText<'r> {
    /// The text of the path that these bytes are, up to the first fault, in this room: 2 bytes and 16 for each of the
    /// path are enough, and where there are fewer the fault may be `Length`.
    pub fn of(path: &[u8], room: &'r mut [u8]) -> Result<Self, Fault> {
        // SAFETY: both are there for the call, and nothing else is written.
        let text = text_in(room, |out, len| unsafe { c::tpm_log_path_json(path.as_ptr(), path.len(), out, len) })?;
        text.strip_prefix('"').and_then(|it| it.strip_suffix('"')).map(PathText).ok_or(Fault::Length)
    }
}

/// The unit of UTF-16 with which a text between the quotation marks of JSON begins, and what is behind it.
fn first_unit(text: &str) -> Option<(u16, &str)> {
    match text.strip_prefix('\\') {
        Some(escaped) => match escaped.strip_prefix('u') {
            Some(digits) => Some((u16::from_str_radix(digits.get(..4)?, 16).ok()?, &digits[4..])),
            None => Some((u16::from(*escaped.as_bytes().first()?), escaped.get(1..)?)),
        },
        None => Some((u16::from(*text.as_bytes().first()?), text.get(1..)?)),
    }
}

impl Display for PathText<'_> {
    fn fmt(&self, f: &mut Formatter<'_>) -> Shown {
        let mut rest = self.0;
        let units = core::iter::from_fn(|| {
            let (unit, behind) = first_unit(rest)?;
            rest = behind;
            Some(unit)
        });
        char::decode_utf16(units).try_for_each(|it| f.write_char(it.unwrap_or(char::REPLACEMENT_CHARACTER)))
    }
}
