//! What the data of records say, by their kind, as `Event::content` tells it.
use crate::logs::{utf16_chars, variable_of};
use crate::paths::path_nodes;
use crate::{c, part, Event, Image, PathNode, Text, Variable};

/// What the data of a record say, which borrows from the log. `Event::measured` says whether the record's digests are
/// of these data.
#[derive(Clone, Copy, Debug, PartialEq, Eq)]
pub enum Content<'a> {
    /// A variable, and what it holds.
    Variable(Variable<'a>, Held<'a>),
    /// Text of EV_POST_CODE, EV_ACTION, EV_IPL and EV_EFI_ACTION, without a zero that ends it, in UTF-16 without all of
    /// them.
    Text(Text<'a>),
    /// The version of the root of trust, of EV_S_CRTM_VERSION, in UTF-16 with the less significant byte of each unit
    /// first.
    Version(Text<'a>),
    /// The same as a GUID, 16 bytes as they lie in memory.
    VersionGuid(&'a [u8]),
    /// The number of EV_SEPARATOR: 0 or 0xFFFFFFFF, or another where an error was met.
    Separator(u32),
    /// The start-up locality, which EV_NO_ACTION tells.
    Locality(u32),
    /// An image that was loaded.
    Image(Image<'a>),
    /// A part of the firmware's code.
    Firmware(Firmware<'a>),
    /// The tables that the firmware hands to the system.
    Tables(Tables<'a>),
    /// An event of an operating system, of EV_EVENT_TAG: a number of the system's own, and its data.
    Tag(u32, &'a [u8]),
    /// The partitions of a disk, of EV_EFI_GPT_EVENT.
    Partitions(Partitions<'a>),
    /// A measurement of a device by SPDM.
    Measurement(Measurement<'a>),
    /// What a device showed by SPDM.
    Evidence(Evidence<'a>),
}

/// What a variable holds.
#[derive(Clone, Copy, Debug, PartialEq, Eq)]
pub enum Held<'a> {
    /// What the firmware may start, of Boot####.
    LoadOption(LoadOption<'a>),
    /// The numbers of load options, of BootOrder.
    BootOrder(BootOrder<'a>),
    /// The lists of PK, KEK, db, dbx, dbt and dbr.
    Signatures(SignatureLists<'a>),
    /// The signature by which something was let be loaded.
    Signature(Owned<'a>),
    /// One byte, as of SecureBoot: 0 where it is off, 1 where it is on.
    Byte(u8),
    /// Bytes of which no more is known, or none.
    Bytes(&'a [u8]),
}

/// A part of the firmware's code.
#[derive(Clone, Copy, Debug, PartialEq, Eq)]
pub struct Firmware<'a> {
    /// The address of its first byte in memory.
    pub base: u64,
    /// How many bytes it has there.
    pub size: u64,
    /// Its description, without a zero that ends it; no byte where there is none.
    pub name: &'a [u8],
}

/// The tables that the firmware hands to the system.
#[derive(Clone, Copy, Debug, PartialEq, Eq)]
pub struct Tables<'a> {
    /// Their description, without a zero that ends it; no byte where there is none.
    pub name: &'a [u8],
    entries: &'a [u8],
}

/// A table that the firmware hands to the system.
#[derive(Clone, Copy, Debug, PartialEq, Eq)]
pub struct Table<'a> {
    /// The GUID that tells what it is, 16 bytes as they lie in memory.
    pub guid: &'a [u8],
    /// The address of its first byte.
    pub address: u64,
}

impl<'a> Tables<'a> {
    /// The tables, in their order.
    pub fn iter(&self) -> impl Iterator<Item = Table<'a>> + 'a {
        self.entries.chunks_exact(c::TPM_TABLE_BYTES).map(|entry| {
            let mut it = c::tpm_table::default();
            // SAFETY: the entry is there for the call, and what is written lies nowhere else.
            unsafe { c::tpm_log_table(entry.as_ptr(), entry.len(), &mut it) };
            Table { guid: part(entry, it.guid), address: it.address }
        })
    }
}

/// The partitions of a disk.
#[derive(Clone, Copy, Debug, PartialEq, Eq)]
pub struct Partitions<'a> {
    /// The disk's GUID, 16 bytes as they lie in memory.
    pub disk: &'a [u8],
    entry_size: usize,
    entries: &'a [u8],
}

/// A partition (EFI_PARTITION_ENTRY).
#[derive(Clone, Copy, Debug, PartialEq, Eq)]
pub struct Partition<'a> {
    /// The GUID of its type, 16 bytes as they lie in memory: zeros where the entry is not used.
    pub kind: &'a [u8],
    /// Its own GUID, likewise.
    pub guid: &'a [u8],
    /// Its first block.
    pub first: u64,
    /// Its last block.
    pub last: u64,
    /// Its attributes' bits.
    pub attributes: u64,
    /// Its name in UTF-16, with the less significant byte of each unit first, to the first zero.
    pub name: &'a [u8],
}

impl<'a> Partition<'a> {
    /// The characters of the name, in which a unit that is no UTF-16 is U+FFFD.
    pub fn name_chars(&self) -> impl Iterator<Item = char> + 'a {
        utf16_chars(self.name)
    }
}

impl<'a> Partitions<'a> {
    /// The partitions, in their order.
    pub fn iter(&self) -> impl Iterator<Item = Partition<'a>> + 'a {
        self.entries.chunks_exact(self.entry_size).map(|entry| {
            let mut it = c::tpm_partition::default();
            // SAFETY: the entry is there for the call, and what is written lies nowhere else.
            unsafe { c::tpm_log_partition(entry.as_ptr(), entry.len(), &mut it) };
            Partition {
                kind: part(entry, it.r#type),
                guid: part(entry, it.guid),
                first: it.first,
                last: it.last,
                attributes: it.attributes,
                name: part(entry, it.name),
            }
        })
    }
}

/// A measurement of a device by SPDM, DEVICE_SECURITY_EVENT_DATA.
#[derive(Clone, Copy, Debug, PartialEq, Eq)]
pub struct Measurement<'a> {
    /// SpdmHashAlgo (DSP0274, "ALGORITHMS").
    pub hash: u32,
    /// DeviceType: 0 where none is told, 1 of PCI, 2 of USB.
    pub device_type: u32,
    /// SpdmMeasurementBlock.
    pub block: &'a [u8],
    /// DeviceContext.
    pub context: &'a [u8],
}

/// What a device showed by SPDM, DEVICE_SECURITY_EVENT_DATA2.
#[derive(Clone, Copy, Debug, PartialEq, Eq)]
pub struct Evidence<'a> {
    /// AuthState: 0 for success, 1 for no authentication, 2 for no binding, 3 for a failure without a signature, 4 for
    /// a signature that is not valid, 255 for no SPDM.
    pub auth_state: u8,
    /// DeviceType, as of a `Measurement`.
    pub device_type: u32,
    /// SubHeaderType: 0 of measurement blocks, 1 of a chain of certificates, 2 of something of the platform's maker.
    pub sub_header_type: u32,
    /// SubHeaderUID, by which events belong together.
    pub uid: u64,
    /// Its device path.
    pub path: &'a [u8],
    /// The sub-header.
    pub sub_header: &'a [u8],
    /// DeviceContext.
    pub context: &'a [u8],
}

impl<'a> Evidence<'a> {
    /// The nodes of its device path, up to the first fault.
    pub fn nodes(&self) -> impl Iterator<Item = PathNode<'a>> + 'a {
        path_nodes(self.path)
    }
}

/// What the firmware may start.
#[derive(Clone, Copy, Debug, PartialEq, Eq)]
pub struct LoadOption<'a> {
    /// Its attributes, of which bit 0 says that it is tried.
    pub attributes: u32,
    /// Its description in UTF-16, with the less significant byte of each unit first.
    pub description: &'a [u8],
    /// Its device paths, one behind the other.
    pub path: &'a [u8],
    /// What is handed to the program.
    pub data: &'a [u8],
}

impl<'a> LoadOption<'a> {
    fn of(value: &'a [u8]) -> Self {
        let mut it = c::tpm_load_option::default();
        // SAFETY: the value is there for the call, and what is written lies nowhere else.
        unsafe { c::tpm_log_load_option(value.as_ptr(), value.len(), &mut it) };
        LoadOption {
            attributes: it.attributes,
            description: part(value, it.description),
            path: part(value, it.path),
            data: part(value, it.value),
        }
    }

    /// The characters of the description, in which a unit that is no UTF-16 is U+FFFD.
    pub fn description_chars(&self) -> impl Iterator<Item = char> + 'a {
        utf16_chars(self.description)
    }

    /// Its device paths, each by its bytes, whose nodes `path_nodes` gives.
    pub fn paths(&self) -> impl Iterator<Item = &'a [u8]> + 'a {
        let mut rest = self.path;
        core::iter::from_fn(move || {
            let (paths, mut it) = (rest, c::tpm_part::default());
            // SAFETY: the paths are there for the call, and what is written lies nowhere else.
            let said = unsafe { c::tpm_log_device_path(paths.as_ptr(), paths.len(), &mut it) };
            rest = paths.get(it.at + it.len..)?;
            (said == c::TPM_DEVICE_PATH).then(|| part(paths, it))
        })
    }
}

/// Numbers of load options, in the order in which they are tried.
#[derive(Clone, Copy, Debug, PartialEq, Eq)]
pub struct BootOrder<'a>(&'a [u8]);

impl<'a> BootOrder<'a> {
    /// The numbers.
    pub fn iter(&self) -> impl Iterator<Item = u16> + 'a {
        self.0.chunks_exact(2).map(|it| u16::from_le_bytes([it[0], it[1]]))
    }
}

/// Lists of signatures, one behind the other.
#[derive(Clone, Copy, Debug, PartialEq, Eq)]
pub struct SignatureLists<'a>(&'a [u8]);

impl<'a> SignatureLists<'a> {
    /// The lists, up to the first fault.
    pub fn iter(&self) -> impl Iterator<Item = SignatureList<'a>> + 'a {
        let mut rest = self.0;
        core::iter::from_fn(move || {
            let (lists, mut it) = (rest, c::tpm_signature_list::default());
            // SAFETY: the lists are there for the call, and what is written lies nowhere else.
            let said = unsafe { c::tpm_log_signature_list(lists.as_ptr(), lists.len(), &mut it) };
            rest = lists.get(it.entries.at + it.entries.len..)?;
            (said == c::TPM_SIGNATURE_LIST).then(|| SignatureList {
                kind: part(lists, it.r#type),
                header: part(lists, it.header),
                entry_size: it.entry_size,
                entries: part(lists, it.entries),
            })
        })
    }
}

/// A list of signatures.
#[derive(Clone, Copy, Debug, PartialEq, Eq)]
pub struct SignatureList<'a> {
    /// The GUID of their type, 16 bytes as they lie in memory.
    pub kind: &'a [u8],
    /// SignatureHeader.
    pub header: &'a [u8],
    entry_size: usize,
    entries: &'a [u8],
}

impl<'a> SignatureList<'a> {
    /// The signatures, in their order.
    pub fn iter(&self) -> impl Iterator<Item = Owned<'a>> + 'a {
        self.entries.chunks_exact(self.entry_size).map(Owned::of)
    }
}

/// A signature of a list, or the one by which something was let be loaded.
#[derive(Clone, Copy, Debug, PartialEq, Eq)]
pub struct Owned<'a> {
    /// The GUID of its owner, 16 bytes as they lie in memory.
    pub owner: &'a [u8],
    /// A certificate or a hash, which is not parsed.
    pub data: &'a [u8],
}

impl<'a> Owned<'a> {
    fn of(value: &'a [u8]) -> Self {
        let mut it = c::tpm_owned::default();
        // SAFETY: the value is there for the call, and what is written lies nowhere else.
        unsafe { c::tpm_log_owned(value.as_ptr(), value.len(), &mut it) };
        Owned { owner: part(value, it.owner), data: part(value, it.value) }
    }
}

fn held(holds: u32, value: &[u8]) -> Held<'_> {
    match holds {
        c::TPM_HOLDS_LOAD_OPTION => Held::LoadOption(LoadOption::of(value)),
        c::TPM_HOLDS_BOOT_ORDER => Held::BootOrder(BootOrder(value)),
        c::TPM_HOLDS_SIGNATURES => Held::Signatures(SignatureLists(value)),
        c::TPM_HOLDS_SIGNATURE => Held::Signature(Owned::of(value)),
        c::TPM_HOLDS_BYTE => Held::Byte(value[0]),
        _ => Held::Bytes(value),
    }
}

impl<'a> Event<'a> {
    /// What the event's data say, by the kind that its type has (PC Client Platform Firmware Profile, "Event Types"),
    /// or none where nothing of them is known, as of another type, or of data with a fault.
    pub fn content(&self) -> Option<Content<'a>> {
        let (data, mut it) = (self.data, c::tpm_content::default());
        // SAFETY: the data are there for the call, and what is written lies nowhere else.
        let kind = unsafe { c::tpm_log_event_content(self.kind, data.as_ptr(), data.len(), &mut it) };
        let text = part(data, it.text);
        Some(match kind {
            c::TPM_VARIABLE => {
                let found = variable_of(data, it.variable);
                Content::Variable(found, held(it.holds, found.value))
            }
            c::TPM_TEXT => Content::Text(Text::Utf8(core::str::from_utf8(text).ok()?)),
            c::TPM_TEXT_UTF16 => Content::Text(Text::Utf16(text)),
            c::TPM_VERSION => Content::Version(Text::Utf16(text)),
            c::TPM_VERSION_GUID => Content::VersionGuid(text),
            c::TPM_SEPARATOR => Content::Separator(it.number),
            c::TPM_LOCALITY => Content::Locality(it.number),
            c::TPM_IMAGE => Content::Image(Image::of(data, it.image)),
            c::TPM_FIRMWARE => Content::Firmware(Firmware {
                base: it.firmware.base,
                size: it.firmware.size,
                name: part(data, it.firmware.name),
            }),
            c::TPM_TABLES => Content::Tables(Tables {
                name: part(data, it.tables.name),
                entries: part(data, it.tables.entries),
            }),
            c::TPM_TAG => Content::Tag(it.tag.id, part(data, it.tag.value)),
            c::TPM_PARTITIONS => Content::Partitions(Partitions {
                disk: part(data, it.partitions.disk),
                entry_size: it.partitions.entry_size,
                entries: part(data, it.partitions.entries),
            }),
            c::TPM_MEASUREMENT => Content::Measurement(Measurement {
                hash: it.measurement.hash,
                device_type: it.measurement.device_type,
                block: part(data, it.measurement.block),
                context: part(data, it.measurement.context),
            }),
            c::TPM_EVIDENCE => Content::Evidence(Evidence {
                auth_state: it.evidence.auth_state,
                device_type: it.evidence.device_type,
                sub_header_type: it.evidence.sub_header_type,
                uid: it.evidence.uid,
                path: part(data, it.evidence.path),
                sub_header: part(data, it.evidence.sub_header),
                context: part(data, it.evidence.context),
            }),
            _ => return None,
        })
    }
}
