//! Kinds, configuration space and address, as far as the judged file asks for them.

use serde::Serialize;

/// What a trace filter is asked for; only the domain matters here.
pub enum Address {
    Domain { domain: u8 },
    Router,
}

/// The `config` value. Document 01 keeps it as the byte that was read.
#[derive(Clone, Copy, Debug, PartialEq, Serialize)]
pub struct ConfigSpace(pub u8);

impl From<u8> for ConfigSpace {
    fn from(byte: u8) -> Self {
        Self(byte)
    }
}

/// The packet's kind; its numbers are document 01's, not those of the wire.
#[derive(Clone, Copy, Debug, PartialEq, Serialize)]
pub enum Pdf {
    Unknown,
    ReadRequest,
    ReadResponse,
    WriteRequest,
    WriteResponse,
    Notification,
    NotificationAck,
    HotPlugEvent,
    XdomainRequest,
    XdomainResponse,
    IcmEvent,
    IcmRequest,
    IcmResponse,
    /// A kind above 12: no line gives it, a packet call can, and no book has its table.
    Beyond(u8),
}

const KINDS: [Pdf; 13] = [
    Pdf::Unknown,
    Pdf::ReadRequest,
    Pdf::ReadResponse,
    Pdf::WriteRequest,
    Pdf::WriteResponse,
    Pdf::Notification,
    Pdf::NotificationAck,
    Pdf::HotPlugEvent,
    Pdf::XdomainRequest,
    Pdf::XdomainResponse,
    Pdf::IcmEvent,
    Pdf::IcmRequest,
    Pdf::IcmResponse,
];

impl Pdf {
    pub fn from_kind(kind: u8) -> Self {
        KINDS
            .get(kind as usize)
            .copied()
            .unwrap_or(Self::Beyond(kind))
    }

    pub fn kind(self) -> u8 {
        match self {
            Self::Beyond(kind) => kind,
            _ => KINDS.iter().position(|&k| k == self).unwrap() as u8,
        }
    }

    /// The number of the control table, none for the unknown kind.
    pub fn to_num(self) -> Option<u32> {
        match self.kind() {
            0 => None,
            kind => Some(kind.into()),
        }
    }
}
