//! Packets, as a datagram spells them.
use crate::Mode;
use std::fmt;
use tftp_sys as raw;

/// What a datagram spells (RFC 1350, section 5; RFC 2347).
#[derive(Clone, Copy, Debug, PartialEq, Eq)]
pub enum Packet<'a> {
    Read { name: &'a [u8], mode: Mode, options: Options<'a> },
    Write { name: &'a [u8], mode: Mode, options: Options<'a> },
    Data { block: u16, bytes: &'a [u8] },
    Ack { block: u16 },
    Error { code: u16, text: &'a [u8] },
    Oack { options: Options<'a> },
}

/// The options of a packet, in their order: each a name and a value.
#[derive(Clone, Copy, Debug, PartialEq, Eq)]
pub struct Options<'a>(&'a [u8]);

impl<'a> Iterator for Options<'a> {
    type Item = (&'a [u8], &'a [u8]);

    fn next(&mut self) -> Option<Self::Item> {
        let mut parts = self.0.splitn(3, |byte| *byte == 0);
        let (name, value) = (parts.next()?, parts.next()?);
        self.0 = parts.next()?;
        Some((name, value))
    }
}

/// The first fault of a datagram that is no packet.
#[derive(Clone, Copy, Debug, PartialEq, Eq)]
pub struct Malformed {
    pub kind: MalformedKind,
    /// Its offset in the datagram.
    pub at: usize,
}

/// What is wrong with a datagram.
#[derive(Clone, Copy, Debug, PartialEq, Eq)]
pub enum MalformedKind {
    Short,
    Opcode,
    Unterminated,
    EmptyName,
    Mode,
    NoValue,
    EmptyOption,
    Trailing,
    TooLong,
    BlockZero,
    EmptyOack,
    /// A number that this crate does not know, of a later library.
    Other(u8),
}

impl MalformedKind {
    fn of(number: u8) -> MalformedKind {
        match number {
            1 => MalformedKind::Short,
            2 => MalformedKind::Opcode,
            3 => MalformedKind::Unterminated,
            4 => MalformedKind::EmptyName,
            5 => MalformedKind::Mode,
            6 => MalformedKind::NoValue,
            7 => MalformedKind::EmptyOption,
            8 => MalformedKind::Trailing,
            9 => MalformedKind::TooLong,
            10 => MalformedKind::BlockZero,
            11 => MalformedKind::EmptyOack,
            other => MalformedKind::Other(other),
        }
    }
}

impl fmt::Display for Malformed {
    fn fmt(&self, f: &mut fmt::Formatter<'_>) -> fmt::Result {
        let text = match self.kind {
            MalformedKind::Short => "the datagram is too short",
            MalformedKind::Opcode => "the opcode is unknown",
            MalformedKind::Unterminated => "a text has no zero byte after it",
            MalformedKind::EmptyName => "the file name is empty",
            MalformedKind::Mode => "the mode is neither netascii nor octet",
            MalformedKind::NoValue => "an option has no value",
            MalformedKind::EmptyOption => "an option has no name",
            MalformedKind::Trailing => "bytes follow the packet",
            MalformedKind::TooLong => "the datagram is too long",
            MalformedKind::BlockZero => "a DATA has the number 0",
            MalformedKind::EmptyOack => "an OACK has no option",
            MalformedKind::Other(number) => return write!(f, "fault {number} at byte {}", self.at),
        };
        write!(f, "{text} (at byte {})", self.at)
    }
}

impl std::error::Error for Malformed {}

pub(crate) fn mode(number: u8) -> Mode {
    if number == 2 { Mode::Netascii } else { Mode::Octet }
}

impl<'a> Packet<'a> {
    /// Reads a datagram.
    pub fn decode(datagram: &'a [u8]) -> Result<Packet<'a>, Malformed> {
        let mut it = raw::tftp_packet::default();
        // Safety: as of the calls of `Client`.
        let fault = unsafe { raw::tftp_decode(datagram.as_ptr(), datagram.len(), &mut it) };
        if fault != 0 {
            return Err(Malformed { kind: MalformedKind::of(fault), at: it.fault_at });
        }
        let body = &datagram[it.body_at..it.body_at + it.body_len];
        let (name, options) = (&datagram[2..2 + it.name_len], Options(body));
        Ok(match it.opcode {
            1 => Packet::Read { name, mode: mode(it.mode), options },
            2 => Packet::Write { name, mode: mode(it.mode), options },
            3 => Packet::Data { block: it.number, bytes: body },
            4 => Packet::Ack { block: it.number },
            5 => Packet::Error { code: it.number, text: body },
            _ => Packet::Oack { options },
        })
    }
}

/// A text of this host as it is sent in netascii, with CR LF for LF and CR NUL for CR.
pub fn to_wire(text: &[u8]) -> Vec<u8> {
    // Safety: as of the calls of `Client`.
    let len = unsafe { raw::tftp_wire_length(text.as_ptr(), text.len()) };
    let mut wire = vec![0; usize::try_from(len).expect("a text in memory")];
    let written =
        unsafe { raw::tftp_to_wire(text.as_ptr(), text.len(), wire.as_mut_ptr(), wire.len()) };
    assert_eq!(written, wire.len(), "out of memory");
    wire
}
