//! Why a call did nothing.
use std::fmt;

/// The faults of `tftp.h`. After one nothing has changed.
#[derive(Clone, Copy, Debug, PartialEq, Eq)]
pub enum Fault {
    /// The handle is closed.
    NotOpen,
    /// The request is not allowed, or a number is out of its range.
    BadRequest,
    /// Out of memory: the peer sends again.
    Memory,
    /// The transfer is over.
    Closed,
    /// A datagram for a receiver at a sender, or the other way round.
    WrongSide,
    /// The file has more than 65,535 blocks.
    TooLargeFile,
    /// The options of the request are refused: answer ERROR 8.
    RefusedOptions,
    /// `next` has fewer bytes than the first block.
    NoSource,
    /// No such transfer is open.
    NoTransfer,
    /// A transfer has this number.
    InUse,
    /// The options have no size.
    BadOptions,
    /// The buffer is too short for the datagram.
    NoRoom,
    /// A write states a length above the limit: answer ERROR 3.
    OverLimit,
    /// The library is older than this crate.
    LaterStruct,
    /// A number that this crate does not know, of a later library.
    Other(u8),
}

impl Fault {
    pub(crate) fn of(number: u8) -> Fault {
        match number {
            1 => Fault::NotOpen,
            2 => Fault::BadRequest,
            3 => Fault::Memory,
            4 => Fault::Closed,
            5 => Fault::WrongSide,
            6 => Fault::TooLargeFile,
            7 => Fault::RefusedOptions,
            8 => Fault::NoSource,
            9 => Fault::NoTransfer,
            10 => Fault::InUse,
            11 => Fault::BadOptions,
            12 => Fault::NoRoom,
            13 => Fault::OverLimit,
            14 => Fault::LaterStruct,
            other => Fault::Other(other),
        }
    }

    /// The code of the ERROR that answers a request which an opening has refused.
    pub fn error_code(self) -> u16 {
        match self {
            Fault::RefusedOptions => 8,
            Fault::OverLimit => 3,
            _ => 0,
        }
    }
}

impl fmt::Display for Fault {
    fn fmt(&self, f: &mut fmt::Formatter<'_>) -> fmt::Result {
        let text = match self {
            Fault::NotOpen => "the handle is closed",
            Fault::BadRequest => "the request is not allowed",
            Fault::Memory => "out of memory",
            Fault::Closed => "the transfer is over",
            Fault::WrongSide => "the end does not go this way",
            Fault::TooLargeFile => "the file has more than 65,535 blocks",
            Fault::RefusedOptions => "the options of the request are refused",
            Fault::NoSource => "the first block is not there",
            Fault::NoTransfer => "no such transfer is open",
            Fault::InUse => "a transfer has this number",
            Fault::BadOptions => "the options or the info have no size",
            Fault::NoRoom => "the buffer is too short for the datagram",
            Fault::OverLimit => "the stated length is above the limit",
            Fault::LaterStruct => "the library is older than the caller's header",
            Fault::Other(number) => return write!(f, "fault {number}"),
        };
        f.write_str(text)
    }
}

impl std::error::Error for Fault {}
