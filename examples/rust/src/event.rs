//! What a call did.
use crate::Fault;
use crate::options::address;
use std::fmt;
use std::net::SocketAddrV4;
use std::time::Duration;
use tftp_sys as raw;

/// How a transfer ended.
#[derive(Clone, Copy, Debug, PartialEq, Eq)]
pub enum Outcome {
    /// The whole file was stored, or acknowledged.
    Complete,
    /// The peer did not answer; never success.
    TimedOut,
    /// The peer sent an ERROR of this code; [`Packet::decode`](crate::Packet::decode) has its text.
    PeerError(u16),
    /// The peer sent what the protocol does not allow.
    Illegal,
    /// The options that the server answered were not asked.
    Refused,
    /// The stated length is above the limit, or the file has more than 65,535 blocks.
    TooLarge,
    /// The block did not fit the buffer.
    StoreFault,
    /// The file had fewer bytes than the block needs.
    SourceFault,
    /// The peer's text is not netascii.
    NotNetascii,
    /// The caller ended it.
    Aborted,
    /// A number that this crate does not know, of a later library.
    Other(u8),
}

impl Outcome {
    fn of(event: &raw::tftp_event) -> Option<Outcome> {
        Some(match event.outcome {
            0 => return None,
            1 => Outcome::Complete,
            2 => Outcome::TimedOut,
            3 => Outcome::PeerError(event.peer_code),
            4 => Outcome::Illegal,
            5 => Outcome::Refused,
            6 => Outcome::TooLarge,
            7 => Outcome::StoreFault,
            8 => Outcome::SourceFault,
            9 => Outcome::NotNetascii,
            10 => Outcome::Aborted,
            other => Outcome::Other(other),
        })
    }
}

impl fmt::Display for Outcome {
    fn fmt(&self, f: &mut fmt::Formatter<'_>) -> fmt::Result {
        let text = match self {
            Outcome::Complete => "complete",
            Outcome::TimedOut => "timed out",
            Outcome::PeerError(code) => return write!(f, "peer's error {code}"),
            Outcome::Illegal => "illegal packet",
            Outcome::Refused => "options refused",
            Outcome::TooLarge => "too large",
            Outcome::StoreFault => "store fault",
            Outcome::SourceFault => "source fault",
            Outcome::NotNetascii => "not netascii",
            Outcome::Aborted => "aborted",
            Outcome::Other(number) => return write!(f, "outcome {number}"),
        };
        f.write_str(text)
    }
}

/// What a call did, and the state of the end after it.
#[derive(Clone, Copy, Debug, PartialEq, Eq)]
pub struct Event {
    /// Where the datagram goes that the call wrote, if it wrote one.
    pub to: Option<SocketAddrV4>,
    pub(crate) send_len: usize,
    /// How many bytes of the file were stored, or taken to be sent.
    pub file_len: usize,
    /// A sender's newest DATA number, or how many blocks a receiver has stored.
    pub number: u16,
    /// The agreed block size in bytes; 512 while there is no peer.
    pub block_size: u16,
    /// How long to wait from the opening, the last progress or the last timeout to the next one.
    pub interval: Duration,
    /// How the transfer ended, once it has.
    pub outcome: Option<Outcome>,
    /// Whether the call brought the transfer on: the timeout begins anew.
    pub progress: bool,
    /// Whether the whole file was stored, or acknowledged. A receiver goes on until `outcome`, to
    /// acknowledge its last block again if that was lost.
    pub complete: bool,
}

/// What a call returned, and its event.
pub(crate) fn done(fault: u8, event: &raw::tftp_event) -> Result<Event, Fault> {
    if fault != 0 {
        return Err(Fault::of(fault));
    }
    Ok(Event {
        to: (event.send_len > 0).then(|| address(event.to)),
        send_len: event.send_len,
        file_len: event.file_len,
        number: event.number,
        block_size: event.block_size,
        interval: Duration::from_secs(event.interval.into()),
        outcome: Outcome::of(event),
        progress: event.progress,
        complete: event.complete,
    })
}

/// What an end and its peer have agreed.
#[derive(Clone, Copy, Debug, PartialEq, Eq)]
pub struct Info {
    /// The length of the file that was answered (`tsize`), in bytes of wire text.
    pub length: Option<u64>,
    /// The agreed timeout in seconds.
    pub timeout: Option<u8>,
    /// The agreed block size in bytes; 512 while there is no peer.
    pub block_size: u16,
}

/// What `read` writes to an info.
pub(crate) fn info(read: impl FnOnce(&mut raw::tftp_info) -> u8) -> Result<Info, Fault> {
    let mut info = raw::tftp_info {
        size: size_of::<raw::tftp_info>(),
        length: 0,
        timeout: 0,
        has_length: false,
        block_size: 0,
        reserved: [0; 4],
    };
    match read(&mut info) {
        0 => Ok(Info {
            length: info.has_length.then_some(info.length),
            timeout: (info.timeout > 0).then_some(info.timeout),
            block_size: info.block_size,
        }),
        fault => Err(Fault::of(fault)),
    }
}
