//! What a request asks, and the address of an end.
use std::ffi::c_void;
use std::net::{Ipv4Addr, SocketAddrV4};
use tftp_sys as raw;

/// The mode of a transfer (RFC 1350, section 1).
#[derive(Clone, Copy, Debug, Default, PartialEq, Eq)]
pub enum Mode {
    #[default]
    Octet,
    /// A text: a receiver gives LF for CR LF, and a sender takes what [`to_wire`](crate::to_wire)
    /// makes.
    Netascii,
}

/// What a request asks, or how far a server goes. Its default asks for nothing, has no limit, and
/// sends a datagram five times more.
#[derive(Clone, Copy, Debug, PartialEq, Eq)]
pub struct Options {
    /// The block size that is asked, 8 to 65,464 bytes; at a server the largest (RFC 2348).
    pub blksize: Option<u16>,
    /// The timeout that is asked, in seconds (RFC 2349).
    pub timeout: Option<u8>,
    /// At a server: the longest timeout that it agrees to, in seconds.
    pub max_timeout: Option<u8>,
    /// How many times in a row a datagram is sent again.
    pub retries: u8,
    /// Whether each timeout without progress doubles the wait, up to eight times (RFC 1123).
    pub backoff: bool,
    /// Whether the length of the file is asked, or stated (RFC 2349).
    pub asks_tsize: bool,
    /// The longest length that a peer may state.
    pub max_file: u64,
    pub mode: Mode,
}

impl Default for Options {
    fn default() -> Options {
        Options {
            blksize: None,
            timeout: None,
            max_timeout: None,
            retries: 5,
            backoff: false,
            asks_tsize: false,
            max_file: u64::MAX,
            mode: Mode::Octet,
        }
    }
}

impl Options {
    pub(crate) fn raw(&self) -> raw::tftp_options {
        raw::tftp_options {
            size: size_of::<raw::tftp_options>(),
            max_file: self.max_file,
            blksize: self.blksize.unwrap_or(0),
            timeout: self.timeout.unwrap_or(0),
            retries: self.retries,
            asks_tsize: self.asks_tsize,
            is_netascii: self.mode == Mode::Netascii,
            reserved: [0; 2],
            backoff: self.backoff,
            max_timeout: self.max_timeout.unwrap_or(0),
            reserved_too: [0; 6],
        }
    }

    /// The room for a datagram of these options, in bytes: a block of the default size, too.
    pub(crate) fn room(&self, block: usize) -> usize {
        usize::from(self.blksize.unwrap_or(0)).max(block) + raw::TFTP_HEADER
    }
}

/// The bytes of the options, as an opening takes them.
pub(crate) fn given(options: &raw::tftp_options) -> (*const c_void, usize) {
    (std::ptr::from_ref(options).cast(), size_of::<raw::tftp_options>())
}

pub(crate) fn endpoint(at: SocketAddrV4) -> raw::tftp_endpoint {
    raw::tftp_endpoint { ip: at.ip().octets(), port: at.port() }
}

pub(crate) fn address(at: raw::tftp_endpoint) -> SocketAddrV4 {
    SocketAddrV4::new(Ipv4Addr::from(at.ip), at.port)
}
