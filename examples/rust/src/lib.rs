//! TFTP transfers as state machines without IO, over `libtftp`: each call is proved to make the steps
//! of RFC 1350 and RFC 2347 to 2349, and this crate keeps what a caller in C owes.
//!
//! ```
//! use std::net::{Ipv4Addr, SocketAddrV4};
//! use tftp::{Client, Options};
//!
//! let server = SocketAddrV4::new(Ipv4Addr::LOCALHOST, 69);
//! let (mut client, event) = Client::get(server, b"boot.img", &Options::default())?;
//! assert_eq!(event.to, Some(server));
//! assert!(client.datagram(&event).starts_with(b"\0\x01boot.img\0octet\0"));
//!
//! // a DATA of three bytes arrives: the last block
//! let peer = SocketAddrV4::new(Ipv4Addr::LOCALHOST, 1024);
//! let mut file = [0; 512];
//! let event = client.on_data(peer, b"\0\x03\0\x01abc", &mut file)?;
//! assert_eq!(&file[..event.file_len], b"abc");
//! assert_eq!(client.datagram(&event), b"\0\x04\0\x01");
//! assert!(event.complete);
//! // two timeouts of a second follow, in which the ACK is repeated if it was lost: a caller that
//! // need not wait drops the client here, once the ACK is sent
//! # Ok::<(), tftp::Fault>(())
//! ```
//!
//! A handle moves, also to another thread, and cannot be used twice:
//!
//! ```
//! # use std::net::{Ipv4Addr, SocketAddrV4};
//! # use tftp::{Client, Options};
//! # let server = SocketAddrV4::new(Ipv4Addr::LOCALHOST, 69);
//! let (client, _) = Client::get(server, b"a", &Options::default())?;
//! std::thread::spawn(move || drop(client)).join().unwrap();
//! # Ok::<(), tftp::Fault>(())
//! ```
//!
//! ```compile_fail
//! # use std::net::{Ipv4Addr, SocketAddrV4};
//! # use tftp::{Client, Options};
//! # let server = SocketAddrV4::new(Ipv4Addr::LOCALHOST, 69);
//! let (client, _) = Client::get(server, b"a", &Options::default()).unwrap();
//! drop(client);
//! drop(client);
//! ```
mod client;
mod event;
mod fault;
mod options;
mod packet;
mod server;

pub use client::Client;
pub use event::{Event, Info, Outcome};
pub use fault::Fault;
pub use options::{Mode, Options};
pub use packet::{Malformed, MalformedKind, Options as PacketOptions, Packet, to_wire};
pub use server::{Question, Server};
