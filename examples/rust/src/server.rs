//! A request port, and a table of transfers over the caller's files.
use crate::event::{self, Event, Info, done};
use crate::options::{endpoint, given};
use crate::{Fault, Mode, Options, packet};
use std::net::SocketAddrV4;
use tftp_sys as raw;

/// What a server asks for a datagram at its request port.
#[derive(Clone, Copy, Debug, PartialEq, Eq)]
pub enum Question<'a> {
    /// Nothing is to be done.
    None,
    /// This ERROR goes to the datagram's sender.
    Refuse(&'a [u8]),
    /// The file at this path is to be read: answer by [`Server::get`], in netascii with what
    /// [`to_wire`](crate::to_wire) makes of it.
    Open { path: &'a str, mode: Mode },
    /// A new file at this path is to be begun: answer by [`Server::put`].
    Begin { path: &'a str, mode: Mode },
}

/// A server of at most 64 transfers. Each has a number, which is the caller's.
pub struct Server {
    server: raw::tftp_server,
    reply: Vec<u8>,
    path: [u8; raw::TFTP_MAX_PATH],
}

// Safety of each call: as of the calls of `Client`.
impl Server {
    pub fn open(options: &Options, transfers: u8) -> Result<Server, Fault> {
        let any = if options.blksize.is_some() { 0 } else { raw::TFTP_MAX_BLOCK };
        let mut made = Server {
            server: raw::tftp_server::CLOSED,
            reply: vec![0; options.room(any.max(raw::TFTP_DEFAULT_BLOCK))],
            path: [0; raw::TFTP_MAX_PATH],
        };
        let limits = options.raw();
        let (at, size) = given(&limits);
        match unsafe { raw::tftp_open_server(&mut made.server, at, size, transfers) } {
            0 => Ok(made),
            fault => Err(Fault::of(fault)),
        }
    }

    /// A datagram came to the request port.
    pub fn on_request(
        &mut self,
        from: SocketAddrV4,
        datagram: &[u8],
    ) -> Result<Question<'_>, Fault> {
        let (mut question, from) = (raw::tftp_question::default(), endpoint(from));
        let fault = unsafe {
            raw::tftp_server_request(
                &self.server,
                &from,
                datagram.as_ptr(),
                datagram.len(),
                self.path.as_mut_ptr(),
                self.path.len(),
                self.reply.as_mut_ptr(),
                self.reply.len(),
                &mut question,
            )
        };
        if fault != 0 {
            return Err(Fault::of(fault));
        }
        // a path is of letters, digits and three other characters
        let path = str::from_utf8(&self.path[..question.name_len]).unwrap_or_default();
        let mode = packet::mode(question.mode);
        Ok(match question.wants {
            1 => Question::Open { path, mode },
            2 => Question::Begin { path, mode },
            _ if question.send_len > 0 => Question::Refuse(&self.reply[..question.send_len]),
            _ => Question::None,
        })
    }

    /// Opens the transfer of a read: `next` has the first bytes of a file of `length` bytes.
    pub fn get(
        &mut self,
        tid: u16,
        from: SocketAddrV4,
        request: &[u8],
        length: u64,
        next: &[u8],
    ) -> Result<Event, Fault> {
        let (mut event, from) = (raw::tftp_event::default(), endpoint(from));
        let fault = unsafe {
            raw::tftp_server_get(
                &mut self.server,
                tid,
                &from,
                request.as_ptr(),
                request.len(),
                length,
                next.as_ptr(),
                next.len(),
                self.reply.as_mut_ptr(),
                self.reply.len(),
                &mut event,
            )
        };
        done(fault, &event)
    }

    /// Opens the transfer of a write.
    pub fn put(&mut self, tid: u16, from: SocketAddrV4, request: &[u8]) -> Result<Event, Fault> {
        let (mut event, from) = (raw::tftp_event::default(), endpoint(from));
        let fault = unsafe {
            raw::tftp_server_put(
                &mut self.server,
                tid,
                &from,
                request.as_ptr(),
                request.len(),
                self.reply.as_mut_ptr(),
                self.reply.len(),
                &mut event,
            )
        };
        done(fault, &event)
    }

    /// A datagram came to a transfer that receives. Store `file[..event.file_len]` before the answer
    /// is sent.
    pub fn on_data(
        &mut self,
        tid: u16,
        from: SocketAddrV4,
        datagram: &[u8],
        file: &mut [u8],
    ) -> Result<Event, Fault> {
        let (mut event, from) = (raw::tftp_event::default(), endpoint(from));
        let fault = unsafe {
            raw::tftp_server_receive(
                &mut self.server,
                tid,
                &from,
                datagram.as_ptr(),
                datagram.len(),
                file.as_mut_ptr(),
                file.len(),
                self.reply.as_mut_ptr(),
                self.reply.len(),
                &mut event,
            )
        };
        done(fault, &event)
    }

    /// A datagram came to a transfer that sends. `event.file_len` bytes of `next` were taken.
    pub fn on_ack(
        &mut self,
        tid: u16,
        from: SocketAddrV4,
        datagram: &[u8],
        next: &[u8],
    ) -> Result<Event, Fault> {
        let (mut event, from) = (raw::tftp_event::default(), endpoint(from));
        let fault = unsafe {
            raw::tftp_server_send(
                &mut self.server,
                tid,
                &from,
                datagram.as_ptr(),
                datagram.len(),
                next.as_ptr(),
                next.len(),
                self.reply.as_mut_ptr(),
                self.reply.len(),
                &mut event,
            )
        };
        done(fault, &event)
    }

    /// The `interval` of the newest event of a transfer has passed.
    pub fn on_timeout(&mut self, tid: u16) -> Result<Event, Fault> {
        let mut event = raw::tftp_event::default();
        let fault = unsafe {
            raw::tftp_server_timeout(
                &mut self.server,
                tid,
                self.reply.as_mut_ptr(),
                self.reply.len(),
                &mut event,
            )
        };
        done(fault, &event)
    }

    /// Ends a transfer by an ERROR, and removes it.
    pub fn abort(&mut self, tid: u16, code: u16, text: &str) -> Result<Event, Fault> {
        let mut event = raw::tftp_event::default();
        let fault = unsafe {
            raw::tftp_server_abort(
                &mut self.server,
                tid,
                code,
                text.as_ptr(),
                text.len(),
                self.reply.as_mut_ptr(),
                self.reply.len(),
                &mut event,
            )
        };
        done(fault, &event)
    }

    /// What a transfer and its peer have agreed.
    pub fn info(&self, tid: u16) -> Result<Info, Fault> {
        event::info(|info| unsafe { raw::tftp_server_info(&self.server, tid, info) })
    }

    /// Removes a transfer, open or closed, and returns whether there was one.
    pub fn give_up(&mut self, tid: u16) -> bool {
        unsafe { raw::tftp_server_give_up(&mut self.server, tid) }
    }

    /// The datagram that the last call wrote, for `event.to`; empty if there is none.
    pub fn datagram(&self, event: &Event) -> &[u8] {
        &self.reply[..event.send_len]
    }
}

impl Drop for Server {
    fn drop(&mut self) {
        unsafe { raw::tftp_close_server(&mut self.server) }
    }
}
