//! The client's end of a transfer.
use crate::event::{self, Event, Info, done};
use crate::options::{endpoint, given};
use crate::{Fault, Options};
use std::net::SocketAddrV4;
use tftp_sys as raw;

/// A client that gets a file, or puts one.
pub struct Client {
    end: raw::tftp_end,
    reply: Vec<u8>,
}

// Safety of each call: a reference is a pointer that is not null, aligned and initialised, and
// `&mut` is not shared; a slice gives its own pointer and length; `end` is made as zeros here, and
// changed by these calls alone.
impl Client {
    fn closed(options: &Options) -> Client {
        let room = options.room(raw::TFTP_DEFAULT_BLOCK);
        Client { end: raw::tftp_end::CLOSED, reply: vec![0; room] }
    }

    /// Opens a client that gets: send [`Client::datagram`] to `event.to`.
    pub fn get(
        server: SocketAddrV4,
        name: &[u8],
        options: &Options,
    ) -> Result<(Client, Event), Fault> {
        let (mut client, mut event) = (Client::closed(options), raw::tftp_event::default());
        let (to, asked) = (endpoint(server), options.raw());
        let ((at, size), Client { end, reply }) = (given(&asked), &mut client);
        let fault = unsafe {
            raw::tftp_open_get(
                end,
                &to,
                name.as_ptr(),
                name.len(),
                at,
                size,
                reply.as_mut_ptr(),
                reply.len(),
                &mut event,
            )
        };
        done(fault, &event).map(|event| (client, event))
    }

    /// Opens a client that puts a file of `length` bytes.
    pub fn put(
        server: SocketAddrV4,
        name: &[u8],
        length: u64,
        options: &Options,
    ) -> Result<(Client, Event), Fault> {
        let (mut client, mut event) = (Client::closed(options), raw::tftp_event::default());
        let (to, asked) = (endpoint(server), options.raw());
        let ((at, size), Client { end, reply }) = (given(&asked), &mut client);
        let fault = unsafe {
            raw::tftp_open_put(
                end,
                &to,
                name.as_ptr(),
                name.len(),
                length,
                at,
                size,
                reply.as_mut_ptr(),
                reply.len(),
                &mut event,
            )
        };
        done(fault, &event).map(|event| (client, event))
    }

    /// Handles a datagram of a get. The next bytes of the file are `file[..event.file_len]`: store
    /// them before the answer is sent. `file` has a block's length or more, or else the transfer
    /// closes.
    pub fn on_data(
        &mut self,
        from: SocketAddrV4,
        datagram: &[u8],
        file: &mut [u8],
    ) -> Result<Event, Fault> {
        let (mut event, from) = (raw::tftp_event::default(), endpoint(from));
        let fault = unsafe {
            raw::tftp_receive(
                &mut self.end,
                &from,
                datagram.as_ptr(),
                datagram.len(),
                file.as_mut_ptr(),
                file.len(),
                self.reply.as_mut_ptr(),
                self.reply.len(),
                &mut event,
            )
        };
        done(fault, &event)
    }

    /// Handles a datagram of a put. `event.file_len` bytes were taken from the start of `next`, the
    /// part of the file that is left: a block's length or more, or all.
    pub fn on_ack(
        &mut self,
        from: SocketAddrV4,
        datagram: &[u8],
        next: &[u8],
    ) -> Result<Event, Fault> {
        let (mut event, from) = (raw::tftp_event::default(), endpoint(from));
        let fault = unsafe {
            raw::tftp_send(
                &mut self.end,
                &from,
                datagram.as_ptr(),
                datagram.len(),
                next.as_ptr(),
                next.len(),
                self.reply.as_mut_ptr(),
                self.reply.len(),
                &mut event,
            )
        };
        done(fault, &event)
    }

    /// `event.interval` has passed since the opening, the last progress or the last timeout.
    pub fn on_timeout(&mut self) -> Result<Event, Fault> {
        let mut event = raw::tftp_event::default();
        let fault = unsafe {
            raw::tftp_timeout(&mut self.end, self.reply.as_mut_ptr(), self.reply.len(), &mut event)
        };
        done(fault, &event)
    }

    /// Ends a transfer that cannot go on, by an ERROR for its peer.
    pub fn abort(&mut self, code: u16, text: &str) -> Result<Event, Fault> {
        let mut event = raw::tftp_event::default();
        let fault = unsafe {
            raw::tftp_abort(
                &mut self.end,
                code,
                text.as_ptr(),
                text.len(),
                self.reply.as_mut_ptr(),
                self.reply.len(),
                &mut event,
            )
        };
        done(fault, &event)
    }

    /// What the client and its peer have agreed, once it has answered.
    pub fn info(&self) -> Result<Info, Fault> {
        event::info(|info| unsafe { raw::tftp_end_info(&self.end, info) })
    }

    /// The datagram that the last call wrote, for `event.to`; empty if there is none.
    pub fn datagram(&self, event: &Event) -> &[u8] {
        &self.reply[..event.send_len]
    }
}

impl Drop for Client {
    fn drop(&mut self) {
        unsafe { raw::tftp_close_end(&mut self.end) }
    }
}
