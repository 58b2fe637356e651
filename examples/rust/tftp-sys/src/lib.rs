//! The declarations of `tftp.h`, by its names. It says what each call does, and what its caller owes.
//!
//! The five openings take the bytes of the options and their number, as `tftp.h` does in its inline functions.
#![allow(non_camel_case_types)]
use std::ffi::c_void;

pub const TFTP_MAX_REQUEST: usize = 512;
pub const TFTP_DEFAULT_BLOCK: usize = 512;
pub const TFTP_MAX_BLOCK: usize = 65_464;
pub const TFTP_HEADER: usize = 4;
pub const TFTP_MAX_PATH: usize = 255;

/// An IPv4 address in network order, and a UDP port in the host's order.
#[repr(C)]
#[derive(Clone, Copy, Debug, Default, PartialEq, Eq)]
pub struct tftp_endpoint {
    pub ip: [u8; 4],
    pub port: u16,
}

/// What a request asks, or how far a server goes.
#[repr(C)]
#[derive(Clone, Copy, Debug)]
pub struct tftp_options {
    /// The size of this struct, which each opening is passed, too.
    pub size: usize,
    pub max_file: u64,
    pub blksize: u16,
    pub timeout: u8,
    pub retries: u8,
    pub asks_tsize: bool,
    pub is_netascii: bool,
    pub reserved: [u8; 2],
    pub backoff: bool,
    pub max_timeout: u8,
    pub reserved_too: [u8; 6],
}

/// What a call did, and the state of the end after it.
#[repr(C)]
#[derive(Clone, Copy, Debug, Default)]
pub struct tftp_event {
    pub send_len: usize,
    pub file_len: usize,
    pub to: tftp_endpoint,
    pub peer_code: u16,
    pub number: u16,
    pub block_size: u16,
    pub interval: u16,
    pub outcome: u8,
    pub progress: bool,
    pub complete: bool,
    pub no_room: bool,
    pub reserved: [u8; 6],
}

/// What an end and its peer have agreed.
#[repr(C)]
#[derive(Clone, Copy, Debug)]
pub struct tftp_info {
    /// The size of this struct.
    pub size: usize,
    pub length: u64,
    pub timeout: u8,
    pub has_length: bool,
    pub block_size: u16,
    pub reserved: [u8; 4],
}

/// What a server asks for a datagram at its request port.
#[repr(C)]
#[derive(Clone, Copy, Debug, Default)]
pub struct tftp_question {
    pub send_len: usize,
    pub name_len: usize,
    pub wants: u8,
    pub mode: u8,
    pub reserved: [u8; 6],
}

/// What a datagram spells.
#[repr(C)]
#[derive(Clone, Copy, Debug, Default)]
pub struct tftp_packet {
    pub fault_at: usize,
    pub name_len: usize,
    pub body_at: usize,
    pub body_len: usize,
    pub opcode: u16,
    pub number: u16,
    pub mode: u8,
    pub fault: u8,
    pub reserved: [u8; 2],
}

/// One end of a transfer. It begins as `CLOSED`, and is changed by the calls alone.
#[repr(C)]
pub struct tftp_end {
    is_open: bool,
    reserved: [u8; 7],
    opaque: *mut c_void,
}

/// A server: its request port, and a table of transfers. It begins as `CLOSED`.
#[repr(C)]
pub struct tftp_server {
    is_open: bool,
    reserved: [u8; 7],
    opaque: *mut c_void,
}

impl tftp_end {
    pub const CLOSED: tftp_end =
        tftp_end { is_open: false, reserved: [0; 7], opaque: std::ptr::null_mut() };
}

impl tftp_server {
    pub const CLOSED: tftp_server =
        tftp_server { is_open: false, reserved: [0; 7], opaque: std::ptr::null_mut() };
}

// Safety: what a handle holds is plain memory of `malloc`, `realloc` and `free`, which serve every
// thread of a program, and no call keeps anything of the thread that made it.
unsafe impl Send for tftp_end {}
unsafe impl Send for tftp_server {}

unsafe extern "C" {
    pub fn tftp_version() -> u32;
    pub fn tftp_open_get(
        end: *mut tftp_end,
        server: *const tftp_endpoint,
        name: *const u8,
        name_len: usize,
        options: *const c_void,
        options_size: usize,
        request: *mut u8,
        request_len: usize,
        event: *mut tftp_event,
    ) -> u8;
    pub fn tftp_open_put(
        end: *mut tftp_end,
        server: *const tftp_endpoint,
        name: *const u8,
        name_len: usize,
        length: u64,
        options: *const c_void,
        options_size: usize,
        request: *mut u8,
        request_len: usize,
        event: *mut tftp_event,
    ) -> u8;
    pub fn tftp_open_serve_get(
        end: *mut tftp_end,
        client: *const tftp_endpoint,
        request: *const u8,
        request_len: usize,
        length: u64,
        next: *const u8,
        next_len: usize,
        options: *const c_void,
        options_size: usize,
        reply: *mut u8,
        reply_len: usize,
        event: *mut tftp_event,
    ) -> u8;
    pub fn tftp_open_serve_put(
        end: *mut tftp_end,
        client: *const tftp_endpoint,
        request: *const u8,
        request_len: usize,
        options: *const c_void,
        options_size: usize,
        reply: *mut u8,
        reply_len: usize,
        event: *mut tftp_event,
    ) -> u8;
    pub fn tftp_receive(
        end: *mut tftp_end,
        from: *const tftp_endpoint,
        datagram: *const u8,
        datagram_len: usize,
        file: *mut u8,
        file_len: usize,
        reply: *mut u8,
        reply_len: usize,
        event: *mut tftp_event,
    ) -> u8;
    pub fn tftp_send(
        end: *mut tftp_end,
        from: *const tftp_endpoint,
        datagram: *const u8,
        datagram_len: usize,
        next: *const u8,
        next_len: usize,
        reply: *mut u8,
        reply_len: usize,
        event: *mut tftp_event,
    ) -> u8;
    pub fn tftp_timeout(
        end: *mut tftp_end,
        reply: *mut u8,
        reply_len: usize,
        event: *mut tftp_event,
    ) -> u8;
    pub fn tftp_abort(
        end: *mut tftp_end,
        code: u16,
        text: *const u8,
        text_len: usize,
        reply: *mut u8,
        reply_len: usize,
        event: *mut tftp_event,
    ) -> u8;
    pub fn tftp_end_info(end: *const tftp_end, info: *mut tftp_info) -> u8;
    pub fn tftp_close_end(end: *mut tftp_end);
    pub fn tftp_open_server(
        server: *mut tftp_server,
        options: *const c_void,
        options_size: usize,
        transfers: u8,
    ) -> u8;
    pub fn tftp_server_request(
        server: *const tftp_server,
        from: *const tftp_endpoint,
        datagram: *const u8,
        datagram_len: usize,
        name: *mut u8,
        name_len: usize,
        reply: *mut u8,
        reply_len: usize,
        question: *mut tftp_question,
    ) -> u8;
    pub fn tftp_server_get(
        server: *mut tftp_server,
        tid: u16,
        from: *const tftp_endpoint,
        request: *const u8,
        request_len: usize,
        length: u64,
        next: *const u8,
        next_len: usize,
        reply: *mut u8,
        reply_len: usize,
        event: *mut tftp_event,
    ) -> u8;
    pub fn tftp_server_put(
        server: *mut tftp_server,
        tid: u16,
        from: *const tftp_endpoint,
        request: *const u8,
        request_len: usize,
        reply: *mut u8,
        reply_len: usize,
        event: *mut tftp_event,
    ) -> u8;
    pub fn tftp_server_receive(
        server: *mut tftp_server,
        tid: u16,
        from: *const tftp_endpoint,
        datagram: *const u8,
        datagram_len: usize,
        file: *mut u8,
        file_len: usize,
        reply: *mut u8,
        reply_len: usize,
        event: *mut tftp_event,
    ) -> u8;
    pub fn tftp_server_send(
        server: *mut tftp_server,
        tid: u16,
        from: *const tftp_endpoint,
        datagram: *const u8,
        datagram_len: usize,
        next: *const u8,
        next_len: usize,
        reply: *mut u8,
        reply_len: usize,
        event: *mut tftp_event,
    ) -> u8;
    pub fn tftp_server_timeout(
        server: *mut tftp_server,
        tid: u16,
        reply: *mut u8,
        reply_len: usize,
        event: *mut tftp_event,
    ) -> u8;
    pub fn tftp_server_abort(
        server: *mut tftp_server,
        tid: u16,
        code: u16,
        text: *const u8,
        text_len: usize,
        reply: *mut u8,
        reply_len: usize,
        event: *mut tftp_event,
    ) -> u8;
    pub fn tftp_server_info(server: *const tftp_server, tid: u16, info: *mut tftp_info) -> u8;
    pub fn tftp_server_give_up(server: *mut tftp_server, tid: u16) -> bool;
    pub fn tftp_close_server(server: *mut tftp_server);
    pub fn tftp_decode(datagram: *const u8, datagram_len: usize, packet: *mut tftp_packet) -> u8;
    pub fn tftp_option(
        datagram: *const u8,
        datagram_len: usize,
        index: usize,
        text: *mut u8,
        text_len: usize,
    ) -> usize;
    pub fn tftp_find_option(
        datagram: *const u8,
        datagram_len: usize,
        name: *const u8,
        name_len: usize,
        text: *mut u8,
        text_len: usize,
    ) -> usize;
    pub fn tftp_stated_length(datagram: *const u8, datagram_len: usize, length: *mut u64) -> bool;
    pub fn tftp_request(
        opcode: u16,
        mode: u8,
        name: *const u8,
        name_len: usize,
        datagram: *mut u8,
        datagram_len: usize,
    ) -> usize;
    pub fn tftp_add_option(
        used: usize,
        name: *const u8,
        name_len: usize,
        value: *const u8,
        value_len: usize,
        datagram: *mut u8,
        datagram_len: usize,
    ) -> usize;
    pub fn tftp_wire_length(text: *const u8, text_len: usize) -> u64;
    pub fn tftp_to_wire(text: *const u8, text_len: usize, wire: *mut u8, wire_len: usize) -> usize;
    pub fn tftp_error(
        code: u16,
        text: *const u8,
        text_len: usize,
        datagram: *mut u8,
        datagram_len: usize,
    ) -> usize;
}
