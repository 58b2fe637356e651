//! A client and a server of this crate, over datagrams in memory.
use std::net::{Ipv4Addr, SocketAddrV4};
use std::time::Duration;
use tftp::{
    Client, Event, Fault, Info, MalformedKind, Mode, Options, Outcome, Packet, Question, Server,
    to_wire,
};

const CLIENT: SocketAddrV4 = SocketAddrV4::new(Ipv4Addr::LOCALHOST, 1024);
const SERVER: SocketAddrV4 = SocketAddrV4::new(Ipv4Addr::LOCALHOST, 69);

/// A get of what the server sends, in blocks of at most 512 bytes.
fn gets(file: &[u8], options: &Options) -> Result<(Vec<u8>, Event), Fault> {
    let mut server = Server::open(&Options::default(), 1)?;
    let (mut client, event) = Client::get(SERVER, b"boot/a", options)?;
    let request = client.datagram(&event).to_vec();
    let mode = options.mode;
    assert_eq!(server.on_request(CLIENT, &request)?, Question::Open { path: "boot/a", mode });
    let wire = if mode == Mode::Netascii { to_wire(file) } else { file.to_vec() };
    let mut event = server.get(7, CLIENT, &request, wire.len() as u64, &wire)?;
    let (mut sent, mut got, mut block) = (event.file_len, Vec::new(), [0; 512]);
    while event.outcome.is_none() {
        let data = server.datagram(&event).to_vec();
        let step = client.on_data(SERVER, &data, &mut block)?;
        got.extend_from_slice(&block[..step.file_len]);
        let ack = client.datagram(&step).to_vec();
        event = server.on_ack(7, CLIENT, &ack, &wire[sent..])?;
        sent += event.file_len;
    }
    assert!(server.give_up(7) && !server.give_up(7));
    Ok((got, event))
}

#[test]
fn gets_what_the_server_has() -> Result<(), Fault> {
    let (got, event) = gets(&[7; 700], &Options::default())?;
    assert_eq!((got, event.complete, event.outcome), (vec![7; 700], true, Some(Outcome::Complete)));
    let (got, _) = gets(&[7; 700], &Options { blksize: Some(100), ..Options::default() })?;
    assert_eq!(got, [7; 700]);
    Ok(())
}

#[test]
fn gets_a_text() -> Result<(), Fault> {
    let text = b"one\ntwo\rthree\r\n".repeat(100);
    let (got, _) = gets(&text, &Options { mode: Mode::Netascii, ..Options::default() })?;
    assert_eq!(got, text);
    Ok(())
}

#[test]
fn tells_what_was_agreed() -> Result<(), Fault> {
    let options = Options { timeout: Some(3), asks_tsize: true, ..Options::default() };
    let (mut client, event) = Client::get(SERVER, b"a", &options)?;
    assert_eq!(client.info()?, Info { length: None, timeout: None, block_size: 512 });
    let request = client.datagram(&event).to_vec();
    let event = client.on_data(SERVER, b"\0\x06tsize\x000\0timeout\x003\0", &mut [0; 512])?;
    let agreed = Info { length: Some(0), timeout: Some(3), block_size: 512 };
    assert_eq!((client.info()?, event.interval), (agreed, Duration::from_secs(3)));
    // a server that agrees to no timeout above two seconds answers the other option alone
    let mut server = Server::open(&Options { max_timeout: Some(2), ..Options::default() }, 1)?;
    server.get(7, CLIENT, &request, 9, b"123456789")?;
    assert_eq!(server.info(7)?, Info { length: Some(9), timeout: None, block_size: 512 });
    assert_eq!(server.info(8).err(), Some(Fault::NoTransfer));
    Ok(())
}

#[test]
fn puts_a_file() -> Result<(), Fault> {
    let mut server = Server::open(&Options::default(), 1)?;
    let (mut client, event) = Client::put(SERVER, b"a", 3, &Options::default())?;
    let request = client.datagram(&event).to_vec();
    let asked = Question::Begin { path: "a", mode: Mode::Octet };
    assert_eq!(server.on_request(CLIENT, &request)?, asked);
    let event = server.put(7, CLIENT, &request)?;
    let ack = server.datagram(&event).to_vec();
    let event = client.on_ack(SERVER, &ack, b"abc")?;
    let data = client.datagram(&event).to_vec();
    let mut block = [0; 512];
    let event = server.on_data(7, CLIENT, &data, &mut block)?;
    assert_eq!((&block[..event.file_len], event.complete), (&b"abc"[..], true));
    // its file cannot be stored: the client is told in place of the ACK
    let event = server.abort(7, 3, "disk full")?;
    let error = server.datagram(&event).to_vec();
    assert_eq!(Packet::decode(&error), Ok(Packet::Error { code: 3, text: b"disk full" }));
    let event = client.on_ack(SERVER, &error, b"")?;
    assert_eq!((event.outcome, event.complete), (Some(Outcome::PeerError(3)), false));
    Ok(())
}

#[test]
fn refuses() -> Result<(), Fault> {
    let mut server = Server::open(&Options::default(), 1)?;
    let error = Question::Refuse(b"\0\x05\0\x02access violation\0");
    assert_eq!(server.on_request(CLIENT, b"\0\x01../a\0octet\0")?, error);
    let nobody = SocketAddrV4::new(Ipv4Addr::LOCALHOST, 0);
    assert_eq!(server.on_request(nobody, b"\0\x01a\0octet\0")?, Question::None);
    let small = Options { blksize: Some(7), ..Options::default() };
    assert_eq!(Server::open(&small, 1).err(), Some(Fault::BadRequest));
    let fault = Client::get(SERVER, b"", &Options::default()).err();
    assert_eq!(fault.map(|fault| fault.to_string()), Some("the request is not allowed".into()));
    let mut few = Server::open(&Options { max_file: 9, ..Options::default() }, 1)?;
    let fault = few.put(7, CLIENT, b"\0\x02a\0octet\0tsize\x0010\0").err();
    assert_eq!((fault, Fault::OverLimit.error_code()), (Some(Fault::OverLimit), 3));
    Ok(())
}

#[test]
fn waits_and_gives_up() -> Result<(), Fault> {
    let patient = Options { retries: 2, backoff: true, ..Options::default() };
    let (mut client, event) = Client::get(SERVER, b"a", &patient)?;
    let request = client.datagram(&event).to_vec();
    assert_eq!(event.interval, Duration::from_secs(1));
    for wait in [2, 4] {
        let event = client.on_timeout()?;
        assert_eq!(
            (client.datagram(&event), event.interval),
            (&request[..], Duration::from_secs(wait))
        );
    }
    assert_eq!(client.on_timeout()?.outcome, Some(Outcome::TimedOut));
    assert_eq!(client.on_timeout().err(), Some(Fault::Closed));
    Ok(())
}

#[test]
fn decodes() {
    let Ok(Packet::Read { name, mode, options }) =
        Packet::decode(b"\0\x01boot\0netascii\0blksize\x001428\0TSize\x000\0")
    else {
        panic!("a read");
    };
    assert_eq!((name, mode), (&b"boot"[..], Mode::Netascii));
    let listed: Vec<_> = options.collect();
    assert_eq!(listed, [(&b"blksize"[..], &b"1428"[..]), (b"TSize", b"0")]);
    assert_eq!(Packet::decode(b"\0\x04\0\x07"), Ok(Packet::Ack { block: 7 }));
    assert_eq!(Packet::decode(b"\0\x03\0\x01ab"), Ok(Packet::Data { block: 1, bytes: b"ab" }));
    let fault = Packet::decode(b"\0\x09").unwrap_err();
    assert_eq!((fault.kind, fault.at), (MalformedKind::Opcode, 0));
    assert_eq!(fault.to_string(), "the opcode is unknown (at byte 0)");
}
