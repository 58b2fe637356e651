//! Gets or puts a file by TFTP: client get|put ADDR:PORT NAME LOCAL [BLKSIZE [netascii]]
use std::fs::{self, File};
use std::io::{ErrorKind, Write};
use std::net::{SocketAddr, UdpSocket};
use std::time::{Duration, Instant};
use tftp::{Client, Event, Mode, Options, to_wire};

fn send(port: &UdpSocket, client: &Client, event: &Event) {
    if let Some(to) = event.to {
        let _lost = port.send_to(client.datagram(event), to);
    }
}

fn main() -> Result<(), Box<dyn std::error::Error>> {
    let words: Vec<String> = std::env::args().collect();
    let [_, verb, server, name, local, more @ ..] = &words[..] else {
        return Err("client get|put ADDR:PORT NAME LOCAL [BLKSIZE [netascii]]".into());
    };
    let puts = verb == "put";
    let blksize: u16 = more.first().map_or(Ok(0), |word| word.parse())?;
    let options = Options {
        blksize: (blksize > 0).then_some(blksize),
        asks_tsize: true,
        backoff: true,
        mode: if more.len() > 1 { Mode::Netascii } else { Mode::Octet },
        ..Options::default()
    };
    let port = UdpSocket::bind("0.0.0.0:0")?;
    let (server, mut file) = (server.parse()?, if puts { fs::read(local)? } else { Vec::new() });
    if options.mode == Mode::Netascii {
        file = to_wire(&file);
    }
    let (mut client, mut event) = if puts {
        Client::put(server, name.as_bytes(), file.len() as u64, &options)?
    } else {
        Client::get(server, name.as_bytes(), &options)?
    };
    let mut stored = if puts { None } else { Some(File::create(local)?) };
    let (mut datagram, mut block) = (vec![0; 65_536], vec![0; 65_464]);
    let mut due = Instant::now() + event.interval;
    let mut total = 0;
    send(&port, &client, &event);
    while event.outcome.is_none() {
        let left = due.saturating_duration_since(Instant::now()).max(Duration::from_millis(1));
        port.set_read_timeout(Some(left))?;
        let mut waited = false;
        event = match port.recv_from(&mut datagram) {
            Ok((len, SocketAddr::V4(from))) if puts => {
                client.on_ack(from, &datagram[..len], &file[total..])?
            }
            Ok((len, SocketAddr::V4(from))) => {
                client.on_data(from, &datagram[..len], &mut block)?
            }
            Err(error) if matches!(error.kind(), ErrorKind::WouldBlock | ErrorKind::TimedOut) => {
                waited = true;
                client.on_timeout()?
            }
            _ => continue,
        };
        if let Some(local) = &mut stored
            && let Err(error) = local.write_all(&block[..event.file_len])
        {
            event = client.abort(3, "file not stored")?;
            send(&port, &client, &event);
            return Err(error.into());
        }
        total += event.file_len;
        send(&port, &client, &event);
        if waited || event.progress {
            due = Instant::now() + event.interval;
        }
    }
    if let Some(outcome) = event.outcome {
        println!("{outcome}, {total} bytes");
    }
    if event.complete { Ok(()) } else { Err("the file is not complete".into()) }
}
