//! The yardstick and the client of `bench/serve`, on the standard library alone. It isn't proved.
//!
//! `plain PORT TAKE` and `mutex PORT TAKE` serve so many connections on a port of the loopback, a thread each, and end. They take what
//! the exchange needs of svcctl and nothing else: a bind, the open of the manager, creations, opens of services, queries of their status and
//! closes. The table of services lies behind a lock for many readers, or behind a `Mutex`. Nothing is checked but lengths, and nothing is kept of what was asked.
//!
//! `ask PORT CONNECTIONS SERVICES QUERIES` makes so many services, over a connection that it then ends, and has each of so many connections make so many
//! queries of the services in turn, each behind the reply to the one before. It prints the seconds from the first query to the last reply.
//!
//! `tree PATH COUNT` starts a program so many times, each once the one before has reported RUNNING, and prints the seconds until the last has.

use std::collections::HashMap;
use std::io::{BufRead, BufReader, Read, Result, Write};
use std::net::{TcpListener, TcpStream};
use std::process::{Child, Command, Stdio};
use std::sync::{Barrier, Mutex, RwLock};
use std::time::Instant;

const BIND: [u8; 72] = [
    5, 0, 11, 3, 16, 0, 0, 0, 72, 0, 0, 0, 1, 0, 0, 0, 0xd0, 0x16, 0xd0, 0x16, 0, 0, 0, 0, 1, 0, 0, 0, 0, 0, 1, 0, //
    0x81, 0xbb, 0x7a, 0x36, 0x44, 0x98, 0xf1, 0x35, 0xad, 0x32, 0x98, 0xf0, 0x38, 0, 0x10, 3, 2, 0, 0, 0, //
    4, 0x5d, 0x88, 0x8a, 0xeb, 0x1c, 0xc9, 0x11, 0x9f, 0xe8, 8, 0, 0x2b, 0x10, 0x48, 0x60, 2, 0, 0, 0,
];

/// What stands behind the header of the answer to that bind.
const BOUND: [u8; 40] = [
    0xd0, 0x16, 0xd0, 0x16, 1, 0, 0, 0, 1, 0, 0, 0, 1, 0, 0, 0, 0, 0, 0, 0, //
    4, 0x5d, 0x88, 0x8a, 0xeb, 0x1c, 0xc9, 0x11, 0x9f, 0xe8, 8, 0, 0x2b, 0x10, 0x48, 0x60, 2, 0, 0, 0,
];

const CLOSE: u16 = 0;
const QUERY_STATUS: u16 = 6;
const CREATE: u16 = 12;
const OPEN_MANAGER: u16 = 15;
const OPEN_SERVICE: u16 = 16;

/// The status of a service that never started, and the code 0.
const NEVER_STARTED: [u32; 8] = [16, 1, 0, 1077, 0, 0, 0, 0];

const REQUEST: u8 = 0;
const RESPONSE: u8 = 2;
const BIND_ACK: u8 = 12;

fn word(bytes: &[u8], at: usize) -> u32 {
    u32::from_le_bytes(bytes[at..at + 4].try_into().unwrap())
}

fn put(bytes: &mut Vec<u8>, words: &[u32]) {
    words.iter().for_each(|it| bytes.extend_from_slice(&it.to_le_bytes()));
}

fn handle(number: u32) -> [u32; 5] {
    [0, number, 0, 0, 0]
}

/// A PDU in one fragment.
fn pdu(kind: u8, call: u32, rest: &[u8]) -> Vec<u8> {
    let mut bytes = vec![5, 0, kind, 3, 16, 0, 0, 0];
    put(&mut bytes, &[16 + rest.len() as u32, call]);
    bytes.extend_from_slice(rest);
    bytes
}

/// The units of a text that stands at this place of a body, as bytes.
fn text_at(body: &[u8], at: usize) -> &[u8] {
    &body[at + 12..at + 12 + 2 * word(body, at + 8) as usize]
}

/// Bytes of a peer, PDU by PDU.
struct Stream {
    peer: TcpStream,
    bytes: Vec<u8>,
    /// What the last one took.
    used: usize,
}

impl Stream {
    fn new(peer: TcpStream) -> Result<Stream> {
        peer.set_nodelay(true)?;
        Ok(Stream { peer, bytes: Vec::new(), used: 0 })
    }

    /// The next PDU, or none at the end.
    fn next(&mut self) -> Result<Option<&[u8]>> {
        self.bytes.drain(..self.used);
        self.used = 0;
        let mut room = [0; 4096];
        loop {
            if self.bytes.len() >= 16 {
                let length = usize::from(u16::from_le_bytes([self.bytes[8], self.bytes[9]]));
                if self.bytes.len() >= length {
                    self.used = length;
                    return Ok(Some(&self.bytes[..length]));
                }
            }
            match self.peer.read(&mut room)? {
                0 => return Ok(None),
                count => self.bytes.extend_from_slice(&room[..count]),
            }
        }
    }
}

#[derive(Default)]
struct Table {
    numbers: HashMap<Vec<u8>, usize>,
    statuses: Vec<[u32; 8]>,
}

impl Table {
    fn create(&mut self, name: &[u8]) -> usize {
        let number = self.statuses.len();
        self.numbers.insert(name.to_vec(), number);
        self.statuses.push(NEVER_STARTED);
        number
    }
}

/// The table behind a lock.
enum Shared {
    Plain(RwLock<Table>),
    Locked(Mutex<Table>),
}

impl Shared {
    fn read<T>(&self, look: impl FnOnce(&Table) -> T) -> T {
        match self {
            Shared::Plain(table) => look(&table.read().unwrap()),
            Shared::Locked(table) => look(&table.lock().unwrap()),
        }
    }

    fn write<T>(&self, change: impl FnOnce(&mut Table) -> T) -> T {
        match self {
            Shared::Plain(table) => change(&mut table.write().unwrap()),
            Shared::Locked(table) => change(&mut table.lock().unwrap()),
        }
    }
}

/// The body of the reply to a request. `held` has the service of each handle that was given, or none for the manager's.
fn reply(shared: &Shared, held: &mut Vec<Option<usize>>, opnum: u16, body: &[u8]) -> Vec<u8> {
    let mut bytes = Vec::with_capacity(32);
    let mut give = |service| {
        held.push(service);
        handle(held.len() as u32)
    };
    match opnum {
        QUERY_STATUS => {
            let service = held[word(body, 4) as usize - 1].unwrap();
            put(&mut bytes, &shared.read(|table| table.statuses[service]));
        }
        OPEN_MANAGER => put(&mut bytes, &[&give(None)[..], &[0]].concat()),
        OPEN_SERVICE => {
            let service = shared.read(|table| table.numbers[text_at(body, 20)]);
            put(&mut bytes, &[&give(Some(service))[..], &[0]].concat());
        }
        CREATE => {
            let service = shared.write(|table| table.create(text_at(body, 20)));
            put(&mut bytes, &[&[0], &give(Some(service))[..], &[0]].concat());
        }
        CLOSE => put(&mut bytes, &[0; 6]),
        _ => panic!("opnum {opnum}"),
    }
    bytes
}

fn serve(shared: &Shared, peer: TcpStream) -> Result<()> {
    let mut output = peer.try_clone()?;
    let mut input = Stream::new(peer)?;
    let mut held = Vec::new();
    while let Some(asked) = input.next()? {
        let call = word(asked, 12);
        if asked[2] == REQUEST {
            let body = reply(shared, &mut held, u16::from_le_bytes([asked[22], asked[23]]), &asked[24..]);
            let mut rest = Vec::with_capacity(8 + body.len());
            put(&mut rest, &[body.len() as u32, 0]);
            rest.extend_from_slice(&body);
            output.write_all(&pdu(RESPONSE, call, &rest))?;
        } else {
            output.write_all(&pdu(BIND_ACK, call, &BOUND))?;
        }
    }
    Ok(())
}

fn serve_all(shared: Shared, port: u16, take: usize) -> Result<()> {
    let listener = TcpListener::bind(("127.0.0.1", port))?;
    let shared = &shared;
    std::thread::scope(|threads| {
        for peer in listener.incoming().take(take) {
            let peer = peer?;
            threads.spawn(move || serve(shared, peer));
        }
        Ok(())
    })
}

/// A client's connection, with what it counts.
struct Client {
    input: Stream,
    output: TcpStream,
    call: u32,
}

impl Client {
    /// Connects, and opens the manager: its handle has number 1 at this caller.
    fn new(port: u16) -> Result<(Client, u32)> {
        let peer = TcpStream::connect(("127.0.0.1", port))?;
        let output = peer.try_clone()?;
        let mut client = Client { input: Stream::new(peer)?, output, call: 1 };
        client.output.write_all(&BIND)?;
        let bound = client.input.next()?.expect("an answer to the bind");
        assert_eq!(bound[16..], BOUND, "the answer to the bind");
        let mut body = Vec::new();
        put(&mut body, &[0, 0, 0xF003F]);
        let manager = word(client.ask(OPEN_MANAGER, &body)?, 4);
        Ok((client, manager))
    }

    /// The body of the reply.
    fn ask(&mut self, opnum: u16, body: &[u8]) -> Result<&[u8]> {
        self.call += 1;
        let mut rest = Vec::with_capacity(8 + body.len());
        put(&mut rest, &[body.len() as u32, u32::from(opnum) << 16]);
        rest.extend_from_slice(body);
        self.output.write_all(&pdu(REQUEST, self.call, &rest))?;
        let told = self.input.next()?.expect("a reply");
        assert!(told[2] == RESPONSE && word(told, 12) == self.call, "another reply: {told:?}");
        Ok(&told[24..])
    }
}

/// A text with its counts, and padding behind it.
fn put_text(body: &mut Vec<u8>, text: &str) {
    let count = text.len() as u32 + 1;
    put(body, &[count, 0, count]);
    text.bytes().chain([0]).for_each(|it| body.extend_from_slice(&[it, 0]));
    body.resize(body.len().next_multiple_of(4), 0);
}

fn name(number: usize) -> String {
    format!("S{}", number + 1)
}

fn create_all(port: u16, services: usize) -> Result<()> {
    let (mut client, manager) = Client::new(port)?;
    for number in 0..services {
        let mut body = Vec::new();
        put(&mut body, &handle(manager));
        put_text(&mut body, &name(number));
        put(&mut body, &[0, 0xF01FF, 16, 3, 1]);
        put_text(&mut body, "/a");
        put(&mut body, &[0; 7]);
        let told = client.ask(CREATE, &body)?;
        assert_eq!(word(told, 24), 0, "the code of a creation");
    }
    Ok(())
}

/// The bodies of queries of each service.
fn queries(client: &mut Client, manager: u32, services: usize) -> Result<Vec<Vec<u8>>> {
    let mut bodies = Vec::new();
    for number in 0..services {
        let mut body = Vec::new();
        put(&mut body, &handle(manager));
        put_text(&mut body, &name(number));
        put(&mut body, &[4]);
        let told = client.ask(OPEN_SERVICE, &body)?;
        assert_eq!(word(told, 20), 0, "the code of an open");
        bodies.push(told[..20].to_vec());
    }
    Ok(bodies)
}

fn query_all(port: u16, place: usize, services: usize, count: usize, ready: &Barrier) -> Result<(Instant, Instant)> {
    let (mut client, manager) = Client::new(port)?;
    let bodies = queries(&mut client, manager, services)?;
    let mut wanted = Vec::new();
    put(&mut wanted, &NEVER_STARTED);
    ready.wait();
    let began = Instant::now();
    for number in 0..count {
        let told = client.ask(QUERY_STATUS, &bodies[(37 * place + number) % services])?;
        assert_eq!(told, wanted, "the status of a service");
    }
    Ok((began, Instant::now()))
}

fn ask(port: u16, connections: usize, services: usize, count: usize) -> Result<()> {
    create_all(port, services)?;
    let ready = Barrier::new(connections);
    let ready = &ready;
    let times: Vec<_> = std::thread::scope(|threads| {
        let askers: Vec<_> = (0..connections)
            .map(|place| threads.spawn(move || query_all(port, place, services, count, ready)))
            .collect();
        askers.into_iter().map(|it| it.join().unwrap()).collect::<Result<_>>()
    })?;
    let began = times.iter().map(|(began, _)| *began).min().unwrap();
    let ended = times.iter().map(|(_, ended)| *ended).max().unwrap();
    println!("{:.6}", (ended - began).as_secs_f64());
    Ok(())
}

/// Starts a program with the name of a service, and waits until it reports RUNNING.
fn start(path: &str, number: usize) -> Result<Child> {
    let mut child = Command::new(path).arg(format!("S{number}")).stdin(Stdio::piped()).stdout(Stdio::piped()).spawn()?;
    let mut output = BufReader::new(child.stdout.as_mut().expect("a pipe"));
    let mut line = String::new();
    while !line.starts_with("STATUS 16 4 ") {
        line.clear();
        assert!(output.read_line(&mut line)? > 0, "{path} ended before it ran");
    }
    Ok(child)
}

fn tree(path: &str, count: usize) -> Result<()> {
    let began = Instant::now();
    let children: Vec<_> = (1..=count).rev().map(|number| start(path, number)).collect::<Result<_>>()?;
    println!("{:.6}", began.elapsed().as_secs_f64());
    for mut child in children {
        child.kill()?;
        child.wait()?;
    }
    Ok(())
}

fn main() -> Result<()> {
    let words: Vec<String> = std::env::args().skip(1).collect();
    if words[0] == "tree" {
        return tree(&words[1], words[2].parse().expect("a number"));
    }
    let numbers: Vec<usize> = words.iter().skip(1).map(|it| it.parse().expect("a number")).collect();
    match (words[0].as_str(), &numbers[..]) {
        ("plain", [port, take]) => serve_all(Shared::Plain(RwLock::default()), *port as u16, *take),
        ("mutex", [port, take]) => serve_all(Shared::Locked(Mutex::default()), *port as u16, *take),
        ("ask", [port, connections, services, count]) => ask(*port as u16, *connections, *services, *count),
        _ => panic!("plain PORT TAKE, mutex PORT TAKE, ask PORT CONNECTIONS SERVICES QUERIES, or tree PATH COUNT"),
    }
}
