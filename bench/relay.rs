// A plain, unproved relay, which does what `netpump serve` does for one session: what a user would write instead; and a
// Low and a High that drive either relay. For timing only.
//   rustc --edition=2021 -O relay.rs -o relay
//   ./relay serve LOW_PORT HIGH_PORT & ./relay drive LOW_PORT HIGH_PORT COUNT
// (with `bare` for `serve` it prints no record).
// `serve` makes the files plain.low and plain.high in its folder and serves one connection at each port. It has two
// threads, the low one with Low's port and file, the high one with High's, and a bounded channel and an average
// between. Frames, and the writes and syncs of a message, are those of docs/formats.md; an acknowledgement waits for
// the average's time, at most LONGEST. It prints the record of `netpump serve`, each line as it comes up. It repeats
// nothing and picks nothing up after a restart. `drive` hands in COUNT messages of 64 bytes, each as soon as the one
// before it is acknowledged, and takes them at the other port in a second thread. It prints the seconds from the first
// to the last acknowledgement.
use std::collections::VecDeque;
use std::error::Error;
use std::fs::{File, OpenOptions};
use std::io::{self, BufReader, Read, Write};
use std::net::{Ipv4Addr, TcpListener, TcpStream};
use std::os::unix::fs::FileExt;
use std::sync::atomic::{AtomicU64, Ordering::SeqCst};
use std::sync::mpsc::{sync_channel, Receiver, SyncSender};
use std::time::{Duration, Instant};
use std::{env, process, thread};

const CAPACITY: u64 = 8;
const MESSAGE: usize = 64;
const WINDOW: usize = 4;
const LONGEST: u64 = 0;
const SESSION: u32 = 1;
const NAMES: &[u8] = b"weather:watch";
const HELLO: u8 = 1;
const WELCOME: u8 = 2;
const DATA: u8 = 3;
const ACK: u8 = 4;
const ATTACH: u8 = 6;
const TAKEN: u8 = 7;

// ---- frames ----

struct Message { number: u64, payload: Vec<u8> }

fn frame(kind: u8, number: u64, payload: &[u8]) -> Vec<u8> {
    let mut frame = Vec::with_capacity(18 + payload.len());
    frame.extend_from_slice(b"NP\x01");
    frame.push(kind);
    frame.extend_from_slice(&SESSION.to_be_bytes());
    frame.extend_from_slice(&number.to_be_bytes());
    frame.extend_from_slice(&(payload.len() as u16).to_be_bytes());
    frame.extend_from_slice(payload);
    frame
}

struct Link { reader: BufReader<TcpStream> }
impl Link {
    fn over(stream: TcpStream) -> io::Result<Link> {
        stream.set_nodelay(true)?;
        Ok(Link { reader: BufReader::with_capacity(2048, stream) })
    }
    fn read(&mut self, wanted: u8) -> io::Result<Message> {
        let mut head = [0; 18];
        self.reader.read_exact(&mut head)?;
        if head[..3] != *b"NP\x01" || head[3] != wanted || head[4..8] != SESSION.to_be_bytes() {
            return Err(io::Error::other("another frame is wanted"));
        }
        let mut payload = vec![0; u16::from_be_bytes([head[16], head[17]]) as usize];
        self.reader.read_exact(&mut payload)?;
        Ok(Message { number: u64::from_be_bytes(head[8..16].try_into().unwrap()), payload })
    }
    fn send(&mut self, kind: u8, number: u64, payload: &[u8]) -> io::Result<()> {
        self.reader.get_mut().write_all(&frame(kind, number, payload))
    }
}

// ---- files ----

struct Register { file: File, parity: u8 }
impl Register {
    fn new(name: &str, role: u8, size: u64) -> io::Result<Register> {
        let file = OpenOptions::new().read(true).write(true).create(true).truncate(true).open(name)?;
        file.set_len(size)?;
        let mut header = [0; 80];
        header[..6].copy_from_slice(&[b'N', b'P', b'D', b'1', role, 1]);
        header[8..12].copy_from_slice(&SESSION.to_be_bytes());
        header[12..16].copy_from_slice(&(CAPACITY as u32).to_be_bytes());
        header[16..20].copy_from_slice(&(MESSAGE as u32).to_be_bytes());
        file.write_all_at(&header, 0)?;
        file.sync_data()?;
        Ok(Register { file, parity: 0 })
    }
    fn update(&mut self, first: u64) -> io::Result<()> {
        self.parity ^= 1;
        let mut cell = [0; 16];
        cell[..8].copy_from_slice(&first.to_be_bytes());
        self.file.write_all_at(&cell, 48 + 16 * u64::from(self.parity))?;
        self.file.sync_data()?;
        self.file.write_all_at(&[self.parity], 32)?;
        self.file.sync_data()
    }
    fn store(&mut self, message: &Message) -> io::Result<()> {
        let mut record = Vec::with_capacity(2 + MESSAGE);
        record.extend_from_slice(&(message.payload.len() as u16).to_be_bytes());
        record.extend_from_slice(&message.payload);
        self.file.write_all_at(&record, 80 + message.number % CAPACITY * (2 + MESSAGE as u64))?;
        self.update(message.number + 1)
    }
}

// ---- the record ----

// The lines of what the low side does, where they are wanted.
struct Record { begin: Instant, word: u32, is_wanted: bool, line: Vec<u8> }
impl Record {
    fn new(is_wanted: bool) -> Record { Record { begin: Instant::now(), word: 1, is_wanted, line: Vec::with_capacity(512) } }
    fn hex(&mut self, bytes: &[u8]) {
        for byte in bytes { self.line.extend_from_slice(&[b"0123456789abcdef"[(byte >> 4) as usize], b"0123456789abcdef"[(byte & 15) as usize]]) }
    }
    fn tell(&mut self, told: impl FnOnce(&mut Record, u64) -> io::Result<()>) -> io::Result<()> {
        if !self.is_wanted { return Ok(()) }
        let moment = self.begin.elapsed().as_micros() as u64;
        self.word = self.word.wrapping_mul(1_664_525).wrapping_add(1_013_904_223);
        self.line.clear();
        write!(self.line, "told {SESSION} {moment} {:08x} fine ", self.word)?;
        told(self, moment)?;
        self.line.push(b'\n');
        io::stdout().write_all(&self.line)
    }
}

// ---- the relay ----

fn serve_low(door: &TcpListener, passage: SyncSender<Message>, average: &AtomicU64, mut record: Record) -> Result<(), Box<dyn Error>> {
    let mut file = Register::new("plain.low", b'L', 80 + CAPACITY * (2 + MESSAGE as u64))?;
    let mut link = Link::over(door.accept()?.0)?;
    if link.read(HELLO)?.payload != NAMES { return Err("other names".into()) }
    link.send(WELCOME, 0, &[])?;
    for next in 0.. {
        let message = link.read(DATA)?;
        if message.number != next || message.payload.len() > MESSAGE { return Err("another message is wanted".into()) }
        file.store(&message)?;
        record.tell(|record, _| {
            record.line.extend_from_slice(b"- raw ");
            record.hex(&frame(DATA, message.number, &message.payload));
            Ok(())
        })?;
        passage.send(message)?;
        let average = average.load(SeqCst);
        record.tell(|record, _| write!(record.line, "{next}/{average}"))?;
        if average.min(LONGEST) > 0 { thread::sleep(Duration::from_micros(average.min(LONGEST))) }
        link.send(ACK, next, &[])?;
        record.tell(|record, moment| write!(record.line, "-\n# low {SESSION} {moment} ack {next}"))?;
    }
    Ok(())
}

fn serve_high(door: &TcpListener, passage: Receiver<Message>, average: &AtomicU64) -> Result<(), Box<dyn Error>> {
    let mut file = Register::new("plain.high", b'H', 80)?;
    let (mut times, mut sum) = (VecDeque::with_capacity(WINDOW + 1), 0);
    let mut link = Link::over(door.accept()?.0)?;
    link.read(ATTACH)?;
    for message in passage {
        let begin = Instant::now();
        link.send(DATA, message.number, &message.payload)?;
        if link.read(TAKEN)?.number != message.number { return Err("another TAKEN is wanted".into()) }
        let time = begin.elapsed().as_micros() as u64;
        file.update(message.number + 1)?;
        times.push_back(time);
        sum += time;
        if times.len() > WINDOW { sum -= times.pop_front().unwrap() }
        average.store(sum / times.len() as u64, SeqCst);
    }
    Ok(())
}

fn serve(low_port: u16, high_port: u16, is_recorded: bool) -> Result<(), Box<dyn Error>> {
    let (low_door, high_door) = (TcpListener::bind((Ipv4Addr::LOCALHOST, low_port))?, TcpListener::bind((Ipv4Addr::LOCALHOST, high_port))?);
    let (into, out_of) = sync_channel(CAPACITY as usize - 2);
    let average = AtomicU64::new(0);
    thread::scope(|scope| {
        let low = scope.spawn(|| serve_low(&low_door, into, &average, Record::new(is_recorded)).map_err(|e| e.to_string()));
        let high = scope.spawn(|| serve_high(&high_door, out_of, &average).map_err(|e| e.to_string()));
        eprintln!("low: {:?}, high: {:?}", low.join(), high.join());
    });
    Ok(())
}

// ---- Low and High ----

fn take(port: u16, count: u64) -> io::Result<()> {
    let mut link = Link::over(TcpStream::connect((Ipv4Addr::LOCALHOST, port))?)?;
    link.send(ATTACH, 0, &[])?;
    for next in 0..count {
        let message = link.read(DATA)?;
        if message.number != next || message.payload != payload(next) { return Err(io::Error::other("another message was handed in")) }
        link.send(TAKEN, next, &[])?;
    }
    Ok(())
}

fn payload(number: u64) -> [u8; MESSAGE] { [number as u8; MESSAGE] }

fn hand_in(port: u16, count: u64) -> io::Result<Duration> {
    let mut link = Link::over(TcpStream::connect((Ipv4Addr::LOCALHOST, port))?)?;
    link.send(HELLO, 0, NAMES)?;
    link.read(WELCOME)?;
    let begin = Instant::now();
    for number in 0..count {
        link.send(DATA, number, &payload(number))?;
        if link.read(ACK)?.number != number { return Err(io::Error::other("another ACK is wanted")) }
    }
    Ok(begin.elapsed())
}

fn drive(low_port: u16, high_port: u16, count: u64) -> Result<(), Box<dyn Error>> {
    let taker = thread::spawn(move || take(high_port, count));
    let seconds = hand_in(low_port, count)?.as_secs_f64();
    taker.join().unwrap()?;
    println!("{seconds}");
    Ok(())
}

fn main() -> Result<(), Box<dyn Error>> {
    let words: Vec<String> = env::args().skip(1).collect();
    match words.iter().map(String::as_str).collect::<Vec<_>>()[..] {
        ["serve", low, high] => serve(low.parse()?, high.parse()?, true),
        ["serve", low, high, "bare"] => serve(low.parse()?, high.parse()?, false),
        ["drive", low, high, count] => drive(low.parse()?, high.parse()?, count.parse()?),
        _ => {
            eprintln!("relay serve LOW_PORT HIGH_PORT [bare] | relay drive LOW_PORT HIGH_PORT COUNT");
            process::exit(2);
        }
    }
}
