// A plain, unproved Rust program that does `netpump race SEED COUNT TIMES`: what a user would write instead. For timing
// only.
//   rustc -O race.rs -o race; ./race 3 100000 50,700,20
// Two threads pass messages through a bounded queue, which is written as crossbeam's ArrayQueue is, since no crate can
// be fetched here. Two atomic words take the place of the cells. The disks are in memory and get the same bytes in the
// same order, and the record is printed through a buffer of 8,192 bytes.
use std::cell::UnsafeCell;
use std::collections::VecDeque;
use std::fs::File;
use std::io::{self, BufWriter, Write};
use std::mem::MaybeUninit;
use std::os::fd::AsFd;
use std::sync::atomic::{fence, AtomicU64, AtomicUsize, Ordering::*};
use std::{env, hint, process, thread};

const CAPACITY: u64 = 8;
const MESSAGE: usize = 64;
const WINDOW: usize = 4;
const START: u64 = 20_000;
const LONGEST: u64 = 100_000;
const RESEND: u64 = 500_000;
const STEP: u64 = 1000;
const NAMES: &[u8] = b"weather:watch";

// ---- the passage ----

#[derive(Clone, Copy)]
struct Message { number: u64, length: usize, bytes: [u8; MESSAGE] }
impl Message {
    fn payload(&self) -> &[u8] { &self.bytes[..self.length] }
    fn record(&self) -> ([u8; 2 + MESSAGE], usize) {
        let mut record = [0; 2 + MESSAGE];
        record[..2].copy_from_slice(&(self.length as u16).to_be_bytes());
        record[2..2 + self.length].copy_from_slice(self.payload());
        (record, 2 + self.length)
    }
}

#[repr(align(128))]
struct Padded<T>(T);
struct Slot { stamp: AtomicUsize, value: UnsafeCell<MaybeUninit<Message>> }
// A stamp is the place of the next push into the slot, or one above that of the last one.
struct Queue { head: Padded<AtomicUsize>, tail: Padded<AtomicUsize>, slots: Box<[Slot]>, lap: usize }
unsafe impl Sync for Queue {}
impl Queue {
    fn new(places: usize) -> Queue {
        let slots = (0..places).map(|i| Slot { stamp: AtomicUsize::new(i), value: UnsafeCell::new(MaybeUninit::uninit()) });
        Queue { head: Padded(AtomicUsize::new(0)), tail: Padded(AtomicUsize::new(0)), slots: slots.collect(), lap: (places + 1).next_power_of_two() }
    }
    fn after(&self, place: usize) -> usize {
        let index = place & (self.lap - 1);
        if index + 1 < self.slots.len() { place + 1 } else { (place - index).wrapping_add(self.lap) }
    }
    fn push(&self, value: &Message) -> bool {
        let mut tail = self.tail.0.load(Relaxed);
        loop {
            let slot = &self.slots[tail & (self.lap - 1)];
            let stamp = slot.stamp.load(Acquire);
            if tail == stamp {
                match self.tail.0.compare_exchange_weak(tail, self.after(tail), SeqCst, Relaxed) {
                    Ok(_) => {
                        unsafe { slot.value.get().write(MaybeUninit::new(*value)) };
                        slot.stamp.store(tail + 1, Release);
                        return true;
                    }
                    Err(now) => { tail = now; hint::spin_loop() }
                }
            } else if stamp.wrapping_add(self.lap) == tail + 1 {
                fence(SeqCst);
                if self.head.0.load(Relaxed).wrapping_add(self.lap) == tail { return false }
                hint::spin_loop();
                tail = self.tail.0.load(Relaxed);
            } else {
                hint::spin_loop();
                tail = self.tail.0.load(Relaxed);
            }
        }
    }
    fn pop(&self) -> Option<Message> {
        let mut head = self.head.0.load(Relaxed);
        loop {
            let slot = &self.slots[head & (self.lap - 1)];
            let stamp = slot.stamp.load(Acquire);
            if head + 1 == stamp {
                match self.head.0.compare_exchange_weak(head, self.after(head), SeqCst, Relaxed) {
                    Ok(_) => {
                        let value = unsafe { slot.value.get().read().assume_init() };
                        slot.stamp.store(head.wrapping_add(self.lap), Release);
                        return Some(value);
                    }
                    Err(now) => { head = now; hint::spin_loop() }
                }
            } else if stamp == head {
                fence(SeqCst);
                if self.tail.0.load(Relaxed) == head { return None }
                hint::spin_loop();
                head = self.head.0.load(Relaxed);
            } else {
                hint::spin_loop();
                head = self.head.0.load(Relaxed);
            }
        }
    }
}
// Low's word is the number forwarded; high's is the number of its times, and their average below it.
struct Passage { queue: Queue, low: Padded<AtomicU64>, high: Padded<AtomicU64> }

// ---- disks in memory ----

struct Register { disk: Vec<u8>, parity: u8 }
impl Register {
    fn new(role: u8, size: usize, room: usize, second: u64) -> Register {
        let mut register = Register { disk: Vec::with_capacity(room), parity: 0 };
        let mut header = [0; 80];
        header[..6].copy_from_slice(&[b'N', b'P', b'D', b'1', role, 1]);
        header[8..12].copy_from_slice(&1u32.to_be_bytes());
        header[12..16].copy_from_slice(&(CAPACITY as u32).to_be_bytes());
        header[16..20].copy_from_slice(&(MESSAGE as u32).to_be_bytes());
        header[56..64].copy_from_slice(&second.to_be_bytes());
        register.write(0, &header);
        register.disk.resize(size, 0);
        register
    }
    fn write(&mut self, at: usize, bytes: &[u8]) {
        let end = at + bytes.len();
        if self.disk.len() < end { self.disk.resize(end, 0) }
        self.disk[at..end].copy_from_slice(bytes);
    }
    fn update(&mut self, first: u64, second: u64) {
        let parity = 1 - self.parity;
        let mut cell = [0; 16];
        cell[..8].copy_from_slice(&first.to_be_bytes());
        cell[8..].copy_from_slice(&second.to_be_bytes());
        self.write(48 + 16 * parity as usize, &cell);
        self.write(32, &[parity]);
        self.parity = parity;
    }
}

// ---- the low worker ----

fn draw(x: &mut u32) -> u32 { *x = x.wrapping_mul(1_664_525).wrapping_add(1_013_904_223); *x }
fn next_message(draws: &mut u32, number: u64) -> Message {
    draw(draws);
    let length = (draw(draws) >> 24) as usize % 65;
    if number % 7 == 6 { for _ in 0..7 { draw(draws); } }
    let mut bytes = [0; MESSAGE];
    for (i, byte) in bytes[..length].iter_mut().enumerate() { *byte = (number + i as u64) as u8 }
    Message { number, length, bytes }
}

enum Phase { Idle, Passing, Waiting(u64, u64) }
enum Arrival { Nothing, Hello, Data(Message) }
enum Feedback { Quiet, Full, Passed(u64, u64) }
enum Reply { None, Welcome(u64), Ack(u64) }
struct Low<'a> { passage: &'a Passage, table: [u64; 256], disk: Register, phase: Phase, hand: Message, next: u64, greeted: bool }
impl Low<'_> {
    fn look(&mut self, moment: u64, word: u32, arrival: &Arrival) -> (bool, Feedback, Reply) {
        match self.phase {
            Phase::Waiting(number, due) => {
                if moment < due { return (false, Feedback::Quiet, Reply::None) }
                self.phase = Phase::Idle;
                (false, Feedback::Quiet, Reply::Ack(number))
            }
            Phase::Passing => {
                if !self.passage.queue.push(&self.hand) { return (false, Feedback::Full, Reply::None) }
                self.passage.low.0.store(self.hand.number + 1, SeqCst);
                let told = self.passage.high.0.load(SeqCst);
                let (count, average) = (told >> 32, told & 0xffff_ffff);
                let delay = (average * self.table[(word >> 24) as usize] >> 24).min(LONGEST);
                self.phase = Phase::Waiting(self.hand.number, moment + delay);
                (false, Feedback::Passed(count, average), Reply::None)
            }
            Phase::Idle => match arrival {
                Arrival::Nothing => (false, Feedback::Quiet, Reply::None),
                Arrival::Hello => { self.greeted = true; (true, Feedback::Quiet, Reply::Welcome(self.next)) }
                Arrival::Data(message) => {
                    let (record, size) = message.record();
                    self.disk.write(80 + (message.number % CAPACITY) as usize * (2 + MESSAGE), &record[..size]);
                    self.next += 1;
                    self.disk.update(self.next, 0);
                    self.hand = *message;
                    self.phase = Phase::Passing;
                    (true, Feedback::Quiet, Reply::None)
                }
            },
        }
    }
}

fn put_hex(line: &mut Vec<u8>, bytes: &[u8]) {
    for byte in bytes { line.extend_from_slice(&[b"0123456789abcdef"[(byte >> 4) as usize], b"0123456789abcdef"[(byte & 15) as usize]]) }
}
fn put_frame(line: &mut Vec<u8>, kind: u8, number: u64, payload: &[u8]) {
    put_hex(line, &[b'N', b'P', 1, kind, 0, 0, 0, 1]);
    put_hex(line, &number.to_be_bytes());
    put_hex(line, &(payload.len() as u16).to_be_bytes());
    put_hex(line, payload);
}
fn run_low(low: &mut Low, seed: u32, count: u64, out: &mut impl Write) -> io::Result<()> {
    let (mut words, mut draws, mut moment, mut was_full) = (seed, seed, 0, false);
    let mut line = Vec::with_capacity(512);
    loop {
        let is_idle = matches!(low.phase, Phase::Idle);
        if is_idle && low.greeted && low.next == count { return Ok(()) }
        let arrival = if !is_idle { Arrival::Nothing } else if !low.greeted { Arrival::Hello } else { Arrival::Data(next_message(&mut draws, low.next)) };
        let word = draw(&mut words);
        let (taken, feedback, reply) = low.look(moment, word, &arrival);
        let is_full = matches!(feedback, Feedback::Full);
        if taken || !matches!(reply, Reply::None) || matches!(feedback, Feedback::Passed(..)) || is_full && !was_full {
            line.clear();
            write!(line, "told 1 {moment} ")?;
            put_hex(&mut line, &word.to_be_bytes());
            match feedback {
                Feedback::Quiet => line.extend_from_slice(b" fine -"),
                Feedback::Full => line.extend_from_slice(b" fine full"),
                Feedback::Passed(count, average) => write!(line, " fine {count}/{average}")?,
            }
            match &arrival {
                Arrival::Nothing => {}
                Arrival::Hello => { line.extend_from_slice(b" raw "); put_frame(&mut line, 1, 0, NAMES) }
                Arrival::Data(message) => { line.extend_from_slice(b" raw "); put_frame(&mut line, 3, message.number, message.payload()) }
            }
            match reply {
                Reply::None => line.push(b'\n'),
                Reply::Welcome(next) => write!(line, "\n# low 1 {moment} welcome {next}\n")?,
                Reply::Ack(number) => write!(line, "\n# low 1 {moment} ack {number}\n")?,
            }
            out.write_all(&line)?;
        }
        if is_full { thread::yield_now() }
        was_full = is_full;
        moment += STEP;
    }
}

// ---- the high worker ----

struct High<'a> {
    passage: &'a Passage, disk: Register, receiver: Register, hand: Option<Message>, forwarded: u64, removed: u64,
    first: Option<u64>, last: u64, times: VecDeque<u64>, sum: u64, published: u64, received: u64, end: u64,
}
impl High<'_> {
    fn look(&mut self, moment: u64, taken: Option<u64>) {
        if let (Some(number), Some(_)) = (taken, &self.hand) {
            if number == self.removed {
                self.removed += 1;
                self.disk.update(self.removed, 0);
                self.hand = None;
                if let Some(first) = self.first.take() { self.publish((moment - first).min(1_000_000_000)) }
            }
        }
        if self.hand.is_none() && self.passage.low.0.load(SeqCst) > self.forwarded {
            self.hand = self.passage.queue.pop();
            self.forwarded += 1;
        }
        if self.hand.is_some() && (self.first.is_none() || moment >= self.last + RESEND) {
            self.first = self.first.or(Some(moment));
            self.last = moment;
        }
    }
    fn publish(&mut self, time: u64) {
        self.times.push_back(time);
        self.sum += time;
        if self.times.len() > WINDOW { self.sum -= self.times.pop_front().unwrap() }
        self.published += 1;
        self.passage.high.0.store(self.published << 32 | self.sum / self.times.len() as u64, SeqCst);
    }
    // Whether the receiver took the message in the hand.
    fn receive(&mut self) -> bool {
        let Some(message) = &self.hand else { return false };
        if message.number != self.received { return false }
        let (record, size) = message.record();
        self.receiver.write(self.end as usize, &record[..size]);
        self.end += size as u64;
        self.received += 1;
        self.receiver.update(self.received, self.end);
        true
    }
}
fn run_high(high: &mut High, count: u64, times: &[u64]) {
    let mut moment = 0;
    while high.removed < count {
        high.look(moment, None);
        if high.receive() {
            moment += times[(high.removed % times.len() as u64) as usize];
            high.look(moment, Some(high.removed));
        } else {
            thread::yield_now();
        }
    }
}

fn words() -> Option<(u32, u64, Vec<u64>)> {
    let words: Vec<String> = env::args().skip(1).collect();
    let [seed, count, times] = &words[..] else { return None };
    Some((seed.parse().ok()?, count.parse().ok()?, times.split(',').map(|t| t.parse().ok()).collect::<Option<_>>()?))
}
fn main() -> io::Result<()> {
    let Some((seed, count, times)) = words() else {
        eprintln!("race SEED COUNT TIMES");
        process::exit(2);
    };
    let mut table = [0; 256];
    let mut sum = 0;
    for (j, quantile) in table.iter_mut().enumerate() { sum += (1 << 24) / (256 - j as u64); *quantile = sum }
    let passage = Passage { queue: Queue::new(CAPACITY as usize - 2), low: Padded(AtomicU64::new(0)), high: Padded(AtomicU64::new(START)) };
    let low_size = 80 + CAPACITY as usize * (2 + MESSAGE);
    let nothing = Message { number: 0, length: 0, bytes: [0; MESSAGE] };
    let mut low = Low { passage: &passage, table, disk: Register::new(b'L', low_size, low_size, 0), phase: Phase::Idle, hand: nothing, next: 0, greeted: false };
    let mut high = High {
        passage: &passage, disk: Register::new(b'H', 80, 80, 0), receiver: Register::new(b'R', 80, 80 + count as usize * (2 + MESSAGE), 80), hand: None,
        forwarded: 0, removed: 0, first: None, last: 0, times: VecDeque::with_capacity(WINDOW + 1), sum: 0, published: 0, received: 0, end: 80,
    };
    let mut out = BufWriter::with_capacity(8192, File::from(io::stdout().as_fd().try_clone_to_owned()?));
    writeln!(out, "low-session 1 {CAPACITY} {MESSAGE} {WINDOW} {START} {LONGEST} {RESEND} weather watch 0 0")?;
    thread::scope(|scope| {
        scope.spawn(|| run_high(&mut high, count, &times));
        run_low(&mut low, seed, count, &mut out)
    })?;
    for number in 0..count { writeln!(out, "# time {}", times[(number % times.len() as u64) as usize])? }
    writeln!(out, "# took {}\n# end {} {}", high.received, low.next, high.removed)?;
    out.flush()
}
