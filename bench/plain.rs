// A plain, unproved Rust program that does `netpump replay` for whole sessions (session, look, done, high, carry
// and return lines): what a user would write instead. For timing only.
//   rustc -O plain.rs -o plain; ./plain < SCRIPT
// Its disks are files in the current folder, written and synced as the program's are; with --mem they are in memory.
use std::collections::{BTreeMap, VecDeque};
use std::fs::{File, OpenOptions};
use std::io::{self, BufRead, BufWriter, Write};
use std::os::unix::fs::FileExt;

enum Disk { Mem(Vec<u8>), Real(File) }
impl Disk {
    fn write(&mut self, at: u64, b: &[u8]) {
        match self {
            Disk::Mem(v) => { let e = at as usize + b.len(); if v.len() < e { v.resize(e, 0) } v[at as usize..e].copy_from_slice(b) }
            Disk::Real(f) => f.write_all_at(b, at).unwrap(),
        }
    }
    fn sync(&mut self) { if let Disk::Real(f) = self { f.sync_data().unwrap() } }
}
struct Reg { d: Disk, sel: u8 }
impl Reg {
    fn update(&mut self, a: u64, b: u64) {
        let c = 1 - self.sel;
        let mut cell = [0u8; 16];
        cell[..8].copy_from_slice(&a.to_be_bytes());
        cell[8..].copy_from_slice(&b.to_be_bytes());
        self.d.write(48 + 16 * c as u64, &cell);
        self.d.sync();
        self.d.write(32, &[c]);
        self.d.sync();
        self.sel = c;
    }
}
#[derive(Clone, Copy)]
enum Phase { Idle, Passing(u64, bool), Waiting(u64, u64) }
enum Arr { Hello(Vec<u8>, Vec<u8>), Data(u64, Vec<u8>) }
struct S {
    cap: u64, message: usize, win: usize, start: u64, longest: u64, resend: u64, lo: Vec<u8>, hi: Vec<u8>,
    low: Reg, high: Reg, recv: Reg, end: u64,
    e: u64, b: u64, r: u64, acc: VecDeque<Vec<u8>>, held: u64, hand: bool,
    first: Option<u64>, last: u64, times: VecDeque<u64>, sum: u64, published: u64,
    greeted: bool, phase: Phase, wait: VecDeque<Arr>, datas: VecDeque<(u64, Vec<u8>)>, takens: VecDeque<u64>,
}
fn table() -> [u64; 256] { let mut t = [0; 256]; let mut s = 0; for j in 0..256u64 { s += (1 << 24) / (256 - j); t[j as usize] = s } t }
impl S {
    fn avg(&self) -> u64 { if self.times.is_empty() { self.start } else { self.sum / self.times.len() as u64 } }
    fn look(&mut self, id: u64, m: u64, w: u64, t: &[u64; 256], out: &mut impl Write) -> io::Result<()> {
        match self.phase {
            Phase::Waiting(n, due) => { if m >= due { self.phase = Phase::Idle; writeln!(out, "low {id} {m} ack {n}")? } }
            Phase::Passing(n, owed) => {
                if self.held == self.cap - 2 { writeln!(out, "full {id} {m}")? }
                else {
                    self.held += 1;
                    if owed {
                        let a = self.avg();
                        self.phase = Phase::Waiting(n, m + self.longest.min(a * t[(w >> 24) as usize] >> 24));
                        writeln!(out, "passed {id} {m} {} {a}", self.published)?
                    } else { self.phase = Phase::Idle; writeln!(out, "released {id} {m}")? }
                }
            }
            Phase::Idle => match self.wait.pop_front() {
                None => {}
                Some(Arr::Hello(l, h)) => {
                    if l == self.lo && h == self.hi { self.greeted = true; writeln!(out, "low {id} {m} welcome {}", self.e)? }
                    else { self.greeted = false; writeln!(out, "low {id} {m} refuse 1 0")? }
                }
                Some(Arr::Data(n, p)) => {
                    if !self.greeted { writeln!(out, "low {id} {m} refuse 2 0")? }
                    else if p.len() > self.message { writeln!(out, "low {id} {m} refuse 3 0")? }
                    else if n > self.e { writeln!(out, "low {id} {m} refuse 4 {}", self.e)? }
                    else if n < self.e {
                        let a = self.avg();
                        self.phase = Phase::Waiting(n, m + self.longest.min(a * t[(w >> 24) as usize] >> 24));
                        writeln!(out, "repeat {id} {m} {} {a}", self.published)?
                    } else {
                        let mut rec = (p.len() as u16).to_be_bytes().to_vec();
                        rec.extend(&p);
                        self.low.d.write(80 + (n % self.cap) * (2 + self.message as u64), &rec);
                        self.low.update(n + 1, 0);
                        self.acc.push_back(p);
                        self.e += 1;
                        self.phase = Phase::Passing(n, true);
                        writeln!(out, "stored {id} {m} {n}")?
                    }
                }
            },
        }
        Ok(())
    }
    fn high(&mut self, id: u64, m: u64, taken: Option<u64>, out: &mut impl Write) -> io::Result<()> {
        if let Some(n) = taken {
            if n >= self.b + self.hand as u64 { return Ok(()) }
            if n == self.b {
                self.b += 1;
                self.high.update(self.b, 0);
                self.hand = false;
                self.acc.pop_front();
                match self.first.take() {
                    Some(f) => {
                        let v = (m - f).min(1_000_000_000);
                        self.times.push_back(v); self.sum += v;
                        if self.times.len() > self.win { self.sum -= self.times.pop_front().unwrap() }
                        self.published += 1;
                        writeln!(out, "removed {id} {m} {n} {v}")?
                    }
                    None => writeln!(out, "removed {id} {m} {n} -")?,
                }
            }
        }
        if !self.hand && self.held > 0 { self.held -= 1; self.hand = true }
        if self.hand && (self.first.is_none() || m >= self.last + self.resend) {
            if self.first.is_none() { self.first = Some(m) }
            self.last = m;
            if self.datas.len() == 64 { self.datas.pop_front(); }
            self.datas.push_back((self.b, self.acc[0].clone()));
            writeln!(out, "sent {id} {m} {}", self.b)?
        }
        Ok(())
    }
    fn carry(&mut self, id: u64, back: usize, out: &mut impl Write) -> io::Result<()> {
        let (n, p) = &self.datas[self.datas.len() - 1 - back];
        if *n < self.r { writeln!(out, "again {id} {n}")? }
        else {
            let mut rec = (p.len() as u16).to_be_bytes().to_vec();
            rec.extend(p);
            self.recv.d.write(self.end, &rec);
            self.end += rec.len() as u64;
            self.r += 1;
            self.recv.update(self.r, self.end);
            writeln!(out, "took {id} {n}")?
        }
        if self.takens.len() == 64 { self.takens.pop_front(); }
        self.takens.push_back(*n);
        Ok(())
    }
}
fn unhex(b: &[u8]) -> Vec<u8> {
    if b == b"-" { return vec![] }
    let v = |c: u8| (c as char).to_digit(16).unwrap() as u8;
    b.chunks(2).map(|x| v(x[0]) * 16 + v(x[1])).collect()
}
fn main() -> io::Result<()> {
    let mem = std::env::args().nth(1).is_some();
    let t = table();
    let mut ss: BTreeMap<u64, S> = BTreeMap::new();
    let stdin = io::stdin();
    let mut inp = stdin.lock();
    let mut out = BufWriter::new(io::stdout().lock());
    let mut line = Vec::new();
    while inp.read_until(b'\n', &mut line)? > 0 {
        line.pop();
        let f: Vec<&[u8]> = line.split(|c| *c == b' ').collect();
        let n = |i: usize| -> u64 { std::str::from_utf8(f[i]).unwrap().parse().unwrap() };
        match f[0] {
            b"session" => {
                let id = n(1);
                let disk = |r: &str, role: u8, size: usize| {
                    let mut d = if mem { Disk::Mem(vec![]) } else { Disk::Real(OpenOptions::new().read(true).write(true).create(true).truncate(true).open(format!("{id}.{r}")).unwrap()) };
                    let mut b = vec![0u8; size];
                    b[..4].copy_from_slice(b"NPD1"); b[4] = role; b[5] = 1;
                    d.write(0, &b); d.sync();
                    Reg { d, sel: 0 }
                };
                let (cap, message) = (n(2), n(3) as usize);
                ss.insert(id, S { cap, message, win: n(4) as usize, start: n(5), longest: n(6), resend: n(7), lo: f[8].to_vec(), hi: f[9].to_vec(),
                    low: disk("low", b'L', 80 + cap as usize * (2 + message)), high: disk("high", b'H', 80), recv: disk("recv", b'R', 80), end: 80,
                    e: 0, b: 0, r: 0, acc: VecDeque::new(), held: 0, hand: false, first: None, last: 0, times: VecDeque::new(), sum: 0, published: 0,
                    greeted: false, phase: Phase::Idle, wait: VecDeque::new(), datas: VecDeque::new(), takens: VecDeque::new() });
            }
            b"look" => {
                let (id, m) = (n(1), n(2));
                let w = u64::from_str_radix(std::str::from_utf8(f[3]).unwrap(), 16).unwrap();
                let s = ss.get_mut(&id).unwrap();
                if f.len() > 4 {
                    let a = if f[4] == b"hello" { Arr::Hello(f[5].to_vec(), f[6].to_vec()) } else { Arr::Data(n(5), unhex(f[6])) };
                    s.wait.push_back(a);
                }
                s.look(id, m, w, &t, &mut out)?
            }
            b"high" => { let id = n(1); let m = n(2); ss.get_mut(&id).unwrap().high(id, m, None, &mut out)? }
            b"carry" => { let id = n(1); let k = n(2) as usize; ss.get_mut(&id).unwrap().carry(id, k, &mut out)? }
            b"return" => { let (id, m, k) = (n(1), n(2), n(3) as usize); let s = ss.get_mut(&id).unwrap(); let x = s.takens[s.takens.len() - 1 - k]; s.high(id, m, Some(x), &mut out)? }
            b"done" => {
                let (id, m, d) = (n(1), n(2), n(3));
                let s = ss.get_mut(&id).unwrap();
                s.high(id, m, None, &mut out)?;
                if s.hand { s.carry(id, 0, &mut out)?; let x = *s.takens.back().unwrap(); s.high(id, m + d, Some(x), &mut out)? }
            }
            b"" => {}
            _ => { if f[0][0] != b'#' { panic!() } }
        }
        line.clear();
    }
    for (id, s) in &ss { writeln!(out, "end {id} {} {} {}", s.e, s.b, s.r)? }
    Ok(())
}
