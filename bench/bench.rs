// Times the proved reader against a reader written in plain Rust for the purpose, and compares their answers.
use std::time::Instant;

#[link(name = "probe", kind = "static")]
unsafe extern "C" {
    fn probe_read(line: *const u8, len: usize) -> u64;
}

#[derive(Clone, Copy)]
pub struct Entry { account: u32, quantity: u32, client: u32 }
pub struct Refusal { number: u8, place: usize }
pub struct Inclusion { minute: u32, participant: u32, trade: u32, side: u64, now: bool, count: usize, entries: [Entry; 16] }
pub enum Request {
    Capture([u32; 10]),
    Cancel([u32; 2]),
    Include(Inclusion),
    Side(u64, [u32; 4]),
    Intermediate([u32; 7]),
    Intermediation(u64, [u32; 3]),
    Close([u32; 2]),
}

fn mix(h: u64, x: u64) -> u64 { h.wrapping_mul(31).wrapping_add(x) }
fn mix_all(h: u64, xs: &[u32]) -> u64 { xs.iter().fold(h, |h, x| mix(h, *x as u64)) }

#[inline(always)]
fn digest(r: Result<Request, Refusal>) -> u64 {
    match r {
        Err(e) => mix(mix(10, e.number as u64), e.place as u64),
        Ok(Request::Capture(c)) => mix_all(1, &c),
        Ok(Request::Cancel(c)) => mix_all(2, &c),
        Ok(Request::Side(h, c)) => mix_all(h, &c),
        Ok(Request::Intermediate(c)) => mix_all(6, &c),
        Ok(Request::Intermediation(h, c)) => mix_all(h, &c),
        Ok(Request::Close(c)) => mix_all(9, &c),
        Ok(Request::Include(c)) => {
            let mut h = mix_all(3, &[c.minute, c.participant, c.trade, c.side as u32, c.now as u32, c.count as u32]);
            for e in c.entries.iter() {
                h = h.wrapping_add(e.account as u64 + 3 * e.quantity as u64 + 7 * e.client as u64);
            }
            h
        }
    }
}

// One pass over the line by an index.
struct Cursor<'a> { line: &'a [u8], at: usize, place: usize }

impl Cursor<'_> {
    #[inline(always)]
    fn open(&mut self) -> Result<(), Refusal> {
        self.place += 1;
        if self.at >= self.line.len() { return Err(Refusal { number: 3, place: self.place }); }
        self.at += 1;
        Ok(())
    }
    #[inline(always)]
    fn bad<T>(&self) -> Result<T, Refusal> { Err(Refusal { number: 2, place: self.place }) }
    #[inline(always)]
    fn number(&mut self, least: u32, most: u32) -> Result<u32, Refusal> {
        self.open()?;
        let from = self.at;
        let mut v: u64 = 0;
        while let Some(&b) = self.line.get(self.at) {
            let d = b.wrapping_sub(b'0');
            if d > 9 { if b == b',' { break; } return self.bad(); }
            v = v * 10 + d as u64;
            if v > most as u64 { return self.bad(); }
            self.at += 1;
        }
        let n = self.at - from;
        if n == 0 || (n > 1 && self.line[from] == b'0') || v < least as u64 { return self.bad(); }
        Ok(v as u32)
    }
    #[inline(always)]
    fn letter(&mut self, of: fn(u8) -> Option<u32>) -> Result<u32, Refusal> {
        self.open()?;
        let Some(&b) = self.line.get(self.at) else { return self.bad() };
        if self.at + 1 < self.line.len() && self.line[self.at + 1] != b',' { return self.bad(); }
        self.at += 1;
        match of(b) { Some(x) => Ok(x), None => self.bad() }
    }
    #[inline(always)]
    fn end<T>(&mut self, v: T) -> Result<T, Refusal> {
        if self.at < self.line.len() { Err(Refusal { number: 3, place: self.place + 1 }) } else { Ok(v) }
    }
    #[inline(always)]
    fn minute(&mut self) -> Result<u32, Refusal> { self.number(0, 1439) }
    #[inline(always)]
    fn id(&mut self) -> Result<u32, Refusal> { self.number(1, 999_999_999) }
    #[inline(always)]
    fn party(&mut self) -> Result<u32, Refusal> { self.number(1, 65535) }
}

fn kind(b: u8) -> Option<u32> { match b { b'S' => Some(1), b'D' => Some(2), b'R' => Some(3), _ => None } }
fn side(b: u8) -> Option<u32> { match b { b'B' => Some(1), b'S' => Some(2), _ => None } }

fn read(line: &[u8]) -> Result<Request, Refusal> {
    let unknown = Refusal { number: 1, place: 1 };
    if line.is_empty() || (line.len() > 1 && line[1] != b',') { return Err(unknown); }
    let mut f = Cursor { line, at: 1, place: 1 };
    match line[0] {
        b'C' => { let c = [f.minute()?, f.id()?, f.letter(kind)?, f.id()?, f.number(1, 100_000_000)?, f.number(1, 99_999)?, f.party()?, f.party()?, f.party()?, f.party()?]; f.end(Request::Capture(c)) }
        b'X' => { let c = [f.minute()?, f.id()?]; f.end(Request::Cancel(c)) }
        b'I' => {
            let (minute, participant, trade, side) = (f.minute()?, f.party()?, f.id()?, f.letter(side)? as u64);
            let now = f.number(0, 1)? == 1;
            let count = f.number(1, 16)? as usize;
            let mut entries = [Entry { account: 0, quantity: 0, client: 0 }; 16];
            for e in entries.iter_mut().take(count) {
                *e = Entry { account: f.number(1, 99_999_999)?, quantity: f.number(1, 100_000_000)?, client: f.number(0, 999_999_999)? };
            }
            f.end(Request::Include(Inclusion { minute, participant, trade, side, now, count, entries }))
        }
        b'D' | b'F' => { let c = [f.minute()?, f.party()?, f.id()?, f.letter(side)?]; f.end(Request::Side(if line[0] == b'D' { 4 } else { 5 }, c)) }
        b'J' => {
            let (minute, participant, id, account, bought) = (f.minute()?, f.party()?, f.id()?, f.number(1, 99_999_999)?, f.number(0, 999_999_999)?);
            let c = [minute, participant, id, account, bought, f.number((bought == 0) as u32, 999_999_999)?, f.number(0, 1)?];
            f.end(Request::Intermediate(c))
        }
        b'G' | b'E' => { let c = [f.minute()?, f.party()?, f.id()?]; f.end(Request::Intermediation(if line[0] == b'G' { 7 } else { 8 }, c)) }
        b'Z' => { let c = [f.minute()?, f.number(1, 99_999)?]; f.end(Request::Close(c)) }
        _ => Err(unknown),
    }
}

#[inline(never)]
fn plain(line: &[u8]) -> u64 { digest(read(line)) }
#[inline(never)]
fn proved(line: &[u8]) -> u64 { unsafe { probe_read(line.as_ptr(), line.len()) } }

struct Rng(u64);
impl Rng {
    fn next(&mut self) -> u64 { self.0 ^= self.0 << 13; self.0 ^= self.0 >> 7; self.0 ^= self.0 << 17; self.0 }
    fn upto(&mut self, n: u64) -> u64 { self.next() % n }
}

fn inclusion(r: &mut Rng, n: u64) -> Vec<u8> {
    let side = if r.upto(2) == 0 { 'B' } else { 'S' };
    let mut s = format!("I,{},{},{},{side},{},{n}", r.upto(1440), 1 + r.upto(65535), 1 + r.upto(999_999_999), r.upto(2));
    for _ in 0..n {
        let client = if r.upto(2) == 0 { 0 } else { r.upto(1_000_000_000) };
        s += &format!(",{},{},{client}", 1 + r.upto(99_999_999), 1 + r.upto(100_000_000));
    }
    s.into_bytes()
}

fn any(r: &mut Rng) -> Vec<u8> {
    let (m, p, t) = (r.upto(1500), r.upto(66000), r.upto(1_010_000_000));
    let s = ['B', 'S', 'C'][r.upto(3) as usize];
    match r.upto(9) {
        0 => format!("C,{m},{t},{},{},{},{},{p},{p},{p},{p}", ['S', 'D', 'R', 'X'][r.upto(4) as usize], r.upto(1_010_000_000), r.upto(101_000_000), r.upto(101_000)),
        1 => format!("X,{m},{t}"),
        2 => format!("{},{m},{p},{t},{s}", ['D', 'F'][r.upto(2) as usize]),
        3 => format!("J,{m},{p},{t},{},{},{},{}", r.upto(101_000_000), r.upto(3), r.upto(3), r.upto(3)),
        4 => format!("{},{m},{p},{t}", ['G', 'E'][r.upto(2) as usize]),
        5 => format!("Z,{m},{}", r.upto(101_000)),
        _ => { let n = r.upto(18); return inclusion(r, n) }
    }.into_bytes()
}

fn damaged(r: &mut Rng) -> Vec<u8> {
    let mut line = any(r);
    for _ in 0..r.upto(3) {
        if line.is_empty() { break; }
        let at = r.upto(line.len() as u64) as usize;
        let b = [b',', b'0', b'9', b'B', b'X', b' ', 0, 255, b'1'][r.upto(9) as usize];
        match r.upto(4) { 0 => line[at] = b, 1 => { line.remove(at); } 2 => line.insert(at, b), _ => line.truncate(at) }
    }
    line
}

fn time(f: fn(&[u8]) -> u64, lines: &[&[u8]]) -> (f64, u64) {
    let start = Instant::now();
    let sum = lines.iter().fold(0u64, |sum, line| sum.wrapping_add(f(line)).rotate_left(1));
    (start.elapsed().as_secs_f64() * 1e3, sum)
}

fn median(v: &mut [f64]) -> f64 { v.sort_by(|a, b| a.total_cmp(b)); v[v.len() / 2] }

fn main() {
    let mut r = Rng(88172645463325252);
    for _ in 0..1_000_000 {
        let line = damaged(&mut r);
        assert!(plain(&line) == proved(&line), "{:?}", String::from_utf8_lossy(&line));
    }
    println!("1000000 lines, good and damaged, are answered alike");
    let mut text = Vec::new();
    let mut ends = Vec::new();
    for _ in 0..500_000 {
        let first = r.upto(2) == 0;
        for one in [first, !first] { text.extend(inclusion(&mut r, if one { 1 } else { 16 })); ends.push(text.len()); }
    }
    let mut from = 0;
    let lines: Vec<&[u8]> = ends.iter().map(|&end| { let line = &text[from..end]; from = end; line }).collect();
    let (mut a, mut b) = (Vec::new(), Vec::new());
    for _ in 0..11 {
        let (t, x) = time(plain, &lines);
        let (u, y) = time(proved, &lines);
        assert!(x == y);
        a.push(t);
        b.push(u);
    }
    let (plain, proved) = (median(&mut a), median(&mut b));
    println!("{} inclusions, half of one entry and half of sixteen, {} bytes", lines.len(), text.len());
    println!("plain Rust {plain:.1} ms, proved {proved:.1} ms, ratio {:.2}", proved / plain);
}
