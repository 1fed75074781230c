//! A plain program in Rust for comparison, with nothing proved: it replays scripts whose one worker opens, binds, sends and
//! receives datagrams, in the stages of `xti replay`, and prints the same journal. `tools/measure-steps` measures either.
//!
//! usage: rustc --edition 2021 -O -o /tmp/plain-replay tools/plain-replay.rs && tools/measure-steps /tmp/plain-replay

use std::collections::{BTreeMap, BTreeSet, VecDeque};
use std::io::{self, Read, Write};
use std::process::ExitCode;

/// A list of bytes; up to 16 stand in the value itself.
#[derive(Clone)]
enum Octets {
    Inline(usize, [u8; 16]),
    Heap(Vec<u8>),
}

impl Octets {
    fn of(bytes: &[u8]) -> Octets {
        let mut inline = [0; 16];
        match inline.get_mut(..bytes.len()) {
            Some(front) => front.copy_from_slice(bytes),
            None => return Octets::Heap(bytes.to_vec()),
        }
        Octets::Inline(bytes.len(), inline)
    }

    fn as_slice(&self) -> &[u8] {
        match self {
            Octets::Inline(len, bytes) => &bytes[..*len],
            Octets::Heap(bytes) => bytes,
        }
    }
}

/// A call with `D` in place of a descriptor.
enum Call<D> {
    Open { name: Octets, nonblock: bool },
    Bind { fd: D, addr: Octets, qlen: u32, amax: u32 },
    Send { fd: D, addr: Octets, opt: Octets, bytes: Octets },
    Receive { fd: D, max: u32, amax: u32, omax: u32 },
}

enum Reply {
    Done,
    Opened(u32),
    Bound { addr: Octets, qlen: u32 },
    Datagram { addr: Octets, opt: Octets, bytes: Octets },
    Refused(&'static str),
}

struct Entry {
    call: Call<u32>,
    reply: Reply,
    after: &'static str,
}

fn number_in(word: &[u8]) -> Option<u32> {
    if word.len() > 1 && word[0] == b'0' || !word.iter().all(u8::is_ascii_digit) {
        return None;
    }
    std::str::from_utf8(word).ok()?.parse().ok()
}

fn bytes_in(word: &[u8]) -> Option<Octets> {
    let is_plain = |c: &u8| c.is_ascii_alphanumeric() || matches!(c, b'_' | b'.' | b'-');
    if let Some(text) = word.strip_prefix(b"t:") {
        return (!text.is_empty() && text.iter().all(is_plain)).then(|| Octets::of(text));
    }
    let digit = |c: u8| (c as char).to_digit(16).filter(|_| !c.is_ascii_uppercase());
    let digits = word.strip_prefix(b"x:").filter(|digits| digits.len() % 2 == 0)?;
    let pairs = digits.chunks(2);
    let bytes: Option<Vec<u8>> = pairs.map(|pair| Some((digit(pair[0])? * 16 + digit(pair[1])?) as u8)).collect();
    Some(Octets::of(&bytes?))
}

/// The fields of a line that are left.
struct Fields<'a, 'b>(&'b [&'a [u8]]);

impl<'a> Fields<'a, '_> {
    fn text(&mut self, key: &[u8]) -> Option<&'a [u8]> {
        let text = self.0.first()?.strip_prefix(key)?;
        self.0 = &self.0[1..];
        Some(text)
    }

    fn bytes(&mut self, key: &[u8], usual: Option<Octets>) -> Option<Octets> {
        self.text(key).map_or(usual, bytes_in)
    }

    fn number(&mut self, key: &[u8], usual: u32) -> Option<u32> {
        self.text(key).map_or(Some(usual), number_in)
    }

    fn end<T>(self, call: T) -> Option<T> {
        self.0.is_empty().then_some(call)
    }
}

fn read_line(words: &[&[u8]], names: &mut BTreeSet<Vec<u8>>) -> Option<Call<Octets>> {
    let [b"0", verb, name, fields @ ..] = words else {
        return None;
    };
    let none = || Some(Octets::of(&[]));
    let mut fields = Fields(fields);
    if *verb == b"open" {
        let nonblock = match fields.0 {
            [b"ticlts"] => false,
            [b"ticlts", b"nonblock"] => true,
            _ => return None,
        };
        return names.insert(name.to_vec()).then(|| Call::Open { name: Octets::of(name), nonblock });
    }
    if !names.contains(*name) {
        return None;
    }
    let fd = Octets::of(name);
    let call = match *verb {
        b"bind" => Call::Bind { fd, addr: fields.bytes(b"addr=", none())?, qlen: fields.number(b"qlen=", 0)?, amax: fields.number(b"amax=", 64)? },
        b"sndudata" => Call::Send { fd, addr: fields.bytes(b"addr=", none())?, opt: fields.bytes(b"opt=", none())?, bytes: fields.bytes(b"data=", None)? },
        b"rcvudata" => Call::Receive { fd, max: fields.number(b"max=", 65536)?, amax: fields.number(b"amax=", 64)?, omax: fields.number(b"omax=", 256)? },
        _ => return None,
    };
    fields.end(call)
}

fn read_script(input: &[u8]) -> Option<Vec<Call<Octets>>> {
    let mut lines = input.strip_suffix(b"\n")?.split(|c| *c == b'\n');
    let mut words = Vec::new();
    let mut names = BTreeSet::new();
    let mut calls = Vec::new();
    if lines.next()? != b"xti-script 1" {
        return None;
    }
    for line in lines {
        words.clear();
        words.extend(line.split(|c| *c == b' '));
        calls.push(read_line(&words, &mut names)?);
    }
    Some(calls)
}

#[derive(Default)]
struct World {
    /// The address of each endpoint, and the encoded indications that wait there.
    endpoints: Vec<(Option<Octets>, VecDeque<Vec<u8>>)>,
    bound: BTreeMap<Vec<u8>, usize>,
}

/// An encoded T_UNITDATA_IND.
fn indication(src: &[u8], opt: &[u8], user: &[u8]) -> Vec<u8> {
    let (head, behind) = (20, 20 + src.len());
    let words = [behind + opt.len(), user.len(), 20, src.len(), head, opt.len(), behind];
    let mut frame = Vec::with_capacity(28 + src.len() + opt.len() + user.len());
    words.iter().for_each(|word| frame.extend((*word as u32).to_be_bytes()));
    [src, opt, user].iter().for_each(|part| frame.extend_from_slice(part));
    frame
}

fn datagram_in(frame: &[u8]) -> Reply {
    let word = |place: usize| u32::from_be_bytes(frame[4 * place..4 * place + 4].try_into().unwrap()) as usize;
    let (opt, user) = (28 + word(3), 28 + word(3) + word(5));
    Reply::Datagram { addr: Octets::of(&frame[28..opt]), opt: Octets::of(&frame[opt..user]), bytes: Octets::of(&frame[user..]) }
}

impl World {
    fn step(&mut self, call: &Call<u32>) -> (Reply, &'static str) {
        match call {
            Call::Open { .. } => {
                self.endpoints.push(Default::default());
                (Reply::Opened(self.endpoints.len() as u32 - 1), "T_UNBND")
            }
            Call::Bind { fd, addr, .. } => {
                self.endpoints[*fd as usize].0 = Some(addr.clone());
                self.bound.insert(addr.as_slice().to_vec(), *fd as usize);
                (Reply::Bound { addr: addr.clone(), qlen: 0 }, "T_IDLE")
            }
            Call::Send { fd, addr, opt, bytes } => {
                let src = self.endpoints[*fd as usize].0.as_ref().map_or(&[][..], Octets::as_slice);
                let frame = indication(src, opt.as_slice(), bytes.as_slice());
                if let Some(to) = self.bound.get(addr.as_slice()) {
                    self.endpoints[*to].1.push_back(frame);
                }
                (Reply::Done, "T_IDLE")
            }
            Call::Receive { fd, .. } => {
                let first = self.endpoints[*fd as usize].1.pop_front();
                (first.map_or(Reply::Refused("TNODATA"), |frame| datagram_in(&frame)), "T_IDLE")
            }
        }
    }
}

fn with_number(call: &Call<Octets>, numbers: &BTreeMap<Vec<u8>, u32>) -> Call<u32> {
    let number = |name: &Octets| numbers[name.as_slice()];
    match call {
        Call::Open { name, nonblock } => Call::Open { name: name.clone(), nonblock: *nonblock },
        Call::Bind { fd, addr, qlen, amax } => Call::Bind { fd: number(fd), addr: addr.clone(), qlen: *qlen, amax: *amax },
        Call::Send { fd, addr, opt, bytes } => Call::Send { fd: number(fd), addr: addr.clone(), opt: opt.clone(), bytes: bytes.clone() },
        Call::Receive { fd, max, amax, omax } => Call::Receive { fd: number(fd), max: *max, amax: *amax, omax: *omax },
    }
}

fn replay(calls: &[Call<Octets>]) -> Vec<Entry> {
    let mut world = World::default();
    let mut numbers = BTreeMap::new();
    let mut entries = Vec::new();
    for named in calls {
        let call = with_number(named, &numbers);
        let (reply, after) = world.step(&call);
        if let (Call::Open { name, .. }, Reply::Opened(number)) = (named, &reply) {
            numbers.insert(name.as_slice().to_vec(), *number);
        }
        entries.push(Entry { call, reply, after });
    }
    entries
}

fn put_number(text: &mut Vec<u8>, key: &str, number: u64) {
    let mut digits = [0; 20];
    let mut at = digits.len();
    let mut left = number;
    loop {
        at -= 1;
        digits[at] = b'0' + (left % 10) as u8;
        left /= 10;
        if left == 0 {
            break;
        }
    }
    text.extend_from_slice(key.as_bytes());
    text.extend_from_slice(&digits[at..]);
}

fn put_octets(text: &mut Vec<u8>, key: &str, octets: &Octets) {
    text.extend_from_slice(key.as_bytes());
    text.extend_from_slice(b"x:");
    for c in octets.as_slice() {
        text.extend_from_slice(&[b"0123456789abcdef"[(c >> 4) as usize], b"0123456789abcdef"[(c & 15) as usize]]);
    }
}

fn put_call(text: &mut Vec<u8>, call: &Call<u32>) {
    match call {
        Call::Open { nonblock, .. } => text.extend_from_slice(if *nonblock { b"open ticlts nonblock" } else { b"open ticlts block" }),
        Call::Bind { fd, addr, qlen, amax } => {
            put_number(text, "bind ", u64::from(*fd));
            put_octets(text, " addr=", addr);
            put_number(text, " qlen=", u64::from(*qlen));
            put_number(text, " amax=", u64::from(*amax));
        }
        Call::Send { fd, addr, opt, bytes } => {
            put_number(text, "sndudata ", u64::from(*fd));
            put_octets(text, " addr=", addr);
            put_octets(text, " opt=", opt);
            put_octets(text, " data=", bytes);
        }
        Call::Receive { fd, max, amax, omax } => {
            put_number(text, "rcvudata ", u64::from(*fd));
            put_number(text, " max=", u64::from(*max));
            put_number(text, " amax=", u64::from(*amax));
            put_number(text, " omax=", u64::from(*omax));
        }
    }
}

fn put_reply(text: &mut Vec<u8>, reply: &Reply) {
    match reply {
        Reply::Done => text.extend_from_slice(b"ok"),
        Reply::Opened(fd) => put_number(text, "ok ", u64::from(*fd)),
        Reply::Bound { addr, qlen } => {
            put_octets(text, "ok ", addr);
            put_number(text, " ", u64::from(*qlen));
        }
        Reply::Datagram { addr, opt, bytes } => {
            put_octets(text, "ok ", addr);
            put_octets(text, " ", opt);
            put_octets(text, " ", bytes);
            text.extend_from_slice(b" 0");
        }
        Reply::Refused(error) => {
            text.extend_from_slice(b"err ");
            text.extend_from_slice(error.as_bytes());
        }
    }
}

const HEAD: &str = "xti-journal 1
provider ticots tsdu=65536 sendzero=1 same_addr=0 sndbuf=16384 rcvbuf=16384
provider ticotsord tsdu=0 sendzero=0 same_addr=0 sndbuf=16384 rcvbuf=16384
provider ticlts tsdu=8192 sendzero=1 same_addr=0 sndbuf=16384 rcvbuf=16384
";

fn journal(entries: &[Entry]) -> Vec<u8> {
    let mut text = HEAD.as_bytes().to_vec();
    for (place, entry) in entries.iter().enumerate() {
        put_number(&mut text, "", place as u64 + 1);
        text.extend_from_slice(b" 0 ");
        put_call(&mut text, &entry.call);
        text.extend_from_slice(b" => ");
        put_reply(&mut text, &entry.reply);
        text.push(b' ');
        text.extend_from_slice(entry.after.as_bytes());
        text.push(b'\n');
    }
    put_number(&mut text, "end ", entries.len() as u64);
    text.push(b'\n');
    text
}

fn main() -> io::Result<ExitCode> {
    let mut input = Vec::new();
    io::stdin().lock().read_to_end(&mut input)?;
    let Some(calls) = read_script(&input) else {
        return Ok(ExitCode::from(2));
    };
    let text = journal(&replay(&calls));
    io::stdout().lock().write_all(&text)?;
    Ok(ExitCode::SUCCESS)
}
