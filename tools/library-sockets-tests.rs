//! A copy over two sockets of one library, on two threads, and the history that it makes. Nothing here is proved.

use std::alloc::Global;
use std::fs;
use std::sync::Wait;
use std::test::*;
use std::thread::{self, Threads};
use xti_base::{Items, Octets};
use xti_calls::{Seat, Xti};
use xti_journal_text::write_journal;
use xti_model::{Journal, Providers};
use xti_copy::Shared;
use xti_sock::Sock;

/// How many bytes are copied, and the most of a piece.
const BYTES: usize = 10_000_000;
const MOST: u64 = 16_384;

/// The next of a row of numbers that look random.
fn next(number: u64) -> u64 {
    number.wrapping_mul(6_364_136_223_846_793_005).wrapping_add(1_442_695_040_888_963_407)
}

/// The byte at a place of what is copied.
fn byte_at(place: usize) -> u8 {
    (place % 251) as u8
}

/// The journal of the library's history.
fn journal<R: Wait>(rt: &R, alloc: Global, xti: &Xti, seat: &mut Seat) -> Octets {
    let Ok(entries) = xti.history(rt, alloc, seat) else { unreachable!() };
    let journal = Journal {
        providers: Providers::usual(),
        entries,
        stalls: Items::new(alloc),
    };
    write_journal(alloc, &journal).unwrap()
}

/// Connects, sends all in pieces, and ends its sending; then waits for the other side's end.
fn send_all<R: Wait + Sync>(rt: &R, alloc: Global, mut io: Shared) -> Seat {
    let Ok(mut sock) = Sock::socket(&mut io, rt, alloc, false) else { unreachable!() };
    let Ok(()) = sock.connect(&mut io, rt, alloc, b"srv") else { unreachable!() };
    let mut piece = Vec::new(alloc);
    let mut number = 1;
    let mut sent = 0;
    while sent < BYTES {
        number = next(number);
        let most = ((number >> 33) % MOST + 1) as usize;
        piece.clear();
        for place in sent..BYTES.min(sent + most) {
            piece.push(byte_at(place)).unwrap();
        }
        let mut from = 0;
        while from < piece.len() {
            let Ok(taken) = sock.send(&mut io, rt, alloc, &piece[from..]) else { unreachable!() };
            from += taken as usize;
        }
        sent += piece.len();
    }
    let Ok(()) = sock.shutdown(&mut io, rt, alloc) else { unreachable!() };
    let Ok(rest) = sock.recv(&mut io, rt, alloc, 1) else { unreachable!() };
    if !rest.as_slice().is_empty() {
        unreachable!()
    }
    let Ok(()) = sock.close(&mut io, rt, alloc) else { unreachable!() };
    io.into_seat()
}

/// Accepts, receives up to the end, and ends its own sending.
fn receive_all<R: Wait + Sync>(rt: &R, alloc: Global, mut io: Shared, mut listener: Sock) -> Seat {
    let Ok(mut sock) = listener.accept(&mut io, rt, alloc, false) else { unreachable!() };
    let mut number = 7;
    let mut got = 0;
    for _ in rt.forever() {
        number = next(number);
        let most = ((number >> 33) % MOST + 1) as u32;
        let Ok(bytes) = sock.recv(&mut io, rt, alloc, most) else { unreachable!() };
        if bytes.as_slice().is_empty() {
            break;
        }
        for byte in bytes.as_slice() {
            if *byte != byte_at(got) {
                unreachable!()
            }
            got += 1;
        }
    }
    if got != BYTES {
        unreachable!()
    }
    let Ok(()) = sock.shutdown(&mut io, rt, alloc) else { unreachable!() };
    let Ok(()) = sock.close(&mut io, rt, alloc) else { unreachable!() };
    let Ok(()) = listener.close(&mut io, rt, alloc) else { unreachable!() };
    io.into_seat()
}

#[test]
fn a_server_and_a_client(rt: HostRuntime) {
    let alloc = rt.alloc();
    let Ok((xti, mut first)) = Xti::new(alloc, &Providers::usual(), true) else { unreachable!() };
    let Ok(second) = xti.split(&rt, alloc, &mut first) else { unreachable!() };
    let mut server = Shared::new(&xti, first);
    let Ok(mut listener) = Sock::socket(&mut server, &rt, alloc, false) else { unreachable!() };
    let Ok(()) = listener.bind(&mut server, &rt, alloc, b"srv") else { unreachable!() };
    let Ok(()) = listener.listen(&mut server, &rt, alloc, 1) else { unreachable!() };
    let client = Shared::new(&xti, second);
    let (first, mut second) = thread::join(
        &rt,
        || receive_all(&rt, alloc, server, listener),
        || send_all(&rt, alloc, client),
    );
    let mut first = xti.meet(first, &mut second);
    let text = journal(&rt, alloc, &xti, &mut first);
    assert!(&rt; fs::write(&rt, "sockets.journal", text.as_slice()).is_ok());
}
