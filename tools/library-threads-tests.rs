//! Callers with threads of their own, over the library, and the histories that they make. Nothing here is proved.

use std::alloc::Global;
use std::fs;
use std::sync::Wait;
use std::test::*;
use std::thread::{self, Threads};
use xti_base::{Fd, Items, Octets};
use xti_calls::{Caller, Fail, Halt, Max, Seat, Xti};
use xti_journal_text::write_journal;
use xti_model::{Journal, Providers};

/// How many bytes a round sends, and in how many rounds.
const BYTES: usize = 1_000;
const ROUNDS: usize = 2_000;

/// The journal of the library's history.
fn journal<R: Wait>(rt: &R, alloc: Global, xti: &Xti, seat: &mut Seat) -> Octets {
    let Ok(entries) = xti.history(rt, alloc, seat) else { unreachable!() };
    let journal = Journal {
        providers: Providers::usual(),
        entries,
        stalls: Items::new(alloc),
    };
    write_journal(alloc, &journal).unwrap()
}

/// Asks for a connection, sends, and releases it; how many bytes were taken.
fn calling_side<R: Wait + Sync>(mut caller: Caller<R>) -> (Seat, usize) {
    let Ok(fd) = caller.t_open(b"ticotsord", false) else { unreachable!() };
    let Ok(_) = caller.t_bind(fd, b"", 0, 64) else { unreachable!() };
    let Ok(answer) = caller.t_connect(fd, b"srv", b"", b"hello", Max::ALL) else { unreachable!() };
    let mut total = answer.udata.as_slice().len();
    let bytes = [7u8; BYTES];
    for _ in 0..ROUNDS {
        let Ok(n) = caller.t_snd(fd, &bytes, 0) else { unreachable!() };
        total += n as usize;
    }
    let Ok(()) = caller.t_sndrel(fd) else { unreachable!() };
    (caller.into_seat(), total)
}

/// Accepts a connection on the listener's endpoint, and receives until it is released; how many bytes came.
fn listening_side<R: Wait + Sync>(mut caller: Caller<R>, fd: Fd) -> (Seat, usize) {
    let Ok(request) = caller.t_listen(fd, Max::ALL) else { unreachable!() };
    let Ok(()) = caller.t_accept(fd, fd, request.seq, b"", b"there") else { unreachable!() };
    let mut total = request.udata.as_slice().len();
    for _ in caller.rt().forever() {
        match caller.t_rcv(fd, 65_536) {
            Ok((bytes, _flags)) => total += bytes.as_slice().len(),
            Err(Fail::Look(_)) => break,
            Err(_) => unreachable!(),
        }
    }
    let Ok(()) = caller.t_rcvrel(fd) else { unreachable!() };
    (caller.into_seat(), total)
}

#[test]
fn a_listener_and_a_caller(rt: HostRuntime) {
    let alloc = rt.alloc();
    let Ok((xti, seat)) = Xti::new(alloc, &Providers::usual(), true) else { unreachable!() };
    let mut first = xti.caller(&rt, alloc, seat);
    let Ok(fd) = first.t_open(b"ticotsord", false) else { unreachable!() };
    let Ok(_) = first.t_bind(fd, b"srv", 1, 64) else { unreachable!() };
    let Ok(second) = first.split() else { unreachable!() };
    let Ok(third) = first.split() else { unreachable!() };
    first.rest();
    let ((mut second, received), (mut third, sent)) = thread::join(
        &rt,
        || listening_side(second, fd),
        || calling_side(third),
    );
    assert!(&rt; received == 5 + BYTES * ROUNDS && sent == 5 + BYTES * ROUNDS);
    let first = xti.meet(first.into_seat(), &mut second);
    let mut first = xti.meet(first, &mut third);
    let text = journal(&rt, alloc, &xti, &mut first);
    assert!(&rt; fs::write(&rt, "connection.journal", text.as_slice()).is_ok());
}

#[test]
fn a_receive_that_nobody_answers(rt: HostRuntime) {
    let alloc = rt.alloc();
    let Ok((xti, seat)) = Xti::new(alloc, &Providers::usual(), true) else { unreachable!() };
    let mut caller = xti.caller(&rt, alloc, seat);
    let Ok(fd) = caller.t_open(b"ticlts", false) else { unreachable!() };
    let Ok(_) = caller.t_bind(fd, b"a", 0, 64) else { unreachable!() };
    let Err(Fail::Halt(Halt::Stalled { taken: 0, stall })) = caller.t_rcvudata(fd, Max::ALL) else { unreachable!() };
    assert!(&rt; stall.at == 2 && stall.waiting == 1 && stall.resting == 0);
    let Ok(()) = caller.t_sndudata(fd, b"a", b"", b"hello") else { unreachable!() };
    let Ok((datagram, _flags)) = caller.t_rcvudata(fd, Max::ALL) else { unreachable!() };
    assert!(&rt; datagram.udata.as_slice() == b"hello".as_slice());
    let text = journal(&rt, alloc, &xti, &mut caller.into_seat());
    assert!(&rt; fs::write(&rt, "datagram.journal", text.as_slice()).is_ok());
}
