//! Threads that share the cells of one hall, and the history that they make. Nothing here is proved.

use std::alloc::Global;
use std::fs;
use std::sync::Wait;
use std::test::*;
use std::thread::{self, Threads};
use xti_base::{Fd, Items, Octets, Prov};
use xti_core::{apply, touch};
use xti_end::Endpoint;
use xti_hall::{Hall, Seat, Stall, Waited};
use xti_journal_text::write_journal;
use xti_lent::Lent;
use xti_model::{Act, Applied, Call, Cells, Entry, Go, Journal, Outcome, Providers, Reply, Spot};
use xti_registry::Registry;
use xti_hall_rule::Stands;
use xti_wants::{Want, WantKind};

/// All seats, each by the bit of its number: whoever waits is woken by each step.
const EVERYONE: u64 = u64::MAX;

/// An endpoint, or the switch's table.
#[derive(Drop)]
enum Cell {
    End(Box<Endpoint>),
    Switch(Box<Registry>),
}

impl Stands for Cell {
    ghost use Rattle.std.specs.Prelude.{List, ℕ};

    ghost stands = { λ p x l. Unit {0} };
}

/// The hall of the opening world, which keeps its history, and its first seat.
fn open_hall(alloc: Global, p: &Providers) -> Option<(Hall<Cell>, Seat<Cell>)> {
    let mut cells = Vec::with_capacity(alloc, p.places() as usize + 1).ok()?;
    for place in 0..p.places() {
        let closed = Box::new(alloc, Endpoint::closed(alloc, place)).ok()?;
        cells.push(Cell::End(closed)).ok()?;
    }
    let registry = Box::new(alloc, Registry::fresh(alloc, p).ok()?).ok()?;
    cells.push(Cell::Switch(registry)).ok()?;
    Hall::new(alloc, p, cells, true).ok()
}

fn among(cells: &Cells, n: u32) -> bool {
    (0..cells.len()).any(|place| cells.get(place) == Some(n))
}

/// Gives the lent cells back, but for these.
fn give_back(hall: &Hall<Cell>, seat: &mut Seat<Cell>, lent: &mut Lent, p: &Providers, kept: &Cells) {
    let mut places = [0u32; 64];
    let many = lent.places().len();
    for (i, place) in lent.places().iter().enumerate() {
        places[i] = *place;
    }
    for place in &places[..many] {
        if !among(kept, *place) {
            if let Some(e) = lent.take_back(*place) {
                hall.leave(seat, *place, Cell::End(e));
            }
        }
    }
    if !among(kept, p.places()) {
        if let Some(r) = lent.take_registry() {
            hall.leave(seat, p.places(), Cell::Switch(r));
        }
    }
}

/// Enters the cells that the call touches, and no others.
fn gather<R: Wait>(rt: &R, p: &Providers, hall: &Hall<Cell>, seat: &mut Seat<Cell>, lent: &mut Lent, call: &Call) {
    for _ in rt.forever() {
        let cells = touch(call, lent);
        give_back(hall, seat, lent, p, &cells);
        let Some(least) = (0..cells.len()).filter_map(|place| cells.get(place)).find(|n| !lent.has(*n)) else {
            return;
        };
        if (least..p.places() + 1).any(|n| lent.has(n)) {
            give_back(hall, seat, lent, p, &Cells::new());
        }
        for place in 0..cells.len() {
            if let Some(n) = cells.get(place) {
                if !lent.has(n) {
                    match hall.enter(rt, seat, n) {
                        Cell::End(e) => lent.lend(n, e),
                        Cell::Switch(r) => lent.lend_registry(r),
                    }
                }
            }
        }
    }
}

/// One step: its reply, or the length of the history after which it is blocked.
fn step<R: Wait>(
    rt: &R,
    p: &Providers,
    hall: &Hall<Cell>,
    seat: &mut Seat<Cell>,
    lent: &mut Lent,
    call: &Call,
) -> Result<Reply, u64> {
    gather(rt, p, hall, seat, lent, call);
    let Ok(pen) = hall.begin(rt, seat) else { unreachable!() };
    let Ok(applied) = apply(lent, call, Go::Begin) else { unreachable!() };
    let answer = match applied {
        Applied::Blocked => {
            let at = pen.at();
            hall.return_pen(seat, pen);
            Err(at)
        }
        Applied::Step { outcome, after } => {
            let Ok(told) = outcome.copy() else { unreachable!() };
            let Ok(act) = call.copy() else { unreachable!() };
            let entry = Entry {
                worker: seat.number(),
                act: Act::Begin(act),
                outcome,
                after,
            };
            hall.commit(seat, pen, entry, EVERYONE);
            match told {
                Outcome::Done(reply) => Ok(reply),
                Outcome::Part { taken } => Ok(Reply::Sent { n: taken }),
            }
        }
    };
    give_back(hall, seat, lent, p, &Cells::new());
    answer
}

/// A call, which waits where it is blocked; the stall where nobody can go on.
fn call<R: Wait>(
    rt: &R,
    p: &Providers,
    hall: &Hall<Cell>,
    seat: &mut Seat<Cell>,
    lent: &mut Lent,
    call: &Call,
    want: Want,
) -> Result<Reply, Stall> {
    for _ in rt.forever() {
        match step(rt, p, hall, seat, lent, call) {
            Ok(reply) => return Ok(reply),
            Err(at) => match hall.wait(rt, seat, want, at) {
                Waited::Again => {}
                Waited::Stalled(stall) => return Err(stall),
            },
        }
    }
    unreachable!()
}

fn open_and_bind<R: Wait>(
    rt: &R,
    alloc: Global,
    p: &Providers,
    hall: &Hall<Cell>,
    seat: &mut Seat<Cell>,
    address: u8,
) -> Fd {
    let mut lent = Lent::new(alloc, p);
    let open = Call::TOpen {
        prov: Prov::Ticlts,
        nonblock: false,
    };
    let Ok(Reply::Opened { fd }) = step(rt, p, hall, seat, &mut lent, &open) else { unreachable!() };
    let bind = Call::TBind {
        fd,
        addr: Octets::copy_of(alloc, &[address]).unwrap(),
        qlen: 0,
        amax: 64,
    };
    let Ok(Reply::Bound { .. }) = step(rt, p, hall, seat, &mut lent, &bind) else { unreachable!() };
    fd
}

/// Sends to the next endpoint and receives on its own, so many times.
fn work<R: Wait>(
    rt: &R,
    alloc: Global,
    p: &Providers,
    hall: &Hall<Cell>,
    mut seat: Seat<Cell>,
    fd: Fd,
    next: u8,
    times: u32,
) -> Seat<Cell> {
    let mut lent = Lent::new(alloc, p);
    for i in 0..times {
        let bytes = [(i % 256) as u8, next];
        let send = Call::TSndUData {
            fd,
            addr: Octets::copy_of(alloc, &[next]).unwrap(),
            opt: Octets::new(alloc),
            bytes: Octets::copy_of(alloc, &bytes).unwrap(),
        };
        let room = Want {
            kind: WantKind::SndUData,
            fd,
            left: 2,
            flags: 0,
            to: Spot::of(&[next]),
        };
        let Ok(Reply::Plain) = call(rt, p, hall, &mut seat, &mut lent, &send, room) else { unreachable!() };
        let receive = Call::TRcvUData {
            fd,
            max: 100,
            amax: 64,
            omax: 256,
        };
        let datagram = Want {
            kind: WantKind::RcvUData,
            fd,
            left: 0,
            flags: 0,
            to: Spot::of(&[]),
        };
        let Ok(Reply::UData { .. }) = call(rt, p, hall, &mut seat, &mut lent, &receive, datagram) else { unreachable!() };
    }
    seat
}

/// As many threads over one hall, each with so many steps; the journal of their history is written to the file.
fn exchange<R: Threads + Wait + Sync>(rt: &R, alloc: Global, threads: u8, times: u32) -> Octets {
    let p = Providers::usual();
    let Some((hall, mut first)) = open_hall(alloc, &p) else { unreachable!() };
    let mut jobs = Vec::new(alloc);
    for i in 0..threads {
        let fd = open_and_bind(rt, alloc, &p, &hall, &mut first, 97 + i);
        let Ok(seat) = hall.split(rt, &mut first) else { unreachable!() };
        let Ok(()) = jobs.push((seat, fd, 97 + (i + 1) % threads)) else { unreachable!() };
    }
    hall.rest(rt, &mut first);
    let hall_ref = &hall;
    let p_ref = &p;
    let Ok(seats) = thread::map_vec(rt, jobs, &|job: (Seat<Cell>, Fd, u8)| {
        work(rt, alloc, p_ref, hall_ref, job.0, job.1, job.2, times)
    }) else {
        unreachable!()
    };
    for mut seat in seats {
        first = hall.meet(first, &mut seat);
    }
    let Ok(entries) = hall.history(rt, alloc, &mut first) else { unreachable!() };
    let journal = Journal {
        providers: p,
        entries,
        stalls: Items::new(alloc),
    };
    write_journal(alloc, &journal).unwrap()
}

#[test]
fn two_threads(rt: HostRuntime) {
    let text = exchange(&rt, rt.alloc(), 2, 5_000);
    assert!(&rt; fs::write(&rt, "two.journal", text.as_slice()).is_ok());
}

#[test]
fn eight_threads(rt: HostRuntime) {
    let text = exchange(&rt, rt.alloc(), 8, 5_000);
    assert!(&rt; fs::write(&rt, "eight.journal", text.as_slice()).is_ok());
}

#[test]
fn stalls_are_told_apart(rt: HostRuntime) {
    let alloc = rt.alloc();
    let p = Providers::usual();
    let Some((hall, mut first)) = open_hall(alloc, &p) else { unreachable!() };
    let fd = open_and_bind(&rt, alloc, &p, &hall, &mut first, 97);
    let Ok(second) = hall.split(&rt, &mut first) else { unreachable!() };
    let Ok(third) = hall.split(&rt, &mut first) else { unreachable!() };
    hall.rest(&rt, &mut first);
    let receive = |mut seat: Seat<Cell>| -> Stall {
        let mut lent = Lent::new(alloc, &p);
        let call_ = Call::TRcvUData {
            fd,
            max: 100,
            amax: 64,
            omax: 256,
        };
        let want = Want {
            kind: WantKind::RcvUData,
            fd,
            left: 0,
            flags: 0,
            to: Spot::of(&[]),
        };
        match call(&rt, &p, &hall, &mut seat, &mut lent, &call_, want) {
            Err(stall) => stall,
            Ok(_) => unreachable!(),
        }
    };
    let (a, b) = thread::join(&rt, || receive(second), || receive(third));
    assert!(&rt; a.at == 2 && b.at == 2 && a.waiting + a.resting == 3 && b.waiting + b.resting == 3);
    assert!(&rt; (a.waiting == 2 && b.waiting == 1) || (a.waiting == 1 && b.waiting == 2));
}
