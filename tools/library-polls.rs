//! One thread sends while another polls, over the library, and each find is judged against the history. Nothing here is proved.

use std::alloc::Global;
use std::sync::Wait;
use std::test::*;
use std::thread::{self, Threads};
use xti_base::{Errno, Event, Fd, Seq};
use xti_calls::{Caller, Fail, Glance, Max, Seat, Xti};
use xti_core::World;
use xti_model::{Act, Entries, Go, Providers};
use xti_poll::{Found, PollSet};

/// How many polls and how many sends are made.
const POLLS: usize = 10_000;
const SENDS: usize = 10_000;

/// The endpoint that sends, the one that receives, and a descriptor that nobody opens.
const ASKER: Fd = Fd(1);
const ANSWERER: Fd = Fd(2);
const NOBODY: Fd = Fd(70);

/// What is asked of both.
const ASKED: [(Fd, Event); 2] = [(ASKER, Event::T_GODATA), (ANSWERER, Event::T_DATA)];

/// What a poll found, and how many entries the history had before it and after it.
#[derive(Clone, Copy)]
struct Find {
    before: u64,
    after: u64,
    found: [Found; 2],
}

/// How many entries the history has.
fn entries<R>(caller: &mut Caller<R>) -> u64 {
    let Glance::Gone { at } = caller.glance(NOBODY) else { unreachable!() };
    at
}

/// A listener, and two endpoints that are connected, all with O_NONBLOCK.
fn connect<R: Wait + Sync>(caller: &mut Caller<R>) {
    let Ok(listener) = caller.t_open(b"ticots", true) else { unreachable!() };
    let Ok(_) = caller.t_bind(listener, b"srv", 1, 64) else { unreachable!() };
    let Ok(asker) = caller.t_open(b"ticots", true) else { unreachable!() };
    let Ok(_) = caller.t_bind(asker, b"", 0, 64) else { unreachable!() };
    let Err(Fail::Err(Errno::TNODATA)) = caller.t_connect(asker, b"srv", b"", b"", Max::ALL) else { unreachable!() };
    let Ok(request) = caller.t_listen(listener, Max::ALL) else { unreachable!() };
    let Ok(answerer) = caller.t_open(b"ticots", true) else { unreachable!() };
    let Ok(()) = caller.t_accept(listener, answerer, request.seq, b"", b"") else { unreachable!() };
    let Ok(_) = caller.t_rcvconnect(asker, Max::ALL) else { unreachable!() };
}

/// Sends a byte again and again, and looks where there is no room.
fn sending_side<R: Wait + Sync>(mut caller: Caller<R>) -> Seat {
    for _ in 0..SENDS {
        match caller.t_snd(ASKER, b"x", 0) {
            Ok(_) | Err(Fail::Err(Errno::TFLOW)) => {}
            Err(_) => unreachable!(),
        }
    }
    caller.into_seat()
}

/// One poll.
fn poll<R: Wait>(caller: &mut Caller<R>, set: &PollSet) -> Find {
    let before = entries(caller);
    let Ok(finds) = set.poll_all(caller) else { unreachable!() };
    let [asker, answerer] = finds.as_slice() else { unreachable!() };
    let found = [*asker, *answerer];
    Find {
        before,
        after: entries(caller),
        found,
    }
}

/// Polls again and again, and receives what there is.
fn polling_side<R: Wait + Sync>(mut caller: Caller<R>, set: PollSet) -> (Seat, Vec<Find>) {
    let mut finds = Vec::with_capacity(caller.alloc(), POLLS).unwrap();
    for _ in 0..POLLS {
        let find = poll(&mut caller, &set);
        if find.found[1] != Found::None {
            let Ok(_) = caller.t_rcv(ANSWERER, 1) else { unreachable!() };
        }
        finds.push_reserved(find);
    }
    (caller.into_seat(), finds)
}

/// What is to be found in the world.
fn right(world: &World) -> [Found; 2] {
    let mut found = [Found::None; 2];
    for (place, (fd, event)) in ASKED.iter().enumerate() {
        found[place] = match world.events(*fd) {
            None => Found::Gone { fd: *fd },
            Some(sum) if sum & event.number() != 0 => Found::Event { fd: *fd, event: *event },
            Some(_) => Found::None,
        };
    }
    found
}

/// What is to be found after each number of entries.
fn rights(alloc: Global, history: &Entries) -> Vec<[Found; 2]> {
    let Ok(mut world) = World::fresh(alloc, &Providers::usual()) else { unreachable!() };
    let mut rights = Vec::with_capacity(alloc, history.len() + 1).unwrap();
    rights.push_reserved(right(&world));
    for entry in history.as_slice() {
        let Act::Begin(call) = &entry.act else { unreachable!() };
        let Ok(_) = world.step(call, Go::Begin) else { unreachable!() };
        rights.push_reserved(right(&world));
    }
    rights
}

/// Whether what was found is right at some point between.
fn is_right(rights: &[[Found; 2]], find: &Find) -> bool {
    (find.before..=find.after).any(|at| rights[at as usize] == find.found)
}

#[test]
fn polls_beside_sends(rt: HostRuntime) {
    let alloc = rt.alloc();
    let mut set = PollSet::new(alloc);
    for (fd, event) in ASKED {
        let Ok(()) = set.set(fd, event.number()) else { unreachable!() };
    }
    let Ok((xti, seat)) = Xti::new(alloc, &Providers::usual(), true) else { unreachable!() };
    let mut first = xti.caller(&rt, alloc, seat);
    connect(&mut first);
    let Ok(second) = first.split() else { unreachable!() };
    let Ok(third) = first.split() else { unreachable!() };
    first.rest();
    let ((mut second, finds), mut third) = thread::join(
        &rt,
        || polling_side(second, set),
        || sending_side(third),
    );
    let first = xti.meet(first.into_seat(), &mut second);
    let mut first = xti.meet(first, &mut third);
    let Ok(history) = xti.history(&rt, alloc, &mut first) else { unreachable!() };
    let rights = rights(alloc, &history);
    let data = finds.iter().filter(|find| find.found[1] != Found::None).count();
    let beside = finds.iter().filter(|find| find.before != find.after).count();
    let wrong = finds.iter().filter(|find| !is_right(rights.as_slice(), find)).count();
    println!(&rt; "{} polls, {data} found data, {beside} beside a step, {wrong} wrong", finds.len()).unwrap();
    assert!(&rt; finds.len() == POLLS && wrong == 0);
}
