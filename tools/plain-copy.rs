//! The calls of a copy by hand, each a step of a `World`: `tools/measure-copy` makes a program of this text. Nothing here is proved.
#![tactic(auto)]

use std::alloc::Global;
use std::env;
use std::io::Input;
use std::process::{Abort, ExitCode};
use std::rt::Env;
use xti_base::{Fd, Octets, Prov, Seq};
use xti_core::World;
use xti_io::{StdSource, read_all};
use xti_model::{Act, Applied, Call, Entry, Go, Outcome, Providers, Reply};

const PIECE: usize = 1_024;

const LISTENER: Fd = Fd(0);

const CLIENT: Fd = Fd(1);

const SERVER: Fd = Fd(2);

/// A world, and the entries of its steps where they are kept.
#[derive(Drop)]
struct Run {
    world: World,
    entries: Option<Vec<Entry>>,
}

/// Makes a step; the reply.
fn step<R: Abort>(rt: &R, run: &mut Run, call: Call) -> Reply {
    let Ok(Applied::Step {
        outcome: Outcome::Done(reply),
        after,
    }) = run.world.step(&call, Go::Begin) else {
        panic!(rt; "step")
    };
    if let Some(entries) = &mut run.entries {
        let entry = Entry {
            worker: 0,
            act: Act::Begin(call.copy().unwrap()),
            outcome: Outcome::Done(reply.copy().unwrap()),
            after,
        };
        entries.push(entry).unwrap();
    }
    reply
}

fn open<R: Abort>(rt: &R, run: &mut Run) {
    step(
        rt,
        run,
        Call::TOpen {
            prov: Prov::Ticotsord,
            nonblock: true,
        },
    );
}

fn bind<R: Abort>(rt: &R, run: &mut Run, fd: Fd, addr: Octets, qlen: u32) {
    step(
        rt,
        run,
        Call::TBind {
            fd,
            addr,
            qlen,
            amax: 0,
        },
    );
}

/// A listener, and a client that is connected to the server.
fn connect<R: Abort>(rt: &R, alloc: Global, run: &mut Run) {
    let none = || Octets::new(alloc);
    open(rt, run);
    bind(rt, run, LISTENER, Octets::copy_of(alloc, b"srv").unwrap(), 1);
    open(rt, run);
    bind(rt, run, CLIENT, none(), 0);
    step(
        rt,
        run,
        Call::TConnect {
            fd: CLIENT,
            addr: Octets::copy_of(alloc, b"srv").unwrap(),
            opt: none(),
            udata: none(),
            amax: 0,
            omax: 0,
            umax: 0,
        },
    );
    step(
        rt,
        run,
        Call::TListen {
            fd: LISTENER,
            amax: 0,
            omax: 0,
            umax: 0,
        },
    );
    open(rt, run);
    step(
        rt,
        run,
        Call::TAccept {
            fd: LISTENER,
            resfd: SERVER,
            seq: Seq(1),
            opt: none(),
            udata: none(),
        },
    );
    step(
        rt,
        run,
        Call::TRcvConnect {
            fd: CLIENT,
            amax: 0,
            omax: 0,
            umax: 0,
        },
    );
}

/// Sends each piece, and receives it.
fn copy<R: Abort>(rt: &R, alloc: Global, run: &mut Run, input: &[u8]) -> usize {
    let mut got = 0;
    for piece in input.chunks(PIECE) {
        step(
            rt,
            run,
            Call::TSnd {
                fd: CLIENT,
                bytes: Octets::copy_of(alloc, piece).unwrap(),
                flags: 0,
            },
        );
        let received = Call::TRcv {
            fd: SERVER,
            max: PIECE as u32,
        };
        match step(rt, run, received) {
            Reply::Got { bytes, .. } => got += bytes.as_slice().len(),
            _ => panic!(rt; "rcv"),
        }
    }
    got
}

fn main(rt: HostRuntime) -> ExitCode {
    let alloc = rt.alloc();
    let Ok(input) = read_all(alloc, &mut StdSource::new(rt.reader()), 1 << 20) else {
        return ExitCode::from(5);
    };
    let Ok(world) = World::fresh(alloc, &Providers::usual()) else {
        return ExitCode::from(4);
    };
    let keeps = match env::args(&rt) {
        Ok(words) => words.count() > 1,
        Err(_) => false,
    };
    let entries = if keeps { Some(Vec::new(alloc)) } else { None };
    let mut run = Run { world, entries };
    connect(&rt, alloc, &mut run);
    let got = copy(&rt, alloc, &mut run, input.as_slice());
    ExitCode::from((got != input.as_slice().len()) as u8)
}
