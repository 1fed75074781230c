//! Rounds of a datagram, sent and received, timed: `tools/bench-library` makes a program of this text. Nothing here is proved.
#![tactic(auto)]

use std::alloc::{AllocError, Global};
use std::env;
use std::fs;
use std::io::{self, Print};
use std::process::{Abort, ExitCode};
use std::rt::{Env, Files};
use std::sync::Wait;
use std::time::{Clock, Duration, Instant};
use xti_base::{Fd, Octets, Prov};
use xti_calls::{Caller, Max, Xti};
use xti_core::World;
use xti_model::{Act, Applied, Call, Entry, Go, Outcome, Providers, Reply};
use xti_step::NoGate;

/// The addresses of the two endpoints.
const FROM: &[u8] = b"from";

const TO: &[u8] = b"to";

/// What is timed: so many rounds of so many bytes, whose receiver takes at most `max`.
#[derive(Clone, Copy)]
struct Task {
    rounds: u64,
    size: usize,
    max: u32,
}

/// A bound endpoint for datagrams.
fn endpoint<R: Wait + Sync + Abort>(rt: &R, caller: &mut Caller<R>, addr: &[u8]) -> Fd {
    let Ok(fd) = caller.t_open(b"ticlts", true) else {
        panic!(rt; "open")
    };
    let Ok(_) = caller.t_bind(fd, addr, 0, 64) else {
        panic!(rt; "bind")
    };
    fd
}

/// One round by the calls in their typed forms.
fn typed<R: Wait + Sync + Abort>(
    rt: &R,
    caller: &mut Caller<R>,
    from: Fd,
    to: Fd,
    bytes: &[u8],
    max: Max,
) {
    let Ok(()) = caller.t_sndudata(from, TO, b"", bytes) else {
        panic!(rt; "sndudata")
    };
    let Ok((datagram, _flags)) = caller.t_rcvudata(to, max) else {
        panic!(rt; "rcvudata")
    };
    assert!(rt; datagram.udata.as_slice().len() == bytes.len());
}

/// The time of the rounds by the calls in their typed forms, over a library that keeps its history or doesn't.
fn time_typed<R: Wait + Sync + Abort + Clock>(
    rt: &R,
    alloc: Global,
    task: Task,
    bytes: &[u8],
    keeps: bool,
) -> io::Result<Duration> {
    let (xti, seat) = Xti::new(alloc, &Providers::usual(), keeps)?;
    let mut caller = xti.caller(rt, alloc, seat);
    let from = endpoint(rt, &mut caller, FROM);
    let to = endpoint(rt, &mut caller, TO);
    let max = Max {
        udata: task.max,
        ..Max::ALL
    };
    let start = Instant::now(rt)?;
    for _ in 0..task.rounds {
        typed(rt, &mut caller, from, to, bytes, max);
    }
    start.elapsed(rt)
}

/// A call that sends the bytes, and one that receives them.
fn calls(
    alloc: Global,
    from: Fd,
    to: Fd,
    bytes: &[u8],
    max: u32,
) -> Result<(Call, Call), AllocError> {
    let send = Call::TSndUData {
        fd: from,
        addr: Octets::copy_of(alloc, TO)?,
        opt: Octets::new(alloc),
        bytes: Octets::copy_of(alloc, bytes)?,
    };
    let receive = Call::TRcvUData {
        fd: to,
        max,
        amax: 64,
        omax: 256,
    };
    Ok((send, receive))
}

/// The time of the rounds by `Caller::call`, with calls that are made once, over a library that keeps its history or doesn't.
fn time_calls<R: Wait + Sync + Abort + Clock>(
    rt: &R,
    alloc: Global,
    task: Task,
    bytes: &[u8],
    keeps: bool,
) -> io::Result<Duration> {
    let (xti, seat) = Xti::new(alloc, &Providers::usual(), keeps)?;
    let mut caller = xti.caller(rt, alloc, seat);
    let from = endpoint(rt, &mut caller, FROM);
    let to = endpoint(rt, &mut caller, TO);
    let (send, receive) = calls(alloc, from, to, bytes, task.max)?;
    let start = Instant::now(rt)?;
    for _ in 0..task.rounds {
        let Ok(Reply::Plain) = caller.call(&NoGate, &send) else {
            panic!(rt; "sndudata")
        };
        let Ok(Reply::UData { bytes: came, .. }) = caller.call(&NoGate, &receive) else {
            panic!(rt; "rcvudata")
        };
        assert!(rt; came.as_slice().len() == bytes.len());
    }
    start.elapsed(rt)
}

/// Makes a step of a world, without a hall and a history; the reply.
fn step<R: Abort>(rt: &R, world: &mut World, call: &Call) -> Reply {
    match world.step(call, Go::Begin) {
        Ok(
            Applied::Step {
                outcome: Outcome::Done(reply),
                ..
            },
        ) => reply,
        _ => panic!(rt; "a step"),
    }
}

/// A bound endpoint of a world.
fn endpoint_of<R: Abort>(
    rt: &R,
    alloc: Global,
    world: &mut World,
    addr: &[u8],
) -> Result<Fd, AllocError> {
    let open = Call::TOpen {
        prov: Prov::of_name(b"ticlts"),
        nonblock: true,
    };
    let Reply::Opened { fd } = step(rt, world, &open) else {
        panic!(rt; "open")
    };
    let bind = Call::TBind {
        fd,
        addr: Octets::copy_of(alloc, addr)?,
        qlen: 0,
        amax: 64,
    };
    step(rt, world, &bind);
    Ok(fd)
}

/// The time of the rounds by the steps of a world for one thread, which keeps no history.
fn time_steps<R: Wait + Sync + Abort + Clock>(
    rt: &R,
    alloc: Global,
    task: Task,
    bytes: &[u8],
) -> io::Result<Duration> {
    let mut world = World::fresh(alloc, &Providers::usual())?;
    let from = endpoint_of(rt, alloc, &mut world, FROM)?;
    let to = endpoint_of(rt, alloc, &mut world, TO)?;
    let (send, receive) = calls(alloc, from, to, bytes, task.max)?;
    let start = Instant::now(rt)?;
    for _ in 0..task.rounds {
        let Reply::Plain = step(rt, &mut world, &send) else {
            panic!(rt; "sndudata")
        };
        let Reply::UData { bytes: came, .. } = step(rt, &mut world, &receive) else {
            panic!(rt; "rcvudata")
        };
        assert!(rt; came.as_slice().len() == bytes.len());
    }
    start.elapsed(rt)
}

/// Makes a step of a world, and keeps its entry; the caller's copy of the reply.
fn kept<R: Abort>(
    rt: &R,
    world: &mut World,
    call: &Call,
    entries: &mut Vec<Entry>,
) -> Result<Reply, AllocError> {
    let Ok(Applied::Step {
        outcome: Outcome::Done(reply),
        after,
    }) = world.step(call, Go::Begin) else {
        panic!(rt; "a step")
    };
    let told = reply.copy()?;
    entries.push(Entry {
        worker: 0,
        act: Act::Begin(call.copy()?),
        outcome: Outcome::Done(reply),
        after,
    })?;
    Ok(told)
}

/// The time of the rounds by the steps of a world for one thread, whose entries are kept in a list.
fn time_kept<R: Wait + Sync + Abort + Clock>(
    rt: &R,
    alloc: Global,
    task: Task,
    bytes: &[u8],
) -> io::Result<Duration> {
    let mut world = World::fresh(alloc, &Providers::usual())?;
    let from = endpoint_of(rt, alloc, &mut world, FROM)?;
    let to = endpoint_of(rt, alloc, &mut world, TO)?;
    let (send, receive) = calls(alloc, from, to, bytes, task.max)?;
    let mut entries = Vec::new(alloc);
    let start = Instant::now(rt)?;
    for _ in 0..task.rounds {
        let Reply::Plain = kept(rt, &mut world, &send, &mut entries)? else {
            panic!(rt; "sndudata")
        };
        let Reply::UData { bytes: came, .. } = kept(rt, &mut world, &receive, &mut entries)? else {
            panic!(rt; "rcvudata")
        };
        assert!(rt; came.as_slice().len() == bytes.len());
    }
    start.elapsed(rt)
}

/// Reads the words, times the rounds, and prints nanoseconds, and then what the system says of the process, its memory among it.
fn run<R: Wait + Sync + Abort + Clock + Env + Files + Print + Clone + AllocGlobal>(
    rt: &R,
) -> io::Result<()> {
    let alloc = rt.alloc();
    let mut words = Vec::new(alloc);
    for word in env::args(rt)?.skip(1) {
        words.push(word)?;
    }
    let [way, rounds, size, max] = words.as_slice() else {
        panic!(rt; "usage: typed|typed-unkept|calls|calls-unkept|kept|steps ROUNDS SIZE MAX")
    };
    let task = Task {
        rounds: rounds.as_str().parse::<u64>().unwrap_or(0),
        size: size.as_str().parse::<usize>().unwrap_or(0),
        max: max.as_str().parse::<u32>().unwrap_or(0),
    };
    let bytes = Vec::from_elem(alloc, 7u8, task.size)?;
    let spent = match way.as_str() {
        "typed" => time_typed(rt, alloc, task, bytes.as_slice(), true)?,
        "typed-unkept" => time_typed(rt, alloc, task, bytes.as_slice(), false)?,
        "calls" => time_calls(rt, alloc, task, bytes.as_slice(), true)?,
        "calls-unkept" => time_calls(rt, alloc, task, bytes.as_slice(), false)?,
        "kept" => time_kept(rt, alloc, task, bytes.as_slice())?,
        _ => time_steps(rt, alloc, task, bytes.as_slice())?,
    };
    println!(rt; "{}", spent.as_nanos())?;
    let status = fs::read_to_string(rt, "/proc/self/status")?;
    println!(rt; "{}", status.as_str())?;
    Ok(())
}

fn main(rt: HostRuntime) -> ExitCode {
    match run(&rt) {
        Ok(()) => ExitCode::SUCCESS,
        Err(_) => ExitCode::FAILURE,
    }
}
