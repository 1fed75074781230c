//! Conversations over the library in which memory may be refused: `tools/library-out-of-memory` makes a program of this
//! text. Nothing here is proved.
#![tactic(auto)]

mod caller;
mod conversations;
mod scripts;

use crate::caller::again;
use crate::conversations::{connection, datagrams, expedited, mixed};
use crate::scripts::{play, script_of};
use std::alloc::{AllocError, Global};
use std::env;
use std::io::{self, Eprint, ErrorKind, Print, Write};
use std::process::{Abort, ExitCode};
use std::rt::Env;
use std::sync::Wait;
use std::thread::Threads;
use xti_base::{Items, Octets};
use xti_calls::{Seat, Xti};
use xti_journal_text::write_journal;
use xti_model::{Journal, Providers, Script};

/// The status where memory stays refused.
const OUT_OF_MEMORY: u8 = 4;

/// The journal of the library's history.
fn journal<R: Wait>(
    rt: &R,
    alloc: Global,
    xti: &Xti,
    seat: &mut Seat,
    providers: &Providers,
) -> Result<Octets, AllocError> {
    let journal = Journal {
        providers: *providers,
        entries: xti.history(rt, alloc, seat)?,
        stalls: Items::new(alloc),
    };
    write_journal(alloc, &journal)
}

/// Providers with small buffers, so that a short send waits for flow control.
fn providers() -> Providers {
    let mut providers = Providers::usual();
    providers.ticots.sndbuf = 200;
    providers.ticots.rcvbuf = 100;
    providers.ticotsord.sndbuf = 100;
    providers.ticotsord.rcvbuf = 60;
    providers
}

/// Makes the conversation with this name, or the calls of the script, and writes the journal of the history that it leaves.
fn run<R: Threads + Wait + Sync + Abort + Print + Eprint + Clone + AllocGlobal>(
    rt: &R,
    name: &str,
    script: Option<&Script>,
) -> Result<(), AllocError> {
    let alloc = rt.alloc();
    let providers = match script {
        Some(script) => script.providers,
        None => providers(),
    };
    let (xti, seat) = again(|| Xti::new(alloc, &providers, true))?;
    let mut seat = match (name, script) {
        (_, Some(script)) => play(rt, alloc, &xti, seat, script.lines.as_slice())?,
        ("datagrams", _) => datagrams(rt, alloc, &xti, seat)?,
        ("connection", _) => connection(rt, alloc, &xti, seat)?,
        ("expedited", _) => expedited(rt, alloc, &xti, seat)?,
        _ => mixed(rt, alloc, &xti, seat)?,
    };
    let text = again(|| journal(rt, alloc, &xti, &mut seat, &providers))?;
    assert!(rt; io::writer(rt).write_all(text.as_slice()).is_ok());
    Ok(())
}

/// The program's word of this place, or an empty one.
fn word<R: Env + AllocGlobal>(rt: &R, place: usize) -> Result<String, AllocError> {
    match env::args(rt) {
        Ok(words) => match words.skip(place).next() {
            Some(word) => Ok(word),
            None => Ok(String::new(rt.alloc())),
        },
        Err(e) if e.kind() == ErrorKind::OutOfMemory => Err(AllocError),
        Err(_) => Ok(String::new(rt.alloc())),
    }
}

/// What the program's words ask for: a conversation by its name, or `script` and the text of one.
fn talk<R: Threads + Wait + Sync + Abort + Print + Eprint + Env + Clone + AllocGlobal>(
    rt: &R,
) -> Result<(), AllocError> {
    let name = again(|| word(rt, 1))?;
    if name.as_str() != "script" {
        return run(rt, name.as_str(), None);
    }
    let text = again(|| word(rt, 2))?;
    let script = script_of(rt.alloc(), text.as_str())?;
    run(rt, name.as_str(), Some(&script))
}

fn main(rt: HostRuntime) -> ExitCode {
    match talk(&rt) {
        Ok(()) => ExitCode::SUCCESS,
        Err(_) => ExitCode::from(OUT_OF_MEMORY),
    }
}
