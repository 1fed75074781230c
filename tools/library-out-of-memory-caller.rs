//! A caller that makes a call again, or goes on with it, where memory was refused. Nothing here is proved.

use std::alloc::{AllocError, Global};
use std::process::Abort;
use std::sync::Wait;
use xti_base::{Fd, Octets};
use xti_calls::{Caller, Fail, Halt, Max, Seat, Xti};
use xti_model::{Call, Reply};
use xti_step::NoGate;

/// How often one thing is tried before the program gives up.
const TRIES: u32 = 4;

/// The most that is taken of a returned address, of options and of data.
pub const MOST: Max = Max {
    addr: 64,
    opt: 256,
    udata: 400,
};

/// What was made, at the first try that memory isn't refused.
pub fn again<T>(mut make: impl FnMut() -> Result<T, AllocError>) -> Result<T, AllocError> {
    for _ in 0..TRIES {
        if let Ok(made) = make() {
            return Ok(made);
        }
    }
    Err(AllocError)
}

/// The byte at this place of all that one end sends.
pub fn pattern(place: usize) -> u8 {
    (place % 251) as u8
}

/// The bytes from this place on.
pub fn bytes_from(alloc: Global, start: usize, len: usize) -> Result<Octets, AllocError> {
    let mut bytes = Vec::with_capacity(alloc, len)?;
    for place in start..start + len {
        bytes.push(pattern(place))?;
    }
    Ok(Octets::from_vec(bytes))
}

/// How many answers out of memory there were: of calls that were then made again, and of calls that were then resumed.
#[derive(Clone, Copy)]
pub struct Refusals {
    pub again: usize,
    pub resumed: usize,
}

/// A caller, how many steps the other seats made, where it is told, how many bytes it received so far, and how often it was
/// refused memory.
#[derive(Drop)]
pub struct Retrier<'a, R: Wait + Sync> {
    pub rt: &'a R,
    pub alloc: Global,
    pub caller: Caller<'a, R>,
    pub others: Option<u64>,
    pub received: usize,
    pub refusals: Refusals,
}

impl<'a, R: Wait + Sync + Abort> Retrier<'a, R> {
    pub fn new(rt: &'a R, alloc: Global, xti: &'a Xti, seat: Seat) -> Retrier<'a, R> {
        Retrier {
            rt,
            alloc,
            caller: xti.caller(rt, alloc, seat),
            others: None,
            received: 0,
            refusals: Refusals {
                again: 0,
                resumed: 0,
            },
        }
    }

    /// A call in its typed form, made again where memory was refused before its only step. Each refusal leaves the seat's
    /// entries as they were.
    pub fn form<T>(
        &mut self,
        form: impl Fn(&mut Caller<'a, R>) -> Result<T, Fail>,
    ) -> Result<Result<T, Fail>, AllocError> {
        for _ in 0..TRIES {
            let steps = self.caller.steps();
            match form(&mut self.caller) {
                Err(Fail::Memory(_)) => {}
                Err(Fail::Halt(Halt::OutOfMemory { taken })) => assert!(self.rt;
                    taken == 0,
                    "bytes were taken"
                ),
                other => return Ok(other),
            }
            assert!(self.rt; self.caller.steps() == steps, "a step was made");
            assert!(self.rt; self.caller.unfinished().is_none(), "a call is unfinished");
            self.refusals.again += 1;
        }
        Err(AllocError)
    }

    /// The same of a call that is answered without an error.
    pub fn get<T>(
        &mut self,
        what: &str,
        form: impl Fn(&mut Caller<'a, R>) -> Result<T, Fail>,
    ) -> Result<T, AllocError> {
        match self.form(form)? {
            Ok(answer) => Ok(answer),
            Err(fail) => panic!(self.rt; "{what}: {}", name_of(fail)),
        }
    }

    /// The same of a call that is answered with the error of this name.
    pub fn fails<T: Drop>(
        &mut self,
        what: &str,
        wanted: &str,
        form: impl Fn(&mut Caller<'a, R>) -> Result<T, Fail>,
    ) -> Result<(), AllocError> {
        match self.form(form)? {
            Ok(_) => panic!(self.rt; "{what}: no error"),
            Err(fail) => assert!(self.rt; name_of(fail) == wanted, "{what}: {}", name_of(fail)),
        }
        Ok(())
    }

    /// All steps of a call. Where memory was refused it is made again, or resumed where a part of it was made. `None` where
    /// no seat can go on.
    pub fn call(&mut self, call: &Call) -> Result<Option<Reply>, AllocError> {
        for _ in 0..TRIES {
            let made = match self.caller.unfinished() {
                None => self.caller.call(&NoGate, call),
                Some(_) => self.caller.resume(&NoGate, call),
            };
            let taken = match made {
                Ok(reply) => {
                    assert!(self.rt; self.caller.unfinished().is_none(), "answered and unfinished");
                    return Ok(Some(reply));
                }
                Err(Halt::OutOfMemory { taken }) => {
                    self.look()?;
                    taken
                }
                Err(Halt::Stalled { taken, stall }) => {
                    assert!(self.rt; stall.waiting == 1, "another seat waits too");
                    assert!(self.rt;
                        taken == self.caller.unfinished().unwrap_or(0),
                        "taken at the stall"
                    );
                    return Ok(None);
                }
            };
            assert!(self.rt;
                taken == self.caller.unfinished().unwrap_or(0),
                "taken out of memory"
            );
            match self.caller.unfinished() {
                None => self.refusals.again += 1,
                Some(_) => self.refusals.resumed += 1,
            }
        }
        Err(AllocError)
    }

    /// After a halt the history has the steps that were made, and no other, where it is told how many the others made.
    fn look(&mut self) -> Result<(), AllocError> {
        let Some(others) = self.others else {
            return Ok(());
        };
        let made = others + self.caller.steps();
        let caller = &mut self.caller;
        let history = again(|| caller.history())?;
        assert!(self.rt; history.as_slice().len() as u64 == made, "the history lacks a step");
        Ok(())
    }

    /// Until its next call the seat counts as resting.
    pub fn rest(&mut self) {
        self.caller.rest();
    }

    /// A bound endpoint of the provider with this name.
    pub fn endpoint(
        &mut self,
        provider: &'static [u8],
        nonblock: bool,
        addr: &'static [u8],
        qlen: u32,
    ) -> Result<Fd, AllocError> {
        let fd = self.get(
            "open",
            |caller| caller.t_open(provider, nonblock),
        )?;
        self.get(
            "bind",
            |caller| caller.t_bind(fd, addr, qlen, 64),
        )?;
        Ok(fd)
    }

    /// Receives at most so many bytes of a connection, which are the next that the other end sent; how many came, and flags.
    pub fn receive(&mut self, fd: Fd, max: u32) -> Result<(usize, u32), AllocError> {
        let (bytes, flags) = self.get(
            "rcv",
            |caller| caller.t_rcv(fd, max),
        )?;
        self.take(bytes.as_slice());
        Ok((bytes.as_slice().len(), flags))
    }

    /// Counts bytes that came, which are the next that the other end sent.
    pub fn take(&mut self, bytes: &[u8]) {
        for byte in bytes {
            assert!(self.rt;
                *byte == pattern(self.received),
                "byte {} of those received",
                self.received
            );
            self.received += 1;
        }
    }

    /// Receives all bytes of a connection that wait.
    pub fn receive_all(&mut self, fd: Fd, max: u32) -> Result<(), AllocError> {
        for _ in 0..1_000 {
            match self.get(
                "look",
                |caller| caller.t_look(fd),
            )? {
                Some(xti_base::Event::T_DATA) => {}
                _ => return Ok(()),
            }
            self.receive(fd, max)?;
        }
        panic!(self.rt; "data without end")
    }
}

/// The name of what a call failed with.
pub fn name_of(fail: Fail) -> &'static str {
    match fail {
        Fail::Err(errno) => errno.name(),
        Fail::Look(event) => event.name(),
        Fail::Overflow(_) => "TBUFOVFLW",
        Fail::Halt(Halt::Stalled { .. }) => "stalled",
        Fail::Halt(Halt::OutOfMemory { .. }) => "out of memory in a step",
        Fail::Memory(_) => "out of memory before a step",
        Fail::Unfinished => "unfinished",
    }
}
