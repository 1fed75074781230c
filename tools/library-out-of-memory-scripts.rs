//! The calls of a script, which a seat for each worker makes by `Caller::call`, by turns on one thread. Nothing here is proved.

use crate::caller::{Retrier, Refusals, again};
use crate::conversations::say;
use std::alloc::{AllocError, Global};
use std::io::Eprint;
use std::process::Abort;
use std::sync::Wait;
use xti_calls::{Seat, Xti};
use xti_model::{Act, Call, Line, Outcome, Reply, Script};
use xti_replay::{Worker, fresh_workers};
use xti_script_reader::read_script;

/// The script of this text, once memory isn't refused; a text that is no script counts as out of memory.
pub fn script_of(alloc: Global, text: &str) -> Result<Script, AllocError> {
    again(|| read_script(alloc, text.as_bytes()).map_err(|_| AllocError))
}

/// A worker: its caller, what it knows of its lines, and its call that isn't answered yet.
#[derive(Drop)]
struct Player<'a, R: Wait + Sync> {
    caller: Retrier<'a, R>,
    worker: Worker,
    call: Option<Call>,
}

/// How many bytes of data a reply has.
fn bytes_of(reply: &Reply) -> usize {
    match reply {
        Reply::Got { bytes, .. } => bytes.as_slice().len(),
        Reply::UData { bytes, .. } => bytes.as_slice().len(),
        _ => 0,
    }
}

impl<'a, R: Wait + Sync + Abort> Player<'a, R> {
    /// Makes the worker's next call, or goes on with the one that isn't answered yet, after so many steps of the other seats. The
    /// seat then rests. Whether a step was made.
    fn turn(&mut self, lines: &[Line], setup: &Worker, others: u64) -> Result<bool, AllocError> {
        if self.call.is_none() {
            self.call = again(|| self.worker.next_call(lines, setup))?;
        }
        let Some(call) = self.call.take() else {
            return Ok(false);
        };
        let steps = self.caller.caller.steps();
        self.caller.others = Some(others);
        let answered = self.caller.call(&call)?;
        self.caller.rest();
        match answered {
            Some(reply) => self.learn(lines, call, reply)?,
            None => self.call = Some(call),
        }
        Ok(self.caller.caller.steps() != steps)
    }

    /// The worker learns what its call was answered.
    fn learn(&mut self, lines: &[Line], call: Call, reply: Reply) -> Result<(), AllocError> {
        let alloc = self.caller.alloc;
        self.caller.received += bytes_of(&reply);
        let act = Act::Begin(call);
        let outcome = Outcome::Done(reply);
        again(|| self.worker.advance(alloc, lines, &act, &outcome))
    }
}

/// How many steps all these seats have made.
fn steps_of<R: Wait + Sync + Abort>(players: &[Player<'_, R>]) -> u64 {
    let mut steps = 0;
    for player in players {
        steps += player.caller.caller.steps();
    }
    steps
}

/// Each worker's calls, by turns, until nobody makes a step.
fn play_all<R: Wait + Sync + Abort>(
    players: &mut Vec<Player<'_, R>>,
    lines: &[Line],
    setup: &Worker,
    before: u64,
) -> Result<(), AllocError> {
    let mut goes_on = true;
    while goes_on {
        goes_on = false;
        for place in 0..players.len() {
            let all = before + steps_of(players.as_slice());
            let player = &mut players[place];
            let others = all - player.caller.caller.steps();
            goes_on |= player.turn(lines, setup, others)?;
        }
    }
    Ok(())
}

/// Worker 0's calls; each must be answered.
fn set_up<'a, R: Wait + Sync + Abort>(
    mut main: Player<'a, R>,
    lines: &[Line],
) -> Result<Player<'a, R>, AllocError> {
    let fresh = Worker::idle(main.caller.alloc);
    while !main.worker.is_finished() {
        let made = main.turn(lines, &fresh, 0)?;
        assert!(main.caller.rt; made, "the setup is blocked");
    }
    Ok(main)
}

/// A player for each worker but 0, by a seat of its own.
fn players_of<'a, R: Wait + Sync + Abort>(
    rt: &'a R,
    alloc: Global,
    xti: &'a Xti,
    main: &mut Seat,
    workers: Vec<Worker>,
) -> Result<Vec<Player<'a, R>>, AllocError> {
    let mut players = again(|| Vec::with_capacity(alloc, 33))?;
    for worker in workers {
        if worker.is_finished() {
            continue;
        }
        let Ok(mut seat) = xti.split(rt, alloc, main) else {
            panic!(rt; "split")
        };
        xti.rest(rt, &mut seat);
        let caller = Retrier::new(rt, alloc, xti, seat);
        players.push_reserved(Player {
            caller,
            worker,
            call: None,
        });
    }
    Ok(players)
}

/// Makes the calls of a script's lines by turns, and says what was received and refused; the first seat.
pub fn play<R: Wait + Sync + Abort + Eprint>(
    rt: &R,
    alloc: Global,
    xti: &Xti,
    seat: Seat,
    lines: &[Line],
) -> Result<Seat, AllocError> {
    let mut workers = again(|| fresh_workers(alloc, lines))?;
    let main = Player {
        caller: Retrier::new(rt, alloc, xti, seat),
        worker: workers.remove(0),
        call: None,
    };
    let Player { caller, worker, .. } = set_up(main, lines)?;
    let Retrier {
        caller, refusals, ..
    } = caller;
    let mut seat = caller.into_seat();
    let mut players = players_of(rt, alloc, xti, &mut seat, workers)?;
    xti.rest(rt, &mut seat);
    play_all(&mut players, lines, &worker, seat.steps())?;
    let (mut received, mut again, mut resumed) = (0, refusals.again, refusals.resumed);
    for player in players {
        received += player.caller.received;
        again += player.caller.refusals.again;
        resumed += player.caller.refusals.resumed;
        assert!(rt; player.worker.is_finished(), "a worker has lines left");
    }
    say(rt, received, &[Refusals { again, resumed }]);
    Ok(seat)
}
