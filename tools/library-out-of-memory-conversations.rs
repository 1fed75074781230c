//! Four conversations, each with all memory, and with some of it refused. Nothing here is proved.

use crate::caller::{Retrier, MOST, Refusals, again, bytes_from, name_of};
use std::alloc::{AllocError, Global};
use std::io::Eprint;
use std::process::Abort;
use std::sync::Wait;
use std::thread::{self, Threads};
use xti_base::{Event, Fd, Info, Octets, Parts, Seq, Sizes, State};
use xti_calls::{AllocFail, Fail, Seat, StructKind, Xti, t_alloc, t_strerror, t_sysconf};
use xti_data::SendParts;
use xti_model::{Call, Reply};

/// An address that is too long to stand in a list of bytes itself.
const LONG: &[u8] = b"an address of more than sixteen bytes";

const OTHER: &[u8] = b"another address of more than sixteen bytes";

/// XTI_GENERIC, XTI_SNDBUF and XTI_RCVBUF, of 90 and 70 bytes.
const SIZES: &[u8] = &[
    0, 0, 0, 20, 0, 0, 255, 255, 0, 0, 16, 1, 0, 0, 0, 0, 0, 0, 0, 90, //
    0, 0, 0, 20, 0, 0, 255, 255, 0, 0, 16, 2, 0, 0, 0, 0, 0, 0, 0, 70,
];

/// The actions of t_optmgmt, and the flags of sends.
const NEGOTIATE: u32 = 4;

const CHECK: u32 = 8;

const DEFAULT: u32 = 16;

const CURRENT: u32 = 128;

const MORE: u32 = 1;

const EXPEDITED: u32 = 2;

/// Text that goes with a request, an answer and a disconnect.
const HELLO: &[u8] = b"hello, and some more bytes";

const THERE: &[u8] = b"there, and some more bytes";

const BYE: &[u8] = b"bye, and some more bytes";

/// Parts of these lengths, of the bytes from this place on.
fn parts(alloc: Global, start: usize, lengths: &[usize]) -> Result<SendParts, AllocError> {
    let mut parts = SendParts::new(alloc);
    let mut at = start;
    for length in lengths {
        parts.add(bytes_from(alloc, at, *length)?.as_slice())?;
        at += *length;
    }
    Ok(parts)
}

/// Says how many bytes came, and how often the callers were refused memory.
pub fn say<R: Eprint>(rt: &R, bytes: usize, all: &[Refusals]) {
    let (mut again, mut resumed) = (0, 0);
    for refusals in all {
        again += refusals.again;
        resumed += refusals.resumed;
    }
    eprintln!(rt;
        "{bytes} bytes, each received once and in order; {again} calls made again, {resumed} resumed"
    ).unwrap_or(());
}

/// Datagrams between two endpoints, with options, in parts, to nobody, and until there is no room.
pub fn datagrams<R: Wait + Sync + Abort + Eprint>(
    rt: &R,
    alloc: Global,
    xti: &Xti,
    seat: Seat,
) -> Result<Seat, AllocError> {
    let mut me = Retrier::new(rt, alloc, xti, seat);
    let one = me.endpoint(b"ticlts", false, LONG, 0)?;
    let other = me.endpoint(b"ticlts", true, OTHER, 0)?;
    let whole = again(|| bytes_from(alloc, 0, 300))?;
    me.get(
        "sndudata",
        |caller| caller.t_sndudata(one, OTHER, SIZES, whole.as_slice()),
    )?;
    let rest = again(|| parts(alloc, 300, &[40, 0, 17, 70]))?;
    me.get(
        "sndvudata",
        |caller| caller.t_sndvudata(one, OTHER, b"", &rest),
    )?;
    let mut max = MOST;
    max.udata = 130;
    let mut flags_of_all = 0;
    for _ in 0..4 {
        let (datagram, flags) = me.get(
            "rcvudata",
            |caller| caller.t_rcvudata(other, max),
        )?;
        me.take(datagram.udata.as_slice());
        flags_of_all += flags;
    }
    assert!(rt;
        me.received == 427 && flags_of_all == 2,
        "parts of datagrams"
    );
    me.fails(
        "rcvudata",
        "TNODATA",
        |caller| caller.t_rcvudata(other, MOST),
    )?;
    to_nobody(&mut me, one)?;
    until_full(&mut me, one, other)?;
    with_short_buffers(&mut me, one, other)?;
    for fd in [one, other] {
        me.get(
            "close",
            |caller| caller.t_close(fd),
        )?;
    }
    say(rt, me.received, &[me.refusals]);
    Ok(me.caller.into_seat())
}

/// A datagram to an address that nobody has, and its error.
fn to_nobody<R: Wait + Sync + Abort>(me: &mut Retrier<'_, R>, fd: Fd) -> Result<(), AllocError> {
    let nobody = b"an address that nobody is bound to";
    me.get(
        "sndudata",
        |caller| caller.t_sndudata(fd, nobody, SIZES, HELLO),
    )?;
    me.fails(
        "sndudata",
        "T_UDERR",
        |caller| caller.t_sndudata(fd, OTHER, b"", HELLO),
    )?;
    let (addr, opt, code) = me.get(
        "rcvuderr",
        |caller| caller.t_rcvuderr(fd, 64, 256),
    )?;
    assert!(me.rt;
        addr.as_slice() == nobody.as_slice() && opt.as_slice() == SIZES && code == 1,
        "the error"
    );
    Ok(())
}

/// Datagrams until no more may wait, and their receipt.
fn until_full<R: Wait + Sync + Abort>(
    me: &mut Retrier<'_, R>,
    one: Fd,
    other: Fd,
) -> Result<(), AllocError> {
    let start = me.received;
    for number in 0..16 {
        let text = again(|| bytes_from(me.alloc, start + 20 * number, 20))?;
        me.get(
            "sndudata",
            |caller| caller.t_sndudata(other,
                LONG,
                b"",
                text.as_slice(),
            ),
        )?;
    }
    me.fails(
        "sndudata",
        "TFLOW",
        |caller| caller.t_sndudata(other, LONG, b"", HELLO),
    )?;
    for _ in 0..16 {
        let (datagram, _flags) = me.get(
            "rcvudata",
            |caller| caller.t_rcvudata(one, MOST),
        )?;
        me.take(datagram.udata.as_slice());
    }
    assert!(me.rt; me.received == start + 320, "all datagrams");
    let event = me.get(
        "look",
        |caller| caller.t_look(other),
    )?;
    assert!(me.rt; matches!(event, Some(Event::T_GODATA)), "the flow event");
    Ok(())
}

/// A receipt by two buffers, and one whose buffer for the address is too short.
fn with_short_buffers<R: Wait + Sync + Abort>(
    me: &mut Retrier<'_, R>,
    one: Fd,
    other: Fd,
) -> Result<(), AllocError> {
    let start = me.received;
    let text = again(|| bytes_from(me.alloc, start, 60))?;
    for _ in 0..2 {
        me.get(
            "sndudata",
            |caller| caller.t_sndudata(one,
                OTHER,
                b"",
                text.as_slice(),
            ),
        )?;
    }
    let call = again(|| buffers(me.alloc, other))?;
    let Some(Reply::UData { bytes, .. }) = me.call(&call)? else {
        panic!(me.rt; "rcvvudata")
    };
    me.take(bytes.as_slice());
    let mut max = MOST;
    max.addr = 5;
    me.fails(
        "rcvudata",
        "TBUFOVFLW",
        |caller| caller.t_rcvudata(other, max),
    )
}

/// A receive of a datagram by two buffers of 30 bytes.
fn buffers(alloc: Global, fd: Fd) -> Result<Call, AllocError> {
    Ok(Call::TRcvVUData {
        fd,
        sizes: sizes_of(alloc, &[30, 30])?,
        amax: 64,
        omax: 256,
    })
}

/// A call that sends so many bytes from this place on.
fn send(alloc: Global, fd: Fd, start: usize, len: usize, flags: u32) -> Result<Call, AllocError> {
    Ok(Call::TSnd {
        fd,
        bytes: bytes_from(alloc, start, len)?,
        flags,
    })
}

/// A call that asks for a connection.
fn request(alloc: Global, fd: Fd, addr: &[u8]) -> Result<Call, AllocError> {
    Ok(Call::TConnect {
        fd,
        addr: Octets::copy_of(alloc, addr)?,
        opt: Octets::copy_of(alloc, SIZES)?,
        udata: Octets::copy_of(alloc, HELLO)?,
        amax: 64,
        omax: 256,
        umax: 64,
    })
}

/// Makes a send of bytes of a connection that waits for flow control, while the other end receives; how many were taken.
fn send_while<R: Wait + Sync + Abort>(
    from: &mut Retrier<'_, R>,
    call: &Call,
    to: &mut Retrier<'_, R>,
    fd: Fd,
) -> Result<u32, AllocError> {
    for _ in 0..1_000 {
        to.rest();
        match from.call(call)? {
            Some(Reply::Sent { n }) => return Ok(n),
            Some(_) => panic!(from.rt; "snd"),
            None => to.receive_all(fd, 70)?,
        }
    }
    panic!(from.rt; "a send without end")
}

/// Makes a connection of two blocking endpoints, with one seat each.
fn connect<R: Wait + Sync + Abort>(
    caller: &mut Retrier<'_, R>,
    listener: &mut Retrier<'_, R>,
) -> Result<(Fd, Fd), AllocError> {
    let there = listener.endpoint(b"ticotsord", false, LONG, 1)?;
    let here = caller.endpoint(b"ticotsord", false, b"", 0)?;
    let call = again(|| request(caller.alloc, here, LONG))?;
    listener.rest();
    assert!(caller.rt;
        caller.call(&call)?.is_none(),
        "a request that nobody answered"
    );
    assert!(caller.rt;
        caller.caller.unfinished() == Some(0),
        "a request is unfinished"
    );
    let heard = listener.get(
        "listen",
        |caller| caller.t_listen(there, MOST),
    )?;
    assert!(caller.rt;
        heard.udata.as_slice() == HELLO && heard.opt.as_slice() == SIZES,
        "the indication"
    );
    listener.get(
        "accept",
        |caller| caller.t_accept(there, there, heard.seq, b"", THERE),
    )?;
    listener.rest();
    match caller.call(&call)? {
        Some(Reply::Connected { udata, .. }) => assert!(caller.rt;
            udata.as_slice() == THERE,
            "the answer"
        ),
        _ => panic!(caller.rt; "connect"),
    }
    Ok((here, there))
}

/// A connection, data both ways by sends of several parts that wait for flow control, and an orderly release.
pub fn connection<R: Wait + Sync + Abort + Eprint>(
    rt: &R,
    alloc: Global,
    xti: &Xti,
    mut seat: Seat,
) -> Result<Seat, AllocError> {
    let Ok(second) = xti.split(rt, alloc, &mut seat) else {
        panic!(rt; "split")
    };
    let mut caller = Retrier::new(rt, alloc, xti, seat);
    let mut listener = Retrier::new(rt, alloc, xti, second);
    let (here, there) = connect(&mut caller, &mut listener)?;
    let call = again(|| send(alloc, here, 0, 1_000, 0))?;
    assert!(rt;
        send_while(&mut caller, &call, &mut listener, there)? == 1_000,
        "snd"
    );
    let pieces = again(|| parts(alloc, 1_000, &[200, 100, 0, 150]))?;
    let call = Call::TSndV {
        fd: here,
        parts: again(|| pieces.parts().copy())?,
        flags: 0,
    };
    assert!(rt;
        send_while(&mut caller, &call, &mut listener, there)? == 450,
        "sndv"
    );
    listener.receive_all(there, 70)?;
    assert!(rt; listener.received == 1_450, "all bytes one way");
    let call = again(|| send(alloc, there, 0, 500, 0))?;
    assert!(rt;
        send_while(&mut listener, &call, &mut caller, here)? == 500,
        "snd back"
    );
    caller.receive_all(here, 33)?;
    release(&mut caller, here, &mut listener, there)?;
    say(
        rt,
        listener.received + caller.received,
        &[listener.refusals, caller.refusals],
    );
    let mut other = listener.caller.into_seat();
    Ok(xti.meet(caller.caller.into_seat(), &mut other))
}

/// An orderly release, first by the caller; the listener still sends, and then releases too.
fn release<R: Wait + Sync + Abort>(
    caller: &mut Retrier<'_, R>,
    here: Fd,
    listener: &mut Retrier<'_, R>,
    there: Fd,
) -> Result<(), AllocError> {
    caller.get(
        "sndrel",
        |caller| caller.t_sndrel(here),
    )?;
    listener.fails(
        "rcv",
        "T_ORDREL",
        |caller| caller.t_rcv(there, 10),
    )?;
    listener.get(
        "rcvrel",
        |caller| caller.t_rcvrel(there),
    )?;
    let last = again(|| bytes_from(listener.alloc, 500, 90))?;
    let sent = listener.get(
        "snd",
        |caller| caller.t_snd(there, last.as_slice(), 0),
    )?;
    listener.get(
        "sndrel",
        |caller| caller.t_sndrel(there),
    )?;
    caller.receive_all(here, 64)?;
    caller.get(
        "rcvrel",
        |caller| caller.t_rcvrel(here),
    )?;
    assert!(caller.rt;
        sent == 90 && caller.received == 590,
        "all bytes the other way"
    );
    Ok(())
}

/// Two requests to a listener: one is accepted onto another endpoint, with messages and expedited data and a disconnect;
/// the other one is rejected.
pub fn expedited<R: Wait + Sync + Abort + Eprint>(
    rt: &R,
    alloc: Global,
    xti: &Xti,
    seat: Seat,
) -> Result<Seat, AllocError> {
    let mut me = Retrier::new(rt, alloc, xti, seat);
    let listener = me.endpoint(b"ticots", false, LONG, 2)?;
    let first = me.endpoint(b"ticots", true, OTHER, 0)?;
    let second = me.endpoint(b"ticots", true, b"", 0)?;
    let fd = me.get(
        "open",
        |caller| caller.t_open(b"ticots", false),
    )?;
    for from in [first, second] {
        me.fails(
            "connect",
            "TNODATA",
            |caller| caller.t_connect(from, LONG, SIZES, HELLO, MOST),
        )?;
    }
    let mut numbers = [Seq(0); 2];
    for number in &mut numbers {
        *number = me
            .get(
                "listen",
                |caller| caller.t_listen(listener, MOST),
            )?
            .seq;
    }
    let [yes, no] = numbers;
    me.get(
        "accept",
        |caller| caller.t_accept(listener, fd, yes, b"", THERE),
    )?;
    me.get(
        "snddis",
        |caller| caller.t_snddis(listener, no, BYE),
    )?;
    let (reason, _seq, udata) = me.get(
        "rcvdis",
        |caller| caller.t_rcvdis(second, 64),
    )?;
    assert!(rt; reason == 3 && udata.as_slice() == BYE, "the rejection");
    let answer = me.get(
        "rcvconnect",
        |caller| caller.t_rcvconnect(first, MOST),
    )?;
    assert!(rt;
        answer.addr.as_slice() == LONG && answer.udata.as_slice() == THERE,
        "the answer"
    );
    messages(&mut me, first, fd)?;
    me.get(
        "snddis",
        |caller| caller.t_snddis(first, Seq(0), BYE),
    )?;
    me.fails(
        "rcv",
        "T_DISCONNECT",
        |caller| caller.t_rcv(fd, 10),
    )?;
    let (reason, _seq, udata) = me.get(
        "rcvdis",
        |caller| caller.t_rcvdis(fd, 64),
    )?;
    assert!(rt; reason == 4 && udata.as_slice() == BYE, "the disconnect");
    for fd in [listener, first, second, fd] {
        me.get(
            "close",
            |caller| caller.t_close(fd),
        )?;
    }
    say(rt, me.received, &[me.refusals]);
    Ok(me.caller.into_seat())
}

/// Expedited data overtake normal ones: bytes from place 60 on are sent first and received last.
fn messages<R: Wait + Sync + Abort>(
    me: &mut Retrier<'_, R>,
    from: Fd,
    to: Fd,
) -> Result<(), AllocError> {
    for (start, len, flags) in [
        (60, 50, MORE),
        (110, 90, 0),
        (0, 40, EXPEDITED + MORE),
        (40, 20, EXPEDITED),
    ] {
        let text = again(|| bytes_from(me.alloc, start, len))?;
        let sent = me.get(
            "snd",
            |caller| caller.t_snd(from, text.as_slice(), flags),
        )?;
        assert!(me.rt; sent as usize == len, "snd");
    }
    for (len, wanted) in [
        (30, EXPEDITED + MORE),
        (30, EXPEDITED),
        (100, MORE),
        (40, 0),
    ] {
        let (came, flags) = me.receive(to, len)?;
        assert!(me.rt;
            came == len as usize && flags == wanted,
            "{came} bytes with flags {flags}"
        );
    }
    let pieces = again(|| parts(me.alloc, 200, &[30, 31]))?;
    me.get(
        "sndv",
        |caller| caller.t_sndv(from, &pieces, 0),
    )?;
    let sizes = again(|| sizes_of(me.alloc, &[40, 40]))?;
    let call = Call::TRcvV { fd: to, sizes };
    match me.call(&call)? {
        Some(Reply::Got { bytes, .. }) => me.take(bytes.as_slice()),
        _ => panic!(me.rt; "rcvv"),
    }
    assert!(me.rt; me.received == 261, "all messages");
    Ok(())
}

/// Buffers of these sizes.
fn sizes_of(alloc: Global, lengths: &[u32]) -> Result<Sizes, AllocError> {
    let mut sizes = Sizes::new(alloc);
    for length in lengths {
        sizes.push(*length)?;
    }
    Ok(sizes)
}

/// How a thread ended.
#[derive(Clone, Copy, PartialEq, Eq)]
enum End {
    Done,
    OutOfMemory,
    Stalled,
}

/// How many datagrams go from one thread to the other, and how many bytes each has.
const ROUNDS: usize = 24;

const LENGTH: usize = 50;

/// Two threads: one sends datagrams, and waits for the other where it takes none; each asks for information, options and
/// structures between them.
pub fn mixed<R: Threads + Wait + Sync + Abort + Eprint>(
    rt: &R,
    alloc: Global,
    xti: &Xti,
    mut seat: Seat,
) -> Result<Seat, AllocError> {
    let Ok(second) = xti.split(rt, alloc, &mut seat) else {
        panic!(rt; "split")
    };
    let mut me = Retrier::new(rt, alloc, xti, seat);
    let to = me.endpoint(b"ticlts", false, LONG, 0)?;
    let seat = me.caller.into_seat();
    let ((mut second, sent, refusals), (seat, received, others)) = thread::join(
        rt,
        || thread_of(Retrier::new(rt, alloc, xti, second), |me| sender(me)),
        || thread_of(Retrier::new(rt, alloc, xti, seat), |me| receiver(me, to)),
    );
    let seat = xti.meet(seat, &mut second);
    if sent == End::OutOfMemory || received == End::OutOfMemory {
        return Err(AllocError);
    }
    assert!(rt;
        sent == End::Done && received == End::Done,
        "a thread stalled"
    );
    say(rt, ROUNDS * LENGTH, &[refusals, others]);
    Ok(seat)
}

/// What a thread does; its seat then rests.
fn thread_of<'a, R: Wait + Sync + Abort>(
    mut me: Retrier<'a, R>,
    work: impl FnOnce(&mut Retrier<'a, R>) -> Result<End, AllocError>,
) -> (Seat, End, Refusals) {
    let end = work(&mut me).unwrap_or(End::OutOfMemory);
    me.rest();
    let Retrier { caller, refusals, .. } = me;
    (caller.into_seat(), end, refusals)
}

/// Sends all datagrams, and between them asks about its endpoint.
fn sender<R: Wait + Sync + Abort>(me: &mut Retrier<'_, R>) -> Result<End, AllocError> {
    let fd = me.endpoint(b"ticlts", false, OTHER, 0)?;
    for number in 0..ROUNDS {
        let text = again(|| bytes_from(me.alloc, LENGTH * number, LENGTH))?;
        match me.form(|caller| caller.t_sndudata(fd,
            LONG,
            SIZES,
            text.as_slice(),
        ))? {
            Ok(()) => {}
            Err(fail) => return stalled(me, fail),
        }
        if number % 8 == 0 {
            asks(me, fd)?;
        }
    }
    me.get(
        "sndudata",
        |caller| caller.t_sndudata(fd, b"nobody", b"", HELLO),
    )?;
    let (addr, _opt, _code) = me.get(
        "rcvuderr",
        |caller| caller.t_rcvuderr(fd, 64, 0),
    )?;
    assert!(me.rt; addr.as_slice() == b"nobody".as_slice(), "the error");
    me.get(
        "unbind",
        |caller| caller.t_unbind(fd),
    )?;
    me.get(
        "close",
        |caller| caller.t_close(fd),
    )?;
    Ok(End::Done)
}

/// A call that no seat answers, since the other thread ended.
fn stalled<R: Wait + Sync + Abort>(me: &mut Retrier<'_, R>, fail: Fail) -> Result<End, AllocError> {
    assert!(me.rt; name_of(fail) == "stalled", "{}", name_of(fail));
    Ok(End::Stalled)
}

/// Receives all datagrams, and between them asks about its endpoint.
fn receiver<R: Wait + Sync + Abort>(me: &mut Retrier<'_, R>, fd: Fd) -> Result<End, AllocError> {
    for number in 0..ROUNDS {
        match me.form(|caller| caller.t_rcvudata(fd, MOST))? {
            Ok((datagram, _flags)) => me.take(datagram.udata.as_slice()),
            Err(fail) => return stalled(me, fail),
        }
        if number % 8 == 4 {
            asks(me, fd)?;
        }
    }
    assert!(me.rt; me.received == ROUNDS * LENGTH, "all datagrams");
    Ok(End::Done)
}

/// Options, information and structures of an endpoint, which stays as it was.
fn asks<R: Wait + Sync + Abort>(me: &mut Retrier<'_, R>, fd: Fd) -> Result<(), AllocError> {
    for action in [CURRENT, NEGOTIATE, CHECK, DEFAULT] {
        let (result, opt) = me.get(
            "optmgmt",
            |caller| caller.t_optmgmt(fd, action, SIZES, 256),
        )?;
        assert!(me.rt;
            result == 32 && opt.as_slice().len() == SIZES.len(),
            "options"
        );
    }
    me.fails(
        "optmgmt",
        "TBADFLAG",
        |caller| caller.t_optmgmt(fd, 1, SIZES, 256),
    )?;
    let info = me.get(
        "getinfo",
        |caller| caller.t_getinfo(fd),
    )?;
    structures(me, &info)?;
    let state = me.get(
        "getstate",
        |caller| caller.t_getstate(fd),
    )?;
    let synced = me.get(
        "sync",
        |caller| caller.t_sync(fd),
    )?;
    assert!(me.rt;
        state == State::T_IDLE && synced == State::T_IDLE,
        "the state"
    );
    let (local, peer) = me.get(
        "getprotaddr",
        |caller| caller.t_getprotaddr(fd, 64, 64),
    )?;
    assert!(me.rt;
        local.as_slice().len() > 16 && peer.as_slice().is_empty(),
        "addresses"
    );
    me.fails(
        "rcv",
        "TNOTSUPPORT",
        |caller| caller.t_rcv(fd, 10),
    )?;
    me.fails(
        "rcvuderr",
        "TNOUDERR",
        |caller| caller.t_rcvuderr(fd, 64, 64),
    )
}

/// The structures of a provider of datagrams.
fn structures<R: Wait + Sync + Abort>(
    me: &mut Retrier<'_, R>,
    info: &Info,
) -> Result<(), AllocError> {
    for kind in [
        StructKind::Bind,
        StructKind::OptMgmt,
        StructKind::UnitData,
        StructKind::UdError,
        StructKind::Info,
    ] {
        let alloc = me.alloc;
        let made = again(|| match t_alloc(alloc, info, kind) {
            Ok(buffers) => Ok(Some(buffers)),
            Err(AllocFail::OutOfMemory) => Err(AllocError),
            Err(AllocFail::NoStructType) => Ok(None),
        })?;
        assert!(me.rt; made.is_some(), "a structure");
    }
    let refused = matches!(
        t_alloc(me.alloc, info, StructKind::Call),
        Err(AllocFail::NoStructType)
    );
    assert!(me.rt;
        refused && t_strerror(9) == "TLOOK" && t_sysconf(0) == Ok(16),
        "structures"
    );
    Ok(())
}
