//! The calls that are compared, in a shape that both libraries have: arguments, a reply, and what was lent.

use crate::second::explain::{explain, Reason};
use crate::second::link::{self, Refusal, STORE};
use crate::second::message::{self, Element, Fault, Message, Part};
use crate::second::mirror::{endpoint_from, numbers_of, NUMBERS};
use crate::second::write::{self, Body, Head};

/// A reply: its number, and the values reported beside it in the order of the header's parameters. Values that a
/// call does not have are 0.
#[derive(Clone, Copy, Debug, PartialEq, Eq, Default)]
pub struct Reply {
    pub number: u64,
    pub values: [u64; 3],
}

impl Reply {
    pub fn refused(number: u64) -> Self {
        Reply { number, values: [0; 3] }
    }

    pub fn done(values: [u64; 3]) -> Self {
        Reply { number: 0, values }
    }
}

/// Why a message is refused, in the order of the header's parameters. What does not apply is 0.
#[derive(Clone, Copy, Debug, PartialEq, Eq, Default)]
pub struct Explained {
    pub number: u64,
    /// How many bytes of the field's name were put.
    pub field_size: u64,
    /// Which of the following apply.
    pub parts: u64,
    pub element: u64,
    pub needed: u64,
    pub had: u64,
    pub value: u64,
    pub left: u64,
}

// The parts, as in `include/sootlark.h`.
pub const HAS_FIELD: u64 = 1;
pub const HAS_ELEMENT: u64 = 2;
pub const HAS_ROOM: u64 = 4;
pub const HAS_VALUE: u64 = 8;
pub const HAS_LEFT: u64 = 16;
/// Room for every field's name.
pub const FIELD_NAME: usize = 64;

/// What is asked of a message. The values of the reply are:
#[derive(Clone, Copy, Debug)]
pub enum Ask {
    /// type, used, place
    Read,
    /// at, size, place
    Correlation,
    /// at, size, place
    Part(u64),
    /// value, place
    Field(u64),
    /// value, place
    Xid(u64),
    /// value, place
    Count(u64),
    /// at, size, place
    ElementPart { list: u64, n: u64, role: u64 },
    /// value, place
    ElementField { list: u64, n: u64, role: u64 },
    /// version; the number is 0
    ChooseVersion,
}

/// A call of the link. The values of the reply are:
#[derive(Clone, Copy, Debug)]
pub enum LinkCall<'a> {
    /// none
    Make { began: bool },
    /// session, written
    Open { id: u16 },
    /// written
    Close { id: u16, session: u32 },
    /// written
    Request { id: u16, session: u32, amount: u32 },
    /// written
    Transmit { id: u16, session: u32, data: &'a [u8] },
    /// written
    Read { id: u16, session: u32 },
    /// session, used, written
    Receive { bytes: &'a [u8] },
    /// accepted, used, written
    Run { n: usize, bytes: &'a [u8] },
}

/// What is lent to a call of the link and may be changed by it: the endpoint's numbers, the store and the output.
pub struct Lend<'a> {
    pub numbers: &'a mut [u32],
    pub store: &'a mut [u8],
    pub out: &'a mut [u8],
}

/// A library that can be compared with another one.
pub trait Library {
    fn ask(&self, message: &[u8], version: u64, ask: Ask) -> Reply;
    /// The field's name is put into the lent bytes, as much of it as fits.
    fn explain(&self, message: &[u8], version: u64, field: &mut [u8]) -> Explained;
    fn choose(&self, offers: &[u64]) -> u64;
    /// The value of the reply: used.
    fn write(&self, out: &mut [u8], version: u64, head: Head, body: &Body) -> Reply;
    fn link(&self, call: &LinkCall, lend: Lend) -> Reply;
}

/// The second implementation, with endpoints lent as the header has them.
pub struct Second;

impl Library for Second {
    fn ask(&self, bytes: &[u8], version: u64, ask: Ask) -> Reply {
        if let Ask::ChooseVersion = ask {
            return Reply::done([message::choose_version(bytes, version), 0, 0]);
        }
        match message::read(bytes, version) {
            Ok(message) => answer(&message, ask).unwrap_or_else(|fault| Reply::refused(fault.number())),
            Err(refusal) => refused_reading(refusal, ask),
        }
    }

    fn explain(&self, bytes: &[u8], version: u64, field: &mut [u8]) -> Explained {
        report(&explain(bytes, version), field)
    }

    fn choose(&self, offers: &[u64]) -> u64 {
        message::choose(offers.iter().copied())
    }

    fn write(&self, out: &mut [u8], version: u64, head: Head, body: &Body) -> Reply {
        match write::write(out, version, head, body) {
            Ok(used) => Reply::done([used as u64, 0, 0]),
            Err(fault) => Reply::refused(fault.number()),
        }
    }

    fn link(&self, call: &LinkCall, lend: Lend) -> Reply {
        if let LinkCall::Make { began } = *call {
            return make(began, lend);
        }
        if lend.store.len() != STORE {
            return Reply::refused(Refusal::StoreLength.number());
        }
        let Some(mut endpoint) = endpoint_from(lend.numbers) else {
            return Reply::refused(Refusal::RowRules.number());
        };
        let reply = perform(call, &mut endpoint, lend.store, lend.out);
        lend.numbers.copy_from_slice(&numbers_of(&endpoint));
        reply.unwrap_or_else(|refusal| Reply::refused(refusal.number()))
    }
}

/// A reason as the header reports it.
pub fn report(reason: &Reason, field: &mut [u8]) -> Explained {
    let part = |bit: u64, is_there: bool| if is_there { bit } else { 0 };
    let (needed, had) = reason.needed_had.unwrap_or_default();
    Explained {
        number: reason.number,
        field_size: put(reason.field.unwrap_or_default().as_bytes(), field),
        parts: part(HAS_FIELD, reason.field.is_some())
            | part(HAS_ELEMENT, reason.element.is_some())
            | part(HAS_ROOM, reason.needed_had.is_some())
            | part(HAS_VALUE, reason.value.is_some())
            | part(HAS_LEFT, reason.left.is_some()),
        element: reason.element.unwrap_or_default(),
        needed,
        had,
        value: reason.value.unwrap_or_default(),
        left: reason.left.unwrap_or_default(),
    }
}

/// Puts a name into lent bytes, as much of it as fits, and gives how much that is.
fn put(name: &[u8], to: &mut [u8]) -> u64 {
    let size = name.len().min(to.len());
    to[..size].copy_from_slice(&name[..size]);
    size as u64
}

/// What is asked of an accepted message.
fn answer(message: &Message, ask: Ask) -> Result<Reply, Fault> {
    match ask {
        Ask::Read => Ok(Reply::done([message.kind().number(), message.used() as u64, 0])),
        Ask::Correlation => Ok(part_reply(message.correlation())),
        Ask::Part(role) => message.part(role).map(part_reply),
        Ask::Field(role) => message.number(role).map(number_reply),
        Ask::Xid(which) => message.xid_number(which).map(number_reply),
        Ask::Count(list) => message.count(list).map(number_reply),
        Ask::ElementPart { list, n, role } => element_reply(message, list, n, |found| found.part(role).map(part_reply)),
        Ask::ElementField { list, n, role } => {
            element_reply(message, list, n, |found| found.number(role).map(number_reply))
        }
        Ask::ChooseVersion => Ok(number_reply(message::choose(message.offers()))),
    }
}

fn part_reply(part: Part) -> Reply {
    Reply::done([part.at as u64, part.size as u64, 0])
}

fn number_reply(value: u64) -> Reply {
    Reply::done([value, 0, 0])
}

fn element_reply(
    message: &Message,
    list: u64,
    n: u64,
    field: impl Fn(&Element) -> Result<Reply, Fault>,
) -> Result<Reply, Fault> {
    message.element(list, n).and_then(|element| field(&element))
}

/// A refused message has no fields; every call but the choice of a version reports the reading's place.
fn refused_reading(refusal: message::Refusal, ask: Ask) -> Reply {
    let place = refusal.place as u64;
    let values = match ask {
        Ask::Read | Ask::Correlation | Ask::Part(_) | Ask::ElementPart { .. } => [0, 0, place],
        Ask::Field(_) | Ask::Xid(_) | Ask::Count(_) | Ask::ElementField { .. } => [0, place, 0],
        Ask::ChooseVersion => [0; 3],
    };
    Reply {
        number: refusal.fault.number(),
        values,
    }
}

/// A fresh endpoint. If the numbers have no room for one, nothing is written.
fn make(began: bool, lend: Lend) -> Reply {
    if lend.numbers.len() != NUMBERS {
        let refusal = if lend.store.len() != STORE {
            Refusal::StoreLength
        } else {
            Refusal::RowRules
        };
        return Reply::refused(refusal.number());
    }
    let (endpoint, made) = link::make(began, lend.store);
    lend.numbers.copy_from_slice(&numbers_of(&endpoint));
    Reply::refused(made.map_or_else(Refusal::number, |()| 0))
}

fn perform(call: &LinkCall, endpoint: &mut link::Endpoint, store: &mut [u8], out: &mut [u8]) -> Result<Reply, Refusal> {
    let written = |bytes: usize| Reply::done([bytes as u64, 0, 0]);
    match *call {
        LinkCall::Make { .. } => Ok(Reply::default()),
        LinkCall::Open { id } => {
            let opened = endpoint.open(store, id, out)?;
            Ok(Reply::done([opened.session.into(), opened.written as u64, 0]))
        }
        LinkCall::Close { id, session } => endpoint.close(store, id, session, out).map(written),
        LinkCall::Request { id, session, amount } => endpoint.request(store, id, session, amount, out).map(written),
        LinkCall::Transmit { id, session, data } => endpoint.transmit(store, id, session, data, out).map(written),
        LinkCall::Read { id, session } => endpoint.read(store, id, session, out).map(written),
        LinkCall::Receive { bytes } => {
            let received = endpoint.receive(store, bytes, out)?;
            let values = [received.session.into(), received.used as u64, received.written as u64];
            Ok(Reply::done(values))
        }
        LinkCall::Run { n, bytes } => {
            let ran = endpoint.run(store, n, bytes, out);
            Ok(Reply {
                number: ran.stopped.map_or(0, Refusal::number),
                values: [ran.accepted as u64, ran.used as u64, ran.written as u64],
            })
        }
    }
}
