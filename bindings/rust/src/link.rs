//! The link: an endpoint, its sessions, and the calls.
//!
//! A call that sends writes its record to the front of `out` and hands that part back, for the caller to send. A
//! refusal writes nothing, and refusals below 20 change nothing.

use crate::answers::Refusal;
use crate::call;
use core::fmt;

/// The length of an endpoint's store.
pub const STORE_LENGTH: usize = 32_768;

/// How many numbers an endpoint has.
pub const NUMBERS: usize = 163;

/// How many numbers of an endpoint stand before its rows, and how many each row has.
const BEFORE_ROWS: usize = 3;
const ROW_NUMBERS: usize = 5;

/// The identifiers served are 0 to 15 and 0x8000 to 0x800F.
const HALF: u16 = 16;
const HIGH: u16 = 0x8000;

/// Which end of the link an endpoint is.
#[derive(Clone, Copy, Debug, PartialEq, Eq, Hash)]
pub enum End {
    /// The end that began the link. It opens identifiers from 0x8000.
    Began,
    /// The other end. It opens identifiers from 0.
    Other,
}

/// One opening of an identifier. It stays what it is when the identifier is opened again, and is then refused.
#[derive(Clone, Copy, Debug, PartialEq, Eq, Hash)]
pub struct Session {
    /// The identifier.
    pub identifier: u16,
    /// The session number, which no other opening of the endpoint has.
    pub number: u32,
}

/// What an identifier is.
#[derive(Clone, Copy, Debug, PartialEq, Eq, Hash)]
pub enum Status {
    /// Not opened, or closed again.
    Closed,
    /// Open.
    Open,
    /// We sent CLOSE and wait for the other end's answer.
    Pending,
    /// A number that stands for none of these. Every call on such an endpoint is answered 3.
    Unknown(u32),
}

/// One identifier's row.
#[derive(Clone, Copy, Debug, PartialEq, Eq, Hash)]
pub struct Row {
    /// Closed, open or pending close.
    pub status: Status,
    /// The latest session, if there was one.
    pub session: Option<Session>,
    /// The input request count: granted to the other end and not yet used.
    pub input: u32,
    /// The output request count: granted by the other end and not yet used.
    pub output: u32,
    /// How many bytes are unread.
    pub unread: u32,
}

/// What an opening hands back.
#[derive(Debug, PartialEq, Eq)]
pub struct Opened<'o> {
    /// The new session.
    pub session: Session,
    /// The OPEN, to be sent.
    pub record: &'o mut [u8],
}

/// What an accepted record hands back.
#[derive(Debug, PartialEq, Eq)]
pub struct Received<'o> {
    /// The new session, where the record was an OPEN.
    pub session: Option<Session>,
    /// How many bytes the record has.
    pub used: usize,
    /// A CLOSEACK to be sent, or nothing.
    pub written: &'o mut [u8],
}

/// What a run hands back. It is the same whether or not the run was stopped: what was accepted before stands.
#[derive(Debug, PartialEq, Eq)]
#[must_use]
pub struct Ran<'o> {
    /// How many records were accepted.
    pub accepted: usize,
    /// How many bytes they have.
    pub used: usize,
    /// The CLOSEACKs to be sent, one after another.
    pub written: &'o mut [u8],
    /// Why the run was stopped, if it was.
    pub answer: Result<(), Refusal>,
}

/// One end of a link. It owns its numbers and borrows its store, where unread bytes are kept.
#[derive(PartialEq, Eq)]
pub struct Endpoint<'s> {
    numbers: [u32; NUMBERS],
    store: &'s mut [u8; STORE_LENGTH],
}

impl<'s> Endpoint<'s> {
    /// A fresh endpoint, whose store is zeroed.
    pub fn new(end: End, store: &'s mut [u8; STORE_LENGTH]) -> Endpoint<'s> {
        let mut numbers = [0; NUMBERS];
        // Making is refused only for a store of another length, which the types exclude; and even then the library
        // leaves a fresh endpoint that is down, so that every call says so.
        let _ = call::make(end == End::Began, &mut numbers, store);
        Endpoint { numbers, store }
    }

    /// An endpoint with the numbers and the store of an earlier one. Any numbers may be given: those that break the row
    /// rules are answered 3 by every call. What is proved of lists of calls holds on if these are the numbers and the
    /// store as the earlier one's last call left them; older numbers with a newer store are outside.
    pub fn resume(numbers: [u32; NUMBERS], store: &'s mut [u8; STORE_LENGTH]) -> Endpoint<'s> {
        Endpoint { numbers, store }
    }

    /// The endpoint's numbers: began, down, the last session number, and five for each row.
    pub fn numbers(&self) -> &[u32; NUMBERS] {
        &self.numbers
    }

    /// The store: 1,024 bytes for each row, unread ones at the front.
    pub fn store(&self) -> &[u8; STORE_LENGTH] {
        self.store
    }

    /// Whether the endpoint is down: a record broke the protocol, and only reading goes on.
    pub fn is_down(&self) -> bool {
        let [_, down, ..] = self.numbers;
        down != 0
    }

    /// The row of an identifier, if it is served.
    pub fn row(&self, identifier: u16) -> Option<Row> {
        let index = match identifier {
            0..HALF => identifier,
            HIGH.. if identifier - HIGH < HALF => identifier - HIGH + HALF,
            _ => return None,
        };
        let at = BEFORE_ROWS + ROW_NUMBERS * usize::from(index);
        let &[status, session, input, output, unread] = self.numbers.get(at..)?.first_chunk()?;
        Some(Row {
            status: match status {
                0 => Status::Closed,
                1 => Status::Open,
                2 => Status::Pending,
                other => Status::Unknown(other),
            },
            session: (session != 0).then_some(Session { identifier, number: session }),
            input,
            output,
            unread,
        })
    }

    /// The latest session of an identifier. After a run it names the sessions that the run opened.
    pub fn latest(&self, identifier: u16) -> Option<Session> {
        self.row(identifier)?.session
    }

    /// Opens an identifier of our half.
    pub fn open<'o>(&mut self, identifier: u16, out: &'o mut [u8]) -> Result<Opened<'o>, Refusal> {
        let (answer, number, written) = call::open(&mut self.numbers, self.store, identifier, out);
        Ok(Opened { session: Session { identifier, number }, record: front(answer, written, out)? })
    }

    /// Closes a session. Its unread bytes are dropped. Hands back the CLOSE.
    pub fn close<'o>(&mut self, session: Session, out: &'o mut [u8]) -> Result<&'o mut [u8], Refusal> {
        let (answer, written) = call::close(&mut self.numbers, self.store, session.identifier, session.number, out);
        front(answer, written, out)
    }

    /// Grants the other end credit for `amount` more bytes. Hands back the REQUEST.
    pub fn request<'o>(&mut self, session: Session, amount: u32, out: &'o mut [u8]) -> Result<&'o mut [u8], Refusal> {
        let (answer, written) =
            call::request(&mut self.numbers, self.store, session.identifier, session.number, amount, out);
        front(answer, written, out)
    }

    /// Sends data, which uses up credit. Hands back the TRANSMIT.
    pub fn transmit<'o>(&mut self, session: Session, data: &[u8], out: &'o mut [u8]) -> Result<&'o mut [u8], Refusal> {
        let (answer, written) =
            call::transmit(&mut self.numbers, self.store, session.identifier, session.number, data, out);
        front(answer, written, out)
    }

    /// Takes the session's unread bytes, as many as `out` has room for. Goes on after CLOSE and on an endpoint that is
    /// down, until the identifier is opened again.
    pub fn read<'o>(&mut self, session: Session, out: &'o mut [u8]) -> Result<&'o mut [u8], Refusal> {
        let (answer, written) = call::link_read(&mut self.numbers, self.store, session.identifier, session.number, out);
        front(answer, written, out)
    }

    /// Receives one record from the front of the bytes. A refusal from 20 on takes the endpoint down.
    pub fn receive<'o>(&mut self, bytes: &[u8], out: &'o mut [u8]) -> Result<Received<'o>, Refusal> {
        let (answer, number, used, written) = call::receive(&mut self.numbers, self.store, bytes, out);
        let written = front(answer, written, out)?;
        Ok(Received { session: self.session_of(number), used, written })
    }

    /// Receives at most `n` records from the front of the bytes.
    pub fn run<'o>(&mut self, n: usize, bytes: &[u8], out: &'o mut [u8]) -> Ran<'o> {
        let (answer, accepted, used, written) = call::run(&mut self.numbers, self.store, n, bytes, out);
        let written = out.get_mut(..written).unwrap_or_default();
        Ran { accepted, used, written, answer: Refusal::check(answer) }
    }

    /// The session that has a number. Session numbers differ, so there is one at most.
    fn session_of(&self, number: u32) -> Option<Session> {
        let mut identifiers = (0..HALF).chain(HIGH..HIGH + HALF);
        identifiers.find_map(|identifier| self.latest(identifier).filter(|session| session.number == number))
    }
}

/// Shows what the endpoint is, and no byte of its store: that is patients' data.
impl fmt::Debug for Endpoint<'_> {
    fn fmt(&self, to: &mut fmt::Formatter) -> fmt::Result {
        let [began, down, last, rows @ ..] = &self.numbers;
        let mut shown = to.debug_struct("Endpoint");
        shown.field("began", began).field("down", down).field("last", last).field("rows", rows).finish_non_exhaustive()
    }
}

/// What a call wrote to the front of `out`, unless it was refused.
fn front(answer: u64, written: usize, out: &mut [u8]) -> Result<&mut [u8], Refusal> {
    Refusal::check(answer)?;
    out.get_mut(..written).ok_or(Refusal::Unknown(answer))
}
