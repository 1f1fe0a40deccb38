//! The link: an endpoint with 32 rows, and the lent store that holds their unread bytes.

/// Rows of an endpoint: identifiers 0 to 15, then 0x8000 to 0x800F.
pub const ROWS: usize = 32;
/// The bytes of the store that belong to one row.
pub const QUEUE: usize = 1024;
/// The length of a store.
pub const STORE: usize = ROWS * QUEUE;
/// The greatest output request count.
pub const MOST_OUTPUT: u32 = i32::MAX as u32;

pub const OPEN: u8 = 0xE1;
pub const CLOSE: u8 = 0xE2;
pub const CLOSEACK: u8 = 0xE3;
pub const REQUEST: u8 = 0xE4;
pub const TRANSMIT: u8 = 0xE5;

/// The length of a record without a count.
pub const SHORT: usize = 3;
/// The length of a record with a count, without its data.
pub const COUNTED: usize = 7;

/// A store of the right length.
type Store = [u8; STORE];

/// Why a call or a record is refused. The values are 01's numbers.
#[derive(Clone, Copy, Debug, PartialEq, Eq)]
pub enum Refusal {
    NotWhole = 1,
    StoreLength = 2,
    RowRules = 3,
    Down = 4,
    NotServed = 5,
    OtherHalf = 6,
    RowNotClosed = 7,
    WrongSession = 8,
    RowNotOpen = 9,
    Nothing = 10,
    AboveRoom = 11,
    AboveCredit = 12,
    OutputShort = 13,
    SessionsSpent = 14,
    UnknownOpcode = 20,
    RecordNotServed = 21,
    CountNotPositive = 22,
    OpenInOurHalf = 23,
    OpenRowNotClosed = 24,
    OnClosedRow = 25,
    AckRowNotPending = 26,
    AboveInput = 27,
    OutputCountPast = 28,
    QueuePast = 29,
    OpenSessionsSpent = 30,
}

impl Refusal {
    pub fn number(self) -> u64 {
        self as u64
    }

    /// Whether a record so refused takes the endpoint down.
    fn takes_down(self) -> bool {
        self.number() >= 20
    }
}

#[derive(Clone, Copy, Debug, PartialEq, Eq, Default)]
pub enum Status {
    #[default]
    Closed,
    Open,
    /// We sent CLOSE and wait for the answer.
    Pending,
}

#[derive(Clone, Copy, Debug, PartialEq, Eq, Default)]
pub struct Row {
    pub status: Status,
    /// The latest session, 0 before the first.
    pub session: u32,
    /// The input request count: granted by us, not yet used.
    pub input: u32,
    /// The output request count: granted to us, not yet used.
    pub output: u32,
    /// Unread bytes, at the front of the row's part of the store.
    pub unread: u32,
}

#[derive(Clone, Copy, Debug, PartialEq, Eq)]
pub struct Endpoint {
    /// Whether this end began the link.
    pub began: bool,
    pub down: bool,
    /// The last session number given.
    pub last: u32,
    pub rows: [Row; ROWS],
}

/// Our opening, accepted.
#[derive(Clone, Copy, Debug, PartialEq, Eq)]
pub struct Opened {
    pub session: u32,
    pub written: usize,
}

/// A record, accepted. The session is 0 unless the record opened one.
#[derive(Clone, Copy, Debug, PartialEq, Eq)]
pub struct Received {
    pub session: u32,
    pub used: usize,
    pub written: usize,
}

/// What a run reports: the accepted records, their bytes, the bytes written, and what stopped it, if anything did.
#[derive(Clone, Copy, Debug, PartialEq, Eq)]
pub struct Ran {
    pub accepted: usize,
    pub used: usize,
    pub written: usize,
    pub stopped: Option<Refusal>,
}

/// The row that serves an identifier.
pub fn row_of(id: u16) -> Option<usize> {
    match id {
        0..=0x000F => Some(id as usize),
        0x8000..=0x800F => Some(id as usize - 0x8000 + ROWS / 2),
        _ => None,
    }
}

/// Makes a fresh endpoint and zeroes its store. If the store has a wrong length it is not written, and the endpoint
/// handed back beside the refusal is down.
pub fn make(began: bool, store: &mut [u8]) -> (Endpoint, Result<(), Refusal>) {
    let mut endpoint = Endpoint {
        began,
        down: false,
        last: 0,
        rows: [Row::default(); ROWS],
    };
    if store.len() != STORE {
        endpoint.down = true;
        return (endpoint, Err(Refusal::StoreLength));
    }
    store.fill(0);
    (endpoint, Ok(()))
}

/// The bytes of row `r`.
fn queue(store: &mut Store, r: usize) -> &mut [u8] {
    &mut store[r * QUEUE..][..QUEUE]
}

/// A record without a count.
fn short_record(opcode: u8, id: u16) -> [u8; SHORT] {
    let [high, low] = id.to_be_bytes();
    [opcode, high, low]
}

/// A record with a count, without its data.
fn counted_record(opcode: u8, id: u16, count: u32) -> [u8; COUNTED] {
    let [high, low] = id.to_be_bytes();
    let [a, b, c, d] = count.to_be_bytes();
    [opcode, high, low, a, b, c, d]
}

/// The front of a record: what it asks, and of which row.
struct RecordHead {
    opcode: u8,
    id: u16,
    row: usize,
    /// 0 where the opcode has no count.
    count: u32,
}

impl RecordHead {
    /// The tests of a record that need no row: 1, 20, 1, 21, 1, 22.
    fn parse(bytes: &[u8]) -> Result<RecordHead, Refusal> {
        let Some(&opcode) = bytes.first() else {
            return Err(Refusal::NotWhole);
        };
        if !(OPEN..=TRANSMIT).contains(&opcode) {
            return Err(Refusal::UnknownOpcode);
        }
        let Some(&[_, high, low]) = bytes.first_chunk::<SHORT>() else {
            return Err(Refusal::NotWhole);
        };
        let id = u16::from_be_bytes([high, low]);
        let row = row_of(id).ok_or(Refusal::RecordNotServed)?;
        let mut count = 0;
        if opcode == REQUEST || opcode == TRANSMIT {
            let Some(&[_, _, _, a, b, c, d]) = bytes.first_chunk::<COUNTED>() else {
                return Err(Refusal::NotWhole);
            };
            let signed = i32::from_be_bytes([a, b, c, d]);
            if signed <= 0 {
                return Err(Refusal::CountNotPositive);
            }
            count = signed.unsigned_abs();
        }
        Ok(RecordHead { opcode, id, row, count })
    }
}

impl Row {
    /// What each row must keep, apart from the others.
    fn keeps_rules(&self) -> bool {
        let room = u64::from(self.unread) + u64::from(self.input) <= QUEUE as u64;
        let status = match self.status {
            Status::Closed => self.input == 0 && self.output == 0,
            Status::Open => self.output <= MOST_OUTPUT && self.session != 0,
            Status::Pending => self.unread == 0 && self.output == 0 && self.session != 0,
        };
        room && status && (self.session != 0 || self.unread == 0)
    }

    /// Closes the row. Its session and its unread bytes stay.
    fn close(&mut self) {
        self.status = Status::Closed;
        self.input = 0;
        self.output = 0;
    }

    /// How much more the row may grant: unread bytes and granted ones have to fit the queue.
    fn room(&self) -> u32 {
        (QUEUE as u32).saturating_sub(self.unread + self.input)
    }
}

impl Endpoint {
    /// The row rules.
    pub fn keeps_rules(&self) -> bool {
        self.rows.iter().all(Row::keeps_rules)
            && self.rows.iter().all(|row| row.session <= self.last)
            && self.sessions_differ()
            && !(self.down && self.rows.iter().any(|row| row.status != Status::Closed))
    }

    /// Whether no two rows have the same session, 0 aside.
    fn sessions_differ(&self) -> bool {
        let sessions = self.rows.map(|row| row.session);
        sessions
            .iter()
            .enumerate()
            .all(|(r, &session)| session == 0 || !sessions[..r].contains(&session))
    }

    /// Whether only this end opens the identifier.
    fn is_ours(&self, id: u16) -> bool {
        (id >= 0x8000) == self.began
    }

    /// Tests 2 and 3.
    fn lend<'s>(&self, store: &'s mut [u8]) -> Result<&'s mut Store, Refusal> {
        let store = store.try_into().map_err(|_| Refusal::StoreLength)?;
        if !self.keeps_rules() {
            return Err(Refusal::RowRules);
        }
        Ok(store)
    }

    /// Tests 2, 3 and 4.
    fn lend_up<'s>(&self, store: &'s mut [u8]) -> Result<&'s mut Store, Refusal> {
        let store = self.lend(store)?;
        if self.down {
            return Err(Refusal::Down);
        }
        Ok(store)
    }

    /// Tests 5 and 8: the row of an identifier whose latest session is the one named.
    fn named(&self, id: u16, session: u32) -> Result<usize, Refusal> {
        let r = row_of(id).ok_or(Refusal::NotServed)?;
        if session == 0 || session != self.rows[r].session {
            return Err(Refusal::WrongSession);
        }
        Ok(r)
    }

    /// Tests 5, 8 and 9.
    fn named_open(&self, id: u16, session: u32) -> Result<usize, Refusal> {
        let r = self.named(id, session)?;
        if self.rows[r].status != Status::Open {
            return Err(Refusal::RowNotOpen);
        }
        Ok(r)
    }

    /// Opens a row with the next session number, dropping what the old session left unread.
    fn begin_session(&mut self, store: &mut Store, r: usize) -> u32 {
        self.last = self.last.saturating_add(1);
        self.rows[r] = Row {
            status: Status::Open,
            session: self.last,
            ..Row::default()
        };
        queue(store, r).fill(0);
        self.last
    }

    /// Opens a connection and writes its OPEN.
    pub fn open(&mut self, store: &mut [u8], id: u16, out: &mut [u8]) -> Result<Opened, Refusal> {
        let store = self.lend_up(store)?;
        let r = row_of(id).ok_or(Refusal::NotServed)?;
        if !self.is_ours(id) {
            return Err(Refusal::OtherHalf);
        }
        if self.rows[r].status != Status::Closed {
            return Err(Refusal::RowNotClosed);
        }
        if self.last == u32::MAX {
            return Err(Refusal::SessionsSpent);
        }
        let out = out.first_chunk_mut::<SHORT>().ok_or(Refusal::OutputShort)?;
        *out = short_record(OPEN, id);
        let session = self.begin_session(store, r);
        Ok(Opened {
            session,
            written: SHORT,
        })
    }

    /// Closes a connection and writes its CLOSE. The other end may still use what was granted to it.
    pub fn close(&mut self, store: &mut [u8], id: u16, session: u32, out: &mut [u8]) -> Result<usize, Refusal> {
        let store = self.lend_up(store)?;
        let r = self.named_open(id, session)?;
        let out = out.first_chunk_mut::<SHORT>().ok_or(Refusal::OutputShort)?;
        *out = short_record(CLOSE, id);
        let row = &mut self.rows[r];
        row.status = Status::Pending;
        row.output = 0;
        row.unread = 0;
        queue(store, r).fill(0);
        Ok(SHORT)
    }

    /// Grants the other end `amount` more bytes and writes the REQUEST.
    pub fn request(
        &mut self,
        store: &mut [u8],
        id: u16,
        session: u32,
        amount: u32,
        out: &mut [u8],
    ) -> Result<usize, Refusal> {
        self.lend_up(store)?;
        let r = self.named_open(id, session)?;
        if amount == 0 {
            return Err(Refusal::Nothing);
        }
        let row = &mut self.rows[r];
        if amount > row.room() {
            return Err(Refusal::AboveRoom);
        }
        let out = out.first_chunk_mut::<COUNTED>().ok_or(Refusal::OutputShort)?;
        *out = counted_record(REQUEST, id, amount);
        row.input += amount;
        Ok(COUNTED)
    }

    /// Writes a TRANSMIT of `data`.
    pub fn transmit(
        &mut self,
        store: &mut [u8],
        id: u16,
        session: u32,
        data: &[u8],
        out: &mut [u8],
    ) -> Result<usize, Refusal> {
        self.lend_up(store)?;
        let r = self.named_open(id, session)?;
        if data.is_empty() {
            return Err(Refusal::Nothing);
        }
        let row = &mut self.rows[r];
        if data.len() > row.output as usize {
            return Err(Refusal::AboveCredit);
        }
        // The test above bounds the data, so its length fits the count and the sum does not wrap.
        let count = data.len() as u32;
        let out = out.get_mut(..COUNTED + data.len()).ok_or(Refusal::OutputShort)?;
        let (head, rest) = out.split_at_mut(COUNTED);
        head.copy_from_slice(&counted_record(TRANSMIT, id, count));
        rest.copy_from_slice(data);
        row.output -= count;
        Ok(COUNTED + data.len())
    }

    /// Moves unread bytes of a session to `out`, as many as there are and as fit.
    pub fn read(&mut self, store: &mut [u8], id: u16, session: u32, out: &mut [u8]) -> Result<usize, Refusal> {
        let store = self.lend(store)?;
        let r = self.named(id, session)?;
        let row = &mut self.rows[r];
        let unread = row.unread as usize;
        let given = unread.min(out.len());
        let queue = queue(store, r);
        out[..given].copy_from_slice(&queue[..given]);
        queue.copy_within(given..unread, 0);
        queue[unread - given..unread].fill(0);
        row.unread -= given as u32;
        Ok(given)
    }

    /// Handles one record from the front of `bytes`.
    pub fn receive(&mut self, store: &mut [u8], bytes: &[u8], out: &mut [u8]) -> Result<Received, Refusal> {
        let store = self.lend_up(store)?;
        self.step(store, bytes, out)
    }

    /// Receives record after record, `n` of them at the most, and stops early where none is left or one is refused.
    pub fn run(&mut self, store: &mut [u8], n: usize, bytes: &[u8], out: &mut [u8]) -> Ran {
        let mut ran = Ran {
            accepted: 0,
            used: 0,
            written: 0,
            stopped: None,
        };
        let store = match self.lend_up(store) {
            Ok(store) => store,
            Err(refusal) => {
                ran.stopped = Some(refusal);
                return ran;
            }
        };
        while ran.accepted < n && ran.used < bytes.len() {
            match self.step(store, &bytes[ran.used..], &mut out[ran.written..]) {
                Ok(received) => {
                    ran.accepted += 1;
                    ran.used += received.used;
                    ran.written += received.written;
                }
                Err(refusal) => {
                    ran.stopped = Some(refusal);
                    break;
                }
            }
        }
        ran
    }

    /// One record, after tests 2, 3 and 4.
    fn step(&mut self, store: &mut Store, bytes: &[u8], out: &mut [u8]) -> Result<Received, Refusal> {
        let received = self.accept(store, bytes, out);
        if matches!(received, Err(refusal) if refusal.takes_down()) {
            self.take_down();
        }
        received
    }

    fn accept(&mut self, store: &mut Store, bytes: &[u8], out: &mut [u8]) -> Result<Received, Refusal> {
        let head = RecordHead::parse(bytes)?;
        let mut received = Received {
            session: 0,
            used: SHORT,
            written: 0,
        };
        match head.opcode {
            OPEN => received.session = self.accept_open(store, &head)?,
            CLOSE => received.written = self.accept_close(&head, out)?,
            CLOSEACK => self.accept_closeack(&head)?,
            REQUEST => {
                self.accept_request(&head)?;
                received.used = COUNTED;
            }
            _ => {
                self.accept_transmit(store, &head, &bytes[COUNTED..])?;
                received.used = COUNTED + head.count as usize;
            }
        }
        Ok(received)
    }

    fn accept_open(&mut self, store: &mut Store, head: &RecordHead) -> Result<u32, Refusal> {
        if self.is_ours(head.id) {
            return Err(Refusal::OpenInOurHalf);
        }
        if self.rows[head.row].status != Status::Closed {
            return Err(Refusal::OpenRowNotClosed);
        }
        if self.last == u32::MAX {
            return Err(Refusal::OpenSessionsSpent);
        }
        Ok(self.begin_session(store, head.row))
    }

    /// Hands back the bytes written: a CLOSEACK, unless the two ends' CLOSEs crossed.
    fn accept_close(&mut self, head: &RecordHead, out: &mut [u8]) -> Result<usize, Refusal> {
        let row = &mut self.rows[head.row];
        let written = match row.status {
            Status::Closed => return Err(Refusal::OnClosedRow),
            Status::Pending => 0,
            Status::Open => {
                let out = out.first_chunk_mut::<SHORT>().ok_or(Refusal::OutputShort)?;
                *out = short_record(CLOSEACK, head.id);
                SHORT
            }
        };
        row.close();
        Ok(written)
    }

    fn accept_closeack(&mut self, head: &RecordHead) -> Result<(), Refusal> {
        let row = &mut self.rows[head.row];
        if row.status != Status::Pending {
            return Err(Refusal::AckRowNotPending);
        }
        row.close();
        Ok(())
    }

    fn accept_request(&mut self, head: &RecordHead) -> Result<(), Refusal> {
        let row = &mut self.rows[head.row];
        match row.status {
            Status::Closed => Err(Refusal::OnClosedRow),
            Status::Pending => Ok(()),
            Status::Open if head.count > MOST_OUTPUT - row.output => Err(Refusal::OutputCountPast),
            Status::Open => {
                row.output += head.count;
                Ok(())
            }
        }
    }

    /// `rest` is what follows the record's count. Credit is used up on a pending row too, where the data is
    /// discarded.
    fn accept_transmit(&mut self, store: &mut Store, head: &RecordHead, rest: &[u8]) -> Result<(), Refusal> {
        let row = &mut self.rows[head.row];
        if row.status == Status::Closed {
            return Err(Refusal::OnClosedRow);
        }
        if head.count > row.input {
            return Err(Refusal::AboveInput);
        }
        // The count is now at most 1,024, so the sum does not wrap. Within the row rules this test never refuses.
        if row.status == Status::Open && row.unread + head.count > QUEUE as u32 {
            return Err(Refusal::QueuePast);
        }
        let data = rest.get(..head.count as usize).ok_or(Refusal::NotWhole)?;
        row.input -= head.count;
        if row.status == Status::Open {
            queue(store, head.row)[row.unread as usize..][..data.len()].copy_from_slice(data);
            row.unread += head.count;
        }
        Ok(())
    }

    /// All rows are closed. What is unread can still be read.
    fn take_down(&mut self) {
        self.down = true;
        self.rows.iter_mut().for_each(Row::close);
    }
}
