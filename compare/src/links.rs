//! The comparison of the link's calls, over random lists of calls.
//!
//! Calls and records are chosen by looking at the endpoint, so that sessions open, exchange credit and data, close,
//! cross and open again; a part of them is wrong on purpose.

use crate::difference::{first_difference, hex, Difference};
use crate::library::{Lend, Library, LinkCall, Reply};
use crate::random::Random;
use crate::second::link::{row_of, Endpoint, Row, Status, COUNTED, MOST_OUTPUT, QUEUE, ROWS, SHORT, STORE};
use crate::second::link::{CLOSE, CLOSEACK, OPEN, REQUEST, TRANSMIT};
use crate::second::mirror::{endpoint_from, numbers_of, NUMBERS, ROW};
use crate::tally::Tally;

/// Numbers and store bytes behind what is rightly lent, for calls that lend too much.
const MORE_NUMBERS: usize = 7;
const MORE_STORE: usize = 64;
/// Bytes behind a lent output that no call may touch.
const BEHIND: usize = 16;
/// An output that is long enough for all but a long transmit.
const AMPLE: usize = 64;

/// What the calls of one library work on.
struct Side {
    numbers: Vec<u32>,
    store: Vec<u8>,
    out: Vec<u8>,
}

/// How much of that is lent to a call.
#[derive(Clone, Copy, Debug)]
struct Lengths {
    numbers: usize,
    store: usize,
    out: usize,
}

/// What a list favours.
struct Manner {
    /// Most calls name one of these identifiers.
    ids: Vec<u16>,
    /// The share of received records that are wrong on purpose, in a hundred.
    hostility: u64,
}

/// What the lists did, beside the reply numbers.
#[derive(Default)]
pub struct Deeds {
    pub calls: u64,
    pub sessions: u64,
    pub records: u64,
    pub bytes_read: u64,
}

/// Compares two libraries. Each list has a generator of its own, made of the seed and the list's index.
pub struct Links<'l> {
    left: &'l dyn Library,
    right: &'l dyn Library,
    seed: u64,
    pub tally: Tally,
    pub deeds: Deeds,
    left_side: Side,
    right_side: Side,
    /// The numbers before the call, for its description.
    before: Vec<u32>,
    /// A store for trying out the records of a stream.
    trial_store: Vec<u8>,
}

impl Side {
    fn new() -> Self {
        Side {
            numbers: vec![0; NUMBERS + MORE_NUMBERS],
            store: vec![0; STORE + MORE_STORE],
            out: Vec::new(),
        }
    }

    fn call(&mut self, library: &dyn Library, call: &LinkCall, lengths: Lengths) -> Reply {
        let lend = Lend {
            numbers: &mut self.numbers[..lengths.numbers],
            store: &mut self.store[..lengths.store],
            out: &mut self.out[..lengths.out],
        };
        library.link(call, lend)
    }
}

impl<'l> Links<'l> {
    pub fn new(left: &'l dyn Library, right: &'l dyn Library, seed: u64) -> Self {
        Links {
            left,
            right,
            seed,
            tally: Tally::default(),
            deeds: Deeds::default(),
            left_side: Side::new(),
            right_side: Side::new(),
            before: Vec::new(),
            trial_store: vec![0; STORE],
        }
    }

    /// The random list of calls with this index.
    pub fn compare_list(&mut self, index: u64) -> Result<(), Difference> {
        let random = &mut Random::new(!self.seed, index);
        let manner = random_manner(random);
        let calls = random.within(5, 80);
        let mut step = 0;
        let mut compared = self.begin(random);
        while compared.is_ok() && step < calls {
            step += 1;
            compared = self.compare_next(random, &manner);
        }
        let seed = self.seed;
        compared.map_err(|Difference(text)| Difference(format!("list {index} of seed {seed}, call {step}: {text}")))
    }

    /// The list's first state: a fresh endpoint, or one with a past that keeps the row rules.
    fn begin(&mut self, random: &mut Random) -> Result<(), Difference> {
        for number in &mut self.left_side.numbers {
            *number = random.next() as u32;
        }
        random.fill(&mut self.left_side.store);
        let with_past = random.chance(30);
        if with_past {
            let numbers = numbers_of(&random_endpoint(random));
            self.left_side.numbers[..NUMBERS].copy_from_slice(&numbers);
        }
        self.right_side.numbers.clone_from(&self.left_side.numbers);
        self.right_side.store.clone_from(&self.left_side.store);
        if with_past {
            return Ok(());
        }
        let make = LinkCall::Make {
            began: random.chance(50),
        };
        let lengths = self.random_lengths(random, 0);
        self.compare_call(random, &make, lengths)?;
        if endpoint_from(&self.left_side.numbers[..NUMBERS]).is_none() {
            // The numbers or the store were lent with a wrong length: make it again.
            self.compare_call(random, &make, rightly_lent(0))?;
        }
        Ok(())
    }

    /// The next call of a list, now and then on a damaged endpoint.
    fn compare_next(&mut self, random: &mut Random, manner: &Manner) -> Result<(), Difference> {
        if random.below(50) == 0 {
            self.change_store(random);
        }
        let saved = random.chance(3).then(|| self.left_side.numbers.clone());
        if saved.is_some() {
            self.damage_numbers(random);
        }
        self.compare_random_call(random, manner)?;
        if let Some(saved) = saved {
            // Keep the change if the list can go on with it.
            let endpoint = endpoint_from(&self.left_side.numbers[..NUMBERS]);
            if !endpoint.is_some_and(|endpoint| endpoint.keeps_rules()) {
                self.left_side.numbers.clone_from(&saved);
                self.right_side.numbers.clone_from(&saved);
            }
        }
        Ok(())
    }

    fn compare_random_call(&mut self, random: &mut Random, manner: &Manner) -> Result<(), Difference> {
        let endpoint = endpoint_from(&self.left_side.numbers[..NUMBERS]).unwrap_or(Endpoint {
            began: false,
            down: false,
            last: 0,
            rows: [Row::default(); ROWS],
        });
        let mut bytes = Vec::new();
        let call = if endpoint.down && random.chance(30) {
            LinkCall::Make {
                began: random.chance(50),
            }
        } else {
            self.random_call(random, manner, &endpoint, &mut bytes)
        };
        let lengths = self.random_lengths(random, random_out_length(&call, &endpoint));
        let lengths = Lengths {
            out: vary_out(random, lengths.out),
            ..lengths
        };
        self.compare_call(random, &call, lengths)
    }

    /// One call in both libraries, with the same bytes in both outputs before it.
    fn compare_call(&mut self, random: &mut Random, call: &LinkCall, lengths: Lengths) -> Result<(), Difference> {
        self.before.clone_from(&self.left_side.numbers);
        self.left_side.out.resize(lengths.out + BEHIND, 0);
        random.fill(&mut self.left_side.out);
        self.right_side.out.clone_from(&self.left_side.out);
        let left = self.left_side.call(self.left, call, lengths);
        let right = self.right_side.call(self.right, call, lengths);
        if left != right || !self.sides_agree() {
            return Err(self.describe(call, lengths, left, right));
        }
        self.note(call, left);
        Ok(())
    }

    fn sides_agree(&self) -> bool {
        let (left, right) = (&self.left_side, &self.right_side);
        left.numbers == right.numbers && left.store == right.store && left.out == right.out
    }

    fn note(&mut self, call: &LinkCall, reply: Reply) {
        self.tally.note(reply.number);
        self.deeds.calls += 1;
        match call {
            LinkCall::Open { .. } if reply.number == 0 => self.deeds.sessions += 1,
            LinkCall::Read { .. } => self.deeds.bytes_read += reply.values[0],
            LinkCall::Receive { .. } if reply.number == 0 => {
                self.deeds.records += 1;
                self.deeds.sessions += u64::from(reply.values[0] != 0);
            }
            LinkCall::Run { .. } => self.deeds.records += reply.values[0],
            _ => {}
        }
    }

    fn describe(&self, call: &LinkCall, lengths: Lengths, left: Reply, right: Reply) -> Difference {
        let (a, b) = (&self.left_side, &self.right_side);
        let same = || "the same".to_string();
        let number = a.numbers.iter().zip(&b.numbers).position(|(a, b)| a != b);
        let numbers = number.map(|at| format!("number {at}: {} and {}", a.numbers[at], b.numbers[at]));
        Difference(format!(
            "{}\n  lent {lengths:?}\n  replies {left:?} and {right:?}\n  endpoint {}\n  store {}\n  output {}\n  \
             endpoint before {:?}",
            describe_call(call),
            numbers.unwrap_or_else(same),
            first_difference(&a.store, &b.store).unwrap_or_else(same),
            first_difference(&a.out, &b.out).unwrap_or_else(same),
            self.before
        ))
    }

    /// Mostly what is right.
    fn random_lengths(&self, random: &mut Random, out: usize) -> Lengths {
        let mut lengths = rightly_lent(out);
        match random.below(80) {
            0 => lengths.store = random.pick(&[0, 1, QUEUE, STORE - 1, STORE + 1, STORE + MORE_STORE]),
            1 => lengths.numbers = random.pick(&[0, 1, 3, NUMBERS - 1, NUMBERS + 1, NUMBERS + MORE_NUMBERS]),
            2 => {
                lengths.store = random.pick(&[0, STORE - 1, STORE + 1]);
                lengths.numbers = random.pick(&[0, NUMBERS - 1, NUMBERS + 1]);
            }
            _ => {}
        }
        lengths
    }

    /// Changes a byte of the store in both libraries. No reply may depend on it.
    fn change_store(&mut self, random: &mut Random) {
        let (at, byte) = (random.index(STORE), random.next() as u8);
        self.left_side.store[at] = byte;
        self.right_side.store[at] = byte;
    }

    /// Changes a number of the endpoint in both libraries to one that may break the row rules.
    fn damage_numbers(&mut self, random: &mut Random) {
        let at = match random.below(4) {
            0 => random.index(3),
            _ => 3 + random.index(ROW * ROWS),
        };
        let numbers = &self.left_side.numbers;
        let new = match random.below(6) {
            0 => random.below(4) as u32,
            1 => numbers[at].wrapping_add(1),
            2 => numbers[at].wrapping_sub(1),
            3 => numbers[2].wrapping_add(random.below(2) as u32),
            4 => numbers[3 + ROW * random.index(ROWS) + 1],
            _ => random.odd_number() as u32,
        };
        self.left_side.numbers[at] = new;
        self.right_side.numbers[at] = new;
    }

    /// A call that suits the endpoint, mostly. Data and records are put into `bytes`.
    fn random_call<'b>(
        &mut self,
        random: &mut Random,
        manner: &Manner,
        endpoint: &Endpoint,
        bytes: &'b mut Vec<u8>,
    ) -> LinkCall<'b> {
        let id = random_id(random, manner);
        let row = row_of(id).map_or(Row::default(), |r| endpoint.rows[r]);
        let session = random_session(random, endpoint, &row);
        let ours = (id >= 0x8000) == endpoint.began;
        match random.below(100) {
            0..=24 => {
                random_record(random, manner, endpoint, bytes);
                if random.chance(3) {
                    let length = random.index(bytes.len() + 1);
                    bytes.truncate(length);
                }
                LinkCall::Receive { bytes }
            }
            25..=39 => {
                let records = self.random_stream(random, manner, endpoint, bytes);
                let n = match random.below(5) {
                    0 => random.index(records + 2),
                    1 => records,
                    2 => usize::MAX,
                    _ => 65_536,
                };
                LinkCall::Run { n, bytes }
            }
            40..=43 => LinkCall::Open { id },
            44..=46 => LinkCall::Close { id, session },
            47..=50 => LinkCall::Request {
                id,
                session,
                amount: random_amount(random, &row),
            },
            51..=54 => random_transmit(random, id, session, &row, bytes),
            55..=64 => LinkCall::Read { id, session },
            _ => match row.status {
                Status::Closed if ours => LinkCall::Open { id },
                Status::Closed => {
                    bytes.extend(short_record(OPEN, id));
                    LinkCall::Receive { bytes }
                }
                Status::Open => match random.below(12) {
                    0 => LinkCall::Close { id, session },
                    1..=5 => LinkCall::Request {
                        id,
                        session,
                        amount: random_amount(random, &row),
                    },
                    6..=8 => random_transmit(random, id, session, &row, bytes),
                    _ => LinkCall::Read { id, session },
                },
                Status::Pending => {
                    random_record(random, manner, endpoint, bytes);
                    LinkCall::Receive { bytes }
                }
            },
        }
    }

    /// Several records, each suiting the endpoint after the ones before it; the last may be cut short. Hands back how
    /// many there are.
    fn random_stream(
        &mut self,
        random: &mut Random,
        manner: &Manner,
        endpoint: &Endpoint,
        bytes: &mut Vec<u8>,
    ) -> usize {
        let records = random.index(9);
        let mut trial = *endpoint;
        for _ in 0..records {
            let start = bytes.len();
            random_record(random, manner, &trial, bytes);
            let _ = trial.receive(&mut self.trial_store, &bytes[start..], &mut [0; SHORT]);
        }
        if random.chance(15) {
            let length = random.index(bytes.len() + 1);
            bytes.truncate(length);
        }
        records
    }
}

fn rightly_lent(out: usize) -> Lengths {
    Lengths {
        numbers: NUMBERS,
        store: STORE,
        out,
    }
}

fn random_manner(random: &mut Random) -> Manner {
    let ids = (0..random.within(1, 4)).map(|_| random_served(random)).collect();
    let hostility = random.pick(&[0, 0, 0, 1, 4, 25]);
    Manner { ids, hostility }
}

fn random_served(random: &mut Random) -> u16 {
    random.below(16) as u16 | random.pick(&[0, 0x8000])
}

/// Mostly one that the list favours, now and then one that is not served.
fn random_id(random: &mut Random, manner: &Manner) -> u16 {
    match random.below(40) {
        0 => random.pick(&[16, 0x0100, 0x7FFF, 0x8010, 0x8100, 0xFFFF]),
        1 => random.next() as u16,
        2 | 3 => random_served(random),
        _ => random.pick(&manner.ids),
    }
}

/// Mostly the row's latest.
fn random_session(random: &mut Random, endpoint: &Endpoint, row: &Row) -> u32 {
    match random.below(30) {
        0 => 0,
        1 => row.session.wrapping_sub(1),
        2 => endpoint.last.wrapping_add(random.below(2) as u32),
        3 => endpoint.rows[random.index(ROWS)].session,
        _ => row.session,
    }
}

/// Mostly within what the row may still grant.
fn random_amount(random: &mut Random, row: &Row) -> u32 {
    let room = (QUEUE as u32).saturating_sub(row.unread).saturating_sub(row.input);
    match random.below(16) {
        0 => 0,
        1 => room + 1,
        2 => random.odd_number() as u32,
        3 | 4 => room,
        _ => random.within(u64::from(room.min(1)), u64::from(room)) as u32,
    }
}

/// Mostly within the row's output count.
fn random_transmit<'b>(random: &mut Random, id: u16, session: u32, row: &Row, bytes: &'b mut Vec<u8>) -> LinkCall<'b> {
    let credit = u64::from(row.output.min(1500));
    let length = match random.below(12) {
        0 => 0,
        1 => credit + 1,
        2 => random.below(1200),
        3 | 4 => credit,
        _ => random.within(credit.min(1), credit.min(200)),
    };
    *bytes = random.bytes(length as usize);
    LinkCall::Transmit {
        id,
        session,
        data: bytes,
    }
}

/// The output that the call needs if it is accepted.
fn random_out_length(call: &LinkCall, endpoint: &Endpoint) -> usize {
    match call {
        LinkCall::Make { .. } => 0,
        LinkCall::Open { .. } | LinkCall::Close { .. } | LinkCall::Receive { .. } => SHORT,
        LinkCall::Request { .. } => COUNTED,
        LinkCall::Transmit { data, .. } => COUNTED + data.len(),
        LinkCall::Read { id, .. } => row_of(*id).map_or(0, |r| endpoint.rows[r].unread.min(QUEUE as u32) as usize),
        LinkCall::Run { .. } => SHORT * 4,
    }
}

/// Mostly enough and more, now and then too little.
fn vary_out(random: &mut Random, needed: usize) -> usize {
    match random.below(12) {
        0 => needed.saturating_sub(1),
        1 => random.index(needed + 1),
        2 | 3 => needed,
        4 => 0,
        _ => needed + random.index(AMPLE),
    }
}

fn short_record(opcode: u8, id: u16) -> [u8; SHORT] {
    let [high, low] = id.to_be_bytes();
    [opcode, high, low]
}

fn put_counted(bytes: &mut Vec<u8>, opcode: u8, id: u16, count: u32) {
    bytes.extend(short_record(opcode, id));
    bytes.extend(count.to_be_bytes());
}

/// A record that suits the endpoint, or by the list's hostility one that does not.
fn random_record(random: &mut Random, manner: &Manner, endpoint: &Endpoint, bytes: &mut Vec<u8>) {
    if random.chance(manner.hostility) {
        return hostile_record(random, manner, endpoint, bytes);
    }
    let mut id = random.pick(&manner.ids);
    let mut row = row_of(id).map_or(Row::default(), |r| endpoint.rows[r]);
    if row.status == Status::Closed && (id >= 0x8000) == endpoint.began {
        // Only we may open it, so let the record be about one that they may open.
        id ^= 0x8000;
        row = row_of(id).map_or(Row::default(), |r| endpoint.rows[r]);
    }
    match row.status {
        Status::Closed => bytes.extend(short_record(OPEN, id)),
        Status::Open => match random.below(10) {
            0 => bytes.extend(short_record(CLOSE, id)),
            1..=3 => put_request(random, &row, id, bytes),
            _ => put_transmit(random, &row, id, bytes),
        },
        Status::Pending => match random.below(8) {
            0 => bytes.extend(short_record(CLOSE, id)),
            1 | 2 => bytes.extend(short_record(CLOSEACK, id)),
            3 | 4 => put_request(random, &row, id, bytes),
            _ => put_transmit(random, &row, id, bytes),
        },
    }
}

/// Within what the output count can still take.
fn put_request(random: &mut Random, row: &Row, id: u16, bytes: &mut Vec<u8>) {
    let room = MOST_OUTPUT.saturating_sub(row.output);
    if room == 0 {
        return bytes.extend(short_record(CLOSE, id));
    }
    let count = match random.below(30) {
        0 => room,
        1 => random.within(1, u64::from(room)) as u32,
        _ => random.within(1, u64::from(room.min(900))) as u32,
    };
    put_counted(bytes, REQUEST, id, count);
}

/// Within the input count; a REQUEST if there is none.
fn put_transmit(random: &mut Random, row: &Row, id: u16, bytes: &mut Vec<u8>) {
    if row.input == 0 {
        return put_request(random, row, id, bytes);
    }
    let most = u64::from(row.input.min(QUEUE as u32));
    let count = match random.below(4) {
        0 => most,
        1 => random.within(1, most),
        _ => random.within(1, most.min(40)),
    };
    put_counted(bytes, TRANSMIT, id, count as u32);
    bytes.extend(random.bytes(count as usize));
}

/// A record that may well be a violation.
fn hostile_record(random: &mut Random, manner: &Manner, endpoint: &Endpoint, bytes: &mut Vec<u8>) {
    let id = random_id(random, manner);
    let row = row_of(id).map_or(Row::default(), |r| endpoint.rows[r]);
    let opcode = random.pick(&[OPEN, CLOSE, CLOSEACK, REQUEST, TRANSMIT]);
    match random.below(8) {
        0 => {
            let length = random.index(12);
            bytes.push(random.pick(&[0, OPEN - 1, TRANSMIT + 1, 0xFF]));
            bytes.extend(random.bytes(length));
        }
        1 => {
            let not_served = random.pick(&[16, 0x7FFF, 0x8010, 0xFFFF]);
            put_counted(bytes, opcode, not_served, 1);
        }
        2 => put_counted(bytes, random.pick(&[REQUEST, TRANSMIT]), id, random.odd_number() as u32),
        3 => put_counted(
            bytes,
            REQUEST,
            id,
            MOST_OUTPUT - row.output.saturating_sub(1).min(MOST_OUTPUT),
        ),
        4 => {
            // Above the input count, with or without its data.
            let count = row.input.saturating_add(1).min(2000);
            put_counted(bytes, TRANSMIT, id, count);
            let data = random.pick(&[0, count as usize]);
            bytes.extend(random.bytes(data));
        }
        5 => bytes.extend(short_record(opcode, id)),
        6 => {
            // Any record for any served row, so that it often does not suit the row's state.
            put_counted(bytes, opcode, random_served(random), random.within(1, 3) as u32);
            bytes.extend([1, 2, 3]);
        }
        _ => {
            let length = random.index(10);
            bytes.extend(random.bytes(length));
        }
    }
}

/// An endpoint with a past that keeps the row rules. Its session numbers are often almost spent.
fn random_endpoint(random: &mut Random) -> Endpoint {
    let last = match random.below(3) {
        0 => random.within(40, 1000) as u32,
        _ => u32::MAX - random.below(4) as u32,
    };
    let mut endpoint = Endpoint {
        began: random.chance(50),
        down: random.below(12) == 0,
        last,
        rows: [Row::default(); ROWS],
    };
    for (r, row) in endpoint.rows.iter_mut().enumerate() {
        if random.chance(50) {
            *row = random_row(random, last - r as u32);
        }
        if endpoint.down {
            row.status = Status::Closed;
            row.input = 0;
            row.output = 0;
        }
    }
    endpoint
}

fn random_row(random: &mut Random, session: u32) -> Row {
    let status = random.pick(&[Status::Closed, Status::Open, Status::Open, Status::Pending]);
    let unread = match status {
        Status::Pending => 0,
        _ => random.within(0, QUEUE as u64) as u32,
    };
    let input = match status {
        Status::Closed => 0,
        _ => random.within(0, u64::from(QUEUE as u32 - unread)) as u32,
    };
    let output = match status {
        Status::Open => random.pick(&[0, 1, 300, MOST_OUTPUT - 1, MOST_OUTPUT]),
        _ => 0,
    };
    Row {
        status,
        session,
        input,
        output,
        unread,
    }
}

/// The call in words, its bytes in hex.
fn describe_call(call: &LinkCall) -> String {
    match call {
        LinkCall::Transmit { id, session, data } => {
            format!("transmit on {id:#06x}, session {session}, data {}", hex(data))
        }
        LinkCall::Receive { bytes } => format!("receive of {}", hex(bytes)),
        LinkCall::Run { n, bytes } => format!("run of at most {n} from {}", hex(bytes)),
        _ => format!("{call:?}"),
    }
}
