//! The comparison of reading, reasons, fields, elements, the choice of a version, and writing.

use crate::difference::{first_difference, hex, Difference};
use crate::examples::EXAMPLES;
use crate::faults::{header_faults, header_value, no_version, not_whole, payload_faults, plans, Expected, Faulty};
use crate::layouts::{Made, Plan};
use crate::lent::{Lent, Scale, KINDS};
use crate::library::{report, Ask, Explained, Library, Reply, FIELD_NAME};
use crate::random::Random;
use crate::second::explain::Reason;
use crate::second::message::{Kind, HEADER, MOST_PAYLOAD, VERSIONS};
use crate::second::role;
use crate::tally::{Named, Tally};

/// The roles that are compared one by one: all that exist and some that do not.
const ROLES: u64 = 41;
/// The roles of lists.
const LISTS: [u64; 5] = [
    role::PROTOCOL_VERSIONS,
    role::SERVICES,
    role::QUEUES,
    role::DOMAINS,
    role::MESSAGES,
];
/// Messages above this length are asked about a sample of roles only, as every ask reads the whole message.
const LONG: usize = 2048;
/// Bytes behind a lent output that no writer may touch.
const BEHIND: usize = 32;
/// The bytes lent for a name and those behind it, and what they hold before a call.
const MARKS: usize = FIELD_NAME + BEHIND;
const MARKED: [u8; MARKS] = [0xA5; MARKS];

/// Compares two libraries. Each input has a generator of its own, made of the seed and the input's index.
pub struct Messages<'l> {
    left: &'l dyn Library,
    right: &'l dyn Library,
    seed: u64,
    pub reading: Tally,
    pub writing: Tally,
    /// The fields that were named at fault.
    pub named: Named,
    /// The output before a call, and after it in each library.
    before: Vec<u8>,
    after_left: Vec<u8>,
    after_right: Vec<u8>,
}

impl<'l> Messages<'l> {
    pub fn new(left: &'l dyn Library, right: &'l dyn Library, seed: u64) -> Self {
        Messages {
            left,
            right,
            seed,
            reading: Tally::default(),
            writing: Tally::default(),
            named: Named::default(),
            before: Vec::new(),
            after_left: Vec::new(),
            after_right: Vec::new(),
        }
    }

    /// 003's examples at every version, each also cut short at every length and made longer.
    pub fn compare_examples(&mut self) -> Result<(), Difference> {
        let mut random = Random::new(self.seed, u64::MAX);
        for example in &EXAMPLES {
            let message = example.message();
            for version in 998..=1006 {
                self.compare_bytes(&message, version, &mut random)?;
            }
            for length in 0..message.len() {
                self.compare_bytes(&message[..length], example.version, &mut random)?;
                let mut cut = message[..length].to_vec();
                set_size(&mut cut, length.saturating_sub(HEADER) as u64);
                self.compare_bytes(&cut, example.version, &mut random)?;
            }
            let mut longer = message.clone();
            longer.push(0);
            self.compare_bytes(&longer, example.version, &mut random)?;
            set_size(&mut longer, (message.len() + 1 - HEADER) as u64);
            self.compare_bytes(&longer, example.version, &mut random)?;
        }
        Ok(())
    }

    /// Every field of every type at fault, in every element of lists of several lengths, at every version; each reason
    /// and each place is also compared with what follows from how the fault was made. Gives how many messages there
    /// were.
    pub fn compare_faults(&mut self) -> Result<u64, Difference> {
        let mut random = Random::new(self.seed, u64::MAX - 1);
        let mut count = 0;
        for plan in KINDS.iter().flat_map(|&kind| plans(kind)) {
            let made = Made::new(plan);
            self.compare_versions(plan, &made.whole(), &mut random)?;
            let faults = [payload_faults(&made), not_whole(&made), header_faults(&made)].concat();
            for version in plan.kind.versions() {
                for fault in &faults {
                    self.compare_fault(fault, version, &mut random)?;
                    count += 1;
                }
            }
        }
        Ok(count)
    }

    /// A message without a fault, at versions that have its type, that do not, and that are none.
    fn compare_versions(&mut self, plan: Plan, message: &[u8], random: &mut Random) -> Result<(), Difference> {
        for version in [0, 999, 1005, 1000 + (1 << 32), u64::MAX].into_iter().chain(VERSIONS) {
            let reason = match version {
                _ if plan.kind.versions().contains(&version) => Reason::default(),
                _ if VERSIONS.contains(&version) => header_value(42, "header.type", plan.kind.number()),
                _ => no_version(version),
            };
            self.compare_expected(message, version, &Expected::without_place(reason))?;
            self.compare_bytes(message, version, random)?;
        }
        Ok(())
    }

    fn compare_fault(&mut self, fault: &Faulty, version: u64, random: &mut Random) -> Result<(), Difference> {
        if let Some(expected) = &fault.expected {
            self.compare_expected(&fault.bytes, version, expected)?;
        }
        self.compare_bytes(&fault.bytes, version, random)
    }

    fn compare_expected(&mut self, bytes: &[u8], version: u64, expected: &Expected) -> Result<(), Difference> {
        self.compare_place(bytes, version, expected)?;
        self.compare_reason(bytes, version, &expected.reason)
    }

    /// The number and the place that reading gives in each library, beside those that follow from how the message was
    /// made.
    fn compare_place(&self, bytes: &[u8], version: u64, expected: &Expected) -> Result<(), Difference> {
        let expected = (expected.reason.number, expected.place as u64);
        let [left, right] = [self.left, self.right].map(|library| {
            let reply = library.ask(bytes, version, Ask::Read);
            (reply.number, reply.values[2])
        });
        if left != expected || right != expected {
            return Err(Difference(format!(
                "number and place at version {version}: {left:?} and {right:?}, made to be {expected:?}\n  message {}",
                hex(bytes)
            )));
        }
        Ok(())
    }

    /// The reason that is given, beside the one that follows from how the message was made.
    fn compare_reason(&mut self, bytes: &[u8], version: u64, reason: &Reason) -> Result<(), Difference> {
        let (given, name) = self.explain(bytes, version, FIELD_NAME)?;
        let mut expected_name = MARKED;
        let expected = report(reason, &mut expected_name[..FIELD_NAME]);
        if given != expected || name != expected_name {
            return Err(Difference(format!(
                "the reason at version {version}: both gave {given:?}, it was made to be {reason:?}\n  message {}",
                hex(bytes)
            )));
        }
        Ok(())
    }

    /// The random input with this index.
    pub fn compare_input(&mut self, index: u64) -> Result<(), Difference> {
        let random = &mut Random::new(self.seed, index);
        let kind = random.pick(&KINDS);
        match random.below(100) {
            0..=7 => {
                let length = random.index(120);
                let bytes = random.bytes(length);
                self.compare_bytes(&bytes, random_version(random, kind), random)
            }
            8..=19 => {
                let bytes = junk_payload(random, kind);
                self.compare_bytes(&bytes, random_version(random, kind), random)
            }
            20..=24 => {
                let bytes = xid_message(random);
                self.compare_bytes(&bytes, random_version(random, kind), random)
            }
            25..=44 => self.compare_written(random, kind),
            45..=79 => self.compare_damaged(random, kind),
            80..=98 => self.compare_damaged_writing(random, kind),
            _ => self.compare_choice(random),
        }
        .map_err(|Difference(text)| Difference(format!("message input {index} of seed {}: {text}", self.seed)))
    }

    /// A valid message: its writing, then all its fields and elements.
    fn compare_written(&mut self, random: &mut Random, kind: Kind) -> Result<(), Difference> {
        let lent = random_lent(random, kind);
        self.compare_writing(&lent, random_version(random, kind), random)?;
        match lent.message() {
            Some(message) => self.compare_bytes(&message, newest(kind), random),
            None => Ok(()),
        }
    }

    fn compare_damaged(&mut self, random: &mut Random, kind: Kind) -> Result<(), Difference> {
        let Some(mut message) = random_lent(random, kind).message() else {
            return Ok(());
        };
        damage_message(random, &mut message);
        self.compare_bytes(&message, random_version(random, kind), random)
    }

    fn compare_damaged_writing(&mut self, random: &mut Random, kind: Kind) -> Result<(), Difference> {
        let mut lent = random_lent(random, kind);
        for _ in 0..random.below(3) {
            lent.damage(random);
        }
        self.compare_writing(&lent, random_version(random, kind), random)
    }

    fn compare_choice(&mut self, random: &mut Random) -> Result<(), Difference> {
        let count = random.index(9);
        let offers: Vec<u64> = (0..count)
            .map(|_| match random.below(3) {
                0 => random.odd_number(),
                _ => random.within(996, 1008),
            })
            .collect();
        let (left, right) = (self.left.choose(&offers), self.right.choose(&offers));
        if left != right {
            return Err(Difference(format!("choice of {offers:?}: {left} and {right}")));
        }
        Ok(())
    }

    /// One call in both libraries.
    fn ask(&mut self, bytes: &[u8], version: u64, ask: Ask) -> Result<Reply, Difference> {
        let left = self.left.ask(bytes, version, ask);
        let right = self.right.ask(bytes, version, ask);
        if left != right {
            return Err(Difference(format!(
                "{ask:?} at version {version}: {left:?} and {right:?}\n  message {}",
                hex(bytes)
            )));
        }
        if !matches!(ask, Ask::ChooseVersion) {
            self.reading.note(left.number);
        }
        Ok(left)
    }

    /// The reason in both libraries, with a name of at most `room` bytes.
    fn explain(&self, bytes: &[u8], version: u64, room: usize) -> Result<(Explained, [u8; MARKS]), Difference> {
        let (mut left_name, mut right_name) = (MARKED, MARKED);
        let left = self.left.explain(bytes, version, &mut left_name[..room]);
        let right = self.right.explain(bytes, version, &mut right_name[..room]);
        if left != right || left_name != right_name {
            return Err(Difference(format!(
                "the reason at version {version}, with a name of at most {room} bytes: {left:?} and {right:?}\n  \
                 names {} and {}\n  message {}",
                left_name.escape_ascii(),
                right_name.escape_ascii(),
                hex(bytes)
            )));
        }
        Ok((left, left_name))
    }

    /// The reason, with room for the whole name and with less; its number is the reading's.
    fn compare_explained(&mut self, bytes: &[u8], version: u64, number: u64, room: usize) -> Result<(), Difference> {
        self.explain(bytes, version, room)?;
        let (given, name) = self.explain(bytes, version, FIELD_NAME)?;
        if given.number != number || !self.is_named(bytes, &given, &name) {
            return Err(Difference(format!(
                "the reason at version {version}: both gave {given:?} for a message that is answered {number}, name {}\n  \
                 message {}",
                name.escape_ascii(),
                hex(bytes)
            )));
        }
        Ok(())
    }

    /// Notes the field that is named. Whether there is one that can be at fault so, where a field is to be named.
    fn is_named(&mut self, bytes: &[u8], given: &Explained, name: &[u8]) -> bool {
        let word = name.get(..given.field_size as usize).unwrap_or_default();
        match given.number {
            0 | 40 | 46 => word.is_empty(),
            44 | 45 => self.named.note(type_of(bytes), word, given.number),
            number => self.named.note(0, word, number),
        }
    }

    /// Everything that can be asked of these bytes.
    fn compare_bytes(&mut self, bytes: &[u8], version: u64, random: &mut Random) -> Result<(), Difference> {
        let reading = self.ask(bytes, version, Ask::Read)?;
        self.compare_explained(bytes, version, reading.number, random.index(FIELD_NAME))?;
        self.ask(bytes, version, Ask::Correlation)?;
        self.ask(bytes, version, Ask::ChooseVersion)?;
        if reading.number != 0 {
            return self.compare_refused(bytes, version, random);
        }
        for role in roles(random, bytes.len()) {
            self.ask(bytes, version, Ask::Part(role))?;
            self.ask(bytes, version, Ask::Field(role))?;
            self.ask(bytes, version, Ask::Count(role))?;
        }
        for which in [0, 1, 2, 3, random.odd_number()] {
            self.ask(bytes, version, Ask::Xid(which))?;
        }
        for list in LISTS {
            self.compare_list(bytes, version, list, random)?;
        }
        self.compare_list(bytes, version, random_role(random), random)
    }

    /// A refused message has no fields: one call of each kind is enough.
    fn compare_refused(&mut self, bytes: &[u8], version: u64, random: &mut Random) -> Result<(), Difference> {
        let (role, list, n) = (random_role(random), random.pick(&LISTS), random.below(3));
        self.ask(bytes, version, Ask::Part(role))?;
        self.ask(bytes, version, Ask::Field(role))?;
        self.ask(bytes, version, Ask::Xid(role))?;
        self.ask(bytes, version, Ask::Count(list))?;
        self.ask(bytes, version, Ask::ElementPart { list, n, role })?;
        self.ask(bytes, version, Ask::ElementField { list, n, role })?;
        Ok(())
    }

    /// The elements of a list of an accepted message, and those that it does not have.
    fn compare_list(&mut self, bytes: &[u8], version: u64, list: u64, random: &mut Random) -> Result<(), Difference> {
        let count = self.ask(bytes, version, Ask::Count(list))?.values[0];
        for n in [count, count.wrapping_add(1), random.odd_number()] {
            let role = random_role(random);
            self.ask(bytes, version, Ask::ElementPart { list, n, role })?;
            self.ask(bytes, version, Ask::ElementField { list, n, role })?;
        }
        for n in elements(random, count, bytes.len()) {
            for role in roles(random, bytes.len()) {
                self.ask(bytes, version, Ask::ElementPart { list, n, role })?;
                self.ask(bytes, version, Ask::ElementField { list, n, role })?;
            }
        }
        Ok(())
    }

    /// One writing in both libraries, to outputs of a random length that hold the same random bytes.
    fn compare_writing(&mut self, lent: &Lent, version: u64, random: &mut Random) -> Result<(), Difference> {
        let needed = lent.message().map_or(HEADER, |message| message.len());
        let length = match random.below(8) {
            0 => needed.saturating_sub(1),
            1 => random.index(needed),
            2 => needed + random.index(64),
            3 => HEADER + MOST_PAYLOAD,
            _ => needed,
        };
        self.before.resize(length + BEHIND, 0);
        random.fill(&mut self.before);
        self.after_left.clone_from(&self.before);
        self.after_right.clone_from(&self.before);
        let (head, body) = (lent.head(), lent.body());
        let left = self.left.write(&mut self.after_left[..length], version, head, &body);
        let right = self.right.write(&mut self.after_right[..length], version, head, &body);
        let output = first_difference(&self.after_left, &self.after_right);
        if left != right || output.is_some() {
            return Err(Difference(format!(
                "version {version}, output of {length}: {left:?} and {right:?}, output {}\n  {}",
                output.unwrap_or("the same".into()),
                lent.describe()
            )));
        }
        self.writing.note(left.number);
        Ok(())
    }
}

/// The roles to ask about: all for a short message, a few for a long one, and one that may be any number.
fn roles(random: &mut Random, length: usize) -> Vec<u64> {
    let mut roles: Vec<u64> = match length {
        0..=LONG => (0..ROLES).collect(),
        _ => (0..3).map(|_| random.below(ROLES)).collect(),
    };
    roles.push(random_role(random));
    roles
}

/// Which elements to ask about: all of a short list, else the first, the last and some between.
fn elements(random: &mut Random, count: u64, length: usize) -> Vec<u64> {
    match count {
        0..=4 if length <= LONG => (0..count).collect(),
        0 => Vec::new(),
        _ => vec![0, random.below(count), count - 1],
    }
}

/// A role, or a number that is none; some of those are a role in their lowest bits.
fn random_role(random: &mut Random) -> u64 {
    match random.below(4) {
        0 => random.odd_number(),
        1 => random.below(ROLES) + (1 << random.pick(&[8, 16, 32, 63])),
        _ => random.below(ROLES),
    }
}

fn newest(kind: Kind) -> u64 {
    *kind.versions().end()
}

/// Mostly a version that has the type.
fn random_version(random: &mut Random, kind: Kind) -> u64 {
    match random.below(20) {
        0 => random.within(998, 1006),
        1 => random.pick(&[0, 999, 1005, 1000 + (1 << 32), u64::MAX]),
        2..=4 => random.within(1000, 1004),
        5..=9 => *kind.versions().start(),
        _ => newest(kind),
    }
}

/// Mostly small; now and then with many elements, or at the limit of a message's size.
fn random_lent(random: &mut Random, kind: Kind) -> Lent {
    let (elements, string) = match random.below(100) {
        0 => (1000, 60),
        1..=3 => (60, 40),
        4..=20 => (6, 300),
        21..=30 => (8, 0),
        _ => (4, 24),
    };
    let scale = Scale {
        elements: (0, elements),
        string: (0, string),
    };
    let mut lent = Lent::random(random, kind, scale);
    if random.below(200) == 0 {
        let payload = MOST_PAYLOAD + random.index(4) - 2;
        lent.stretch(random, payload);
    }
    lent
}

/// A header that is right, before bytes of which most are 0, so that sizes and counts are often small.
fn junk_payload(random: &mut Random, kind: Kind) -> Vec<u8> {
    let length = random.index(200);
    let zeros = random.pick(&[50, 80, 95, 100]);
    let payload: Vec<u8> = (0..length)
        .map(|_| match random.chance(zeros) {
            true => 0,
            false => random.below(random_width(zeros)) as u8,
        })
        .collect();
    with_header(random, kind.number(), &payload)
}

/// How large the bytes of junk become: small ones where zeros are many.
fn random_width(zeros: u64) -> u64 {
    match zeros {
        50 => 256,
        _ => 12,
    }
}

/// A 5205 or 5206 with any lengths in its xid, and data that may be cut short or too long.
fn xid_message(random: &mut Random) -> Vec<u8> {
    let kind = random.pick(&[Kind::RollbackRequest, Kind::RollbackReply]);
    let length = |random: &mut Random| match random.below(4) {
        0 => random.odd_number(),
        1 => random.within(62, 67),
        2 => random.within(126, 130),
        _ => random.below(80),
    };
    let (gtrid, bqual) = (length(random), length(random));
    let mut payload = random.bytes(16);
    payload.extend(random.pick(&[0, 1, u64::MAX]).to_be_bytes());
    payload.extend(gtrid.to_be_bytes());
    payload.extend(bqual.to_be_bytes());
    let data = gtrid.wrapping_add(bqual).min(140) as usize;
    payload.extend(random.bytes(data + 8));
    if kind == Kind::RollbackRequest {
        payload.extend(random.bytes(4));
    }
    if random.chance(30) {
        let length = random.index(payload.len());
        payload.truncate(length);
    }
    with_header(random, kind.number(), &payload)
}

fn with_header(random: &mut Random, kind: u64, payload: &[u8]) -> Vec<u8> {
    let mut message = kind.to_be_bytes().to_vec();
    message.extend(random.bytes(16));
    message.extend((payload.len() as u64).to_be_bytes());
    message.extend(payload);
    message
}

/// The type in a header that is there.
fn type_of(message: &[u8]) -> u64 {
    message
        .first_chunk()
        .map_or(0, |kind: &[u8; 8]| u64::from_be_bytes(*kind))
}

fn set_size(message: &mut [u8], size: u64) {
    if let Some(field) = message.get_mut(24..HEADER) {
        field.copy_from_slice(&size.to_be_bytes());
    }
}

/// Changes a valid message in one or two ways.
fn damage_message(random: &mut Random, message: &mut Vec<u8>) {
    for _ in 0..random.within(1, 2) {
        match random.below(9) {
            0 => flip_bit(random, message),
            1 => set_byte(random, message),
            2 => {
                let length = random.index(message.len() + 1);
                message.truncate(length);
            }
            3 => {
                // Cut short, with a size that says so.
                let length = random.index(message.len() + 1);
                message.truncate(length);
                set_size(message, length.saturating_sub(HEADER) as u64);
            }
            4 => {
                // Made longer, with a size that says so or does not.
                let more = random.index(20);
                message.extend(random.bytes(more));
                if random.chance(60) {
                    let size = message.len().saturating_sub(HEADER);
                    set_size(message, size as u64);
                }
            }
            5 => change_size(random, message),
            6 | 7 => change_number(random, message),
            _ => change_type(random, message),
        }
    }
}

fn flip_bit(random: &mut Random, message: &mut [u8]) {
    if !message.is_empty() {
        let at = random.index(message.len());
        message[at] ^= 1 << random.below(8);
    }
}

/// Small values are where modes, states and flags lie.
fn set_byte(random: &mut Random, message: &mut [u8]) {
    if !message.is_empty() {
        let at = random.index(message.len());
        message[at] = random.below(6) as u8;
    }
}

fn change_size(random: &mut Random, message: &mut [u8]) {
    let whole = (message.len() as u64).saturating_sub(HEADER as u64);
    let size = match random.below(4) {
        0 => whole.wrapping_sub(random.below(20)),
        1 => whole + random.below(3),
        2 => MOST_PAYLOAD as u64 + random.below(3),
        _ => random.odd_number(),
    };
    set_size(message, size);
}

/// Finds a small number of eight bytes in the payload (a size, a count, a length) and changes it.
fn change_number(random: &mut Random, message: &mut [u8]) {
    let start = HEADER + random.index(message.len());
    let small = |window: &[u8]| window[..6] == [0; 6];
    let Some(rest) = message.get_mut(start..) else {
        return;
    };
    let Some(at) = rest.windows(8).position(small) else {
        return;
    };
    let field = &mut rest[at..at + 8];
    let old = u64::from(field[6]) << 8 | u64::from(field[7]);
    let new = match random.below(3) {
        0 => old + 1,
        1 => old.wrapping_sub(1),
        _ => random.odd_number(),
    };
    field.copy_from_slice(&new.to_be_bytes());
}

fn change_type(random: &mut Random, message: &mut [u8]) {
    let kind = match random.below(4) {
        0 => random.odd_number(),
        1 => random.pick(&KINDS).number() + (1 << random.pick(&[16, 32, 63])),
        2 => random.pick(&[3100, 3101, 3102, 5201, 5204, 6200, 7204, 7301, 7310, 7312]),
        _ => random.pick(&KINDS).number(),
    };
    if let Some(field) = message.get_mut(..8) {
        field.copy_from_slice(&kind.to_be_bytes());
    }
}
