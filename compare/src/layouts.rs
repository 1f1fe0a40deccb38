//! 003's tables of the eleven types, row by row under their role names, and messages made from them of which it is known
//! where each field stands.

use crate::second::message::Kind;

/// What a row is on the wire.
#[derive(Clone, Copy, PartialEq, Eq)]
pub enum Shape {
    /// So many bytes that may have any value.
    Fixed(usize),
    /// A number of so many bytes: one value that is allowed, and some that are not.
    Judged(usize, u64, &'static [u64]),
    /// The size of the data in the next row.
    Size,
    /// As many bytes as the row before says.
    Data,
    /// How many elements there are; the rows of an element follow.
    Count,
    /// An xid's formatID; if it is 0, the next three rows are not sent.
    Format,
}
use Shape::{Count, Data, Fixed, Format, Judged, Size};

/// A row: its role name, and whether each element of a list has it.
#[derive(Clone, Copy, PartialEq, Eq)]
pub struct Row {
    pub word: &'static str,
    pub shape: Shape,
    pub each: bool,
}

impl Row {
    /// Whether the field has values that are not allowed.
    pub fn is_judged(&self) -> bool {
        matches!(self.shape, Judged(..))
    }
}

const fn row(word: &'static str, shape: Shape) -> Row {
    let each = false;
    Row { word, shape, each }
}

const fn each(word: &'static str, shape: Shape) -> Row {
    let each = true;
    Row { word, shape, each }
}

const EXECUTION: Row = row("execution", Fixed(16));
const DOMAIN_ID: Row = row("domain.id", Fixed(16));
const DOMAIN_NAME_SIZE: Row = row("domain.name.size", Size);
const DOMAIN_NAME_DATA: Row = row("domain.name.data", Data);
const FORMAT: Row = row("xid.formatID", Format);
const GTRID: Row = row("xid.gtrid_length", Judged(8, 3, &[65, 128, 256, u64::MAX]));
/// Beside a gtrid_length of 3 neither 65 nor 125 makes a sum above 128: each half is bounded by itself.
const BQUAL: Row = row("xid.bqual_length", Judged(8, 2, &[65, 125, 1 << 63, u64::MAX]));
const XID_DATA: Row = row("xid.data", Fixed(5));
const RESOURCE: Row = row("resource", Fixed(4));
const MODE: Shape = Judged(2, 3, &[4, 0x0103, 0xFFFF]);
const FLAG: Shape = Judged(1, 1, &[2, 255]);

/// The rows of a type, in their order.
pub fn rows(kind: Kind) -> &'static [Row] {
    match kind {
        Kind::ConnectRequest => &CONNECT_REQUEST,
        Kind::ConnectReply => &CONNECT_REPLY,
        Kind::DisconnectRequest | Kind::DisconnectReply => &[EXECUTION],
        Kind::DiscoveryRequest => &DISCOVERY_REQUEST,
        Kind::TopologyUpdate => &TOPOLOGY_UPDATE,
        Kind::DiscoveryReply => &DISCOVERY_REPLY,
        Kind::ServiceReply => &SERVICE_REPLY,
        Kind::RollbackRequest => &ROLLBACK_REQUEST,
        Kind::RollbackReply => &ROLLBACK_REPLY,
        Kind::DequeueReply => &DEQUEUE_REPLY,
    }
}

const CONNECT_REQUEST: [Row; 6] = [
    EXECUTION,
    DOMAIN_ID,
    DOMAIN_NAME_SIZE,
    DOMAIN_NAME_DATA,
    row("protocol.versions.size", Count),
    each("protocol.versions.element", Fixed(8)),
];

const CONNECT_REPLY: [Row; 5] = [
    EXECUTION,
    DOMAIN_ID,
    DOMAIN_NAME_SIZE,
    DOMAIN_NAME_DATA,
    row("protocol.version", Judged(8, 1004, &[1, 999, 1005, u64::MAX])),
];

const DISCOVERY_REQUEST: [Row; 10] = [
    EXECUTION,
    DOMAIN_ID,
    DOMAIN_NAME_SIZE,
    DOMAIN_NAME_DATA,
    row("content.services.size", Count),
    each("content.services.element.size", Size),
    each("content.services.element.data", Data),
    row("content.queues.size", Count),
    each("content.queues.element.size", Size),
    each("content.queues.element.data", Data),
];

const TOPOLOGY_UPDATE: [Row; 5] = [
    EXECUTION,
    row("domains.size", Count),
    each("domains.element.id", Fixed(16)),
    each("domains.element.name.size", Size),
    each("domains.element.name.data", Data),
];

const DISCOVERY_REPLY: [Row; 19] = [
    EXECUTION,
    DOMAIN_ID,
    DOMAIN_NAME_SIZE,
    DOMAIN_NAME_DATA,
    row("content.services.size", Count),
    each("content.services.element.name.size", Size),
    each("content.services.element.name.data", Data),
    each("content.services.element.category.size", Size),
    each("content.services.element.category.data", Data),
    each("content.services.element.transaction", MODE),
    each("content.services.element.timeout.duration", Fixed(8)),
    each("content.services.element.hops", Fixed(8)),
    row("content.queues.size", Count),
    each("content.queues.element.name.size", Size),
    each("content.queues.element.name.data", Data),
    each("content.queues.element.retry.count", Fixed(8)),
    each("content.queues.element.retry.delay", Fixed(8)),
    each("content.queues.element.enable.enqueue", FLAG),
    each("content.queues.element.enable.dequeue", FLAG),
];

const SERVICE_REPLY: [Row; 8] = [
    EXECUTION,
    row("code.result", Fixed(4)),
    row("code.user", Fixed(8)),
    row("transaction_state", Judged(1, 3, &[4, 255])),
    row("buffer.type.size", Size),
    row("buffer.type.data", Data),
    row("buffer.data.size", Size),
    row("buffer.data.data", Data),
];

const ROLLBACK_REQUEST: [Row; 7] = [
    EXECUTION,
    FORMAT,
    GTRID,
    BQUAL,
    XID_DATA,
    RESOURCE,
    row("flags", Fixed(8)),
];

const ROLLBACK_REPLY: [Row; 7] = [
    EXECUTION,
    FORMAT,
    GTRID,
    BQUAL,
    XID_DATA,
    RESOURCE,
    row("state", Fixed(4)),
];

const DEQUEUE_REPLY: [Row; 14] = [
    EXECUTION,
    row("message.size", Count),
    each("message.element.id", Fixed(16)),
    each("message.element.attributes.properties.size", Size),
    each("message.element.attributes.properties.data", Data),
    each("message.element.attributes.reply.size", Size),
    each("message.element.attributes.reply.data", Data),
    each("message.element.attributes.available", Fixed(8)),
    each("message.element.payload.type.size", Size),
    each("message.element.payload.type.data", Data),
    each("message.element.payload.data.size", Size),
    each("message.element.payload.data.data", Data),
    each("message.element.redelivered", Fixed(8)),
    each("message.element.timestamp", Fixed(8)),
];

/// A field of a message that was made: its row, its element if it is in a list, and its bytes in the payload.
#[derive(Clone, Copy)]
pub struct Spot {
    pub row: &'static Row,
    pub element: Option<u64>,
    pub at: usize,
    pub size: usize,
}

/// How a message is made.
#[derive(Clone, Copy)]
pub struct Plan {
    pub kind: Kind,
    /// The elements of the first list and of the second.
    pub counts: [u64; 2],
    /// Strings have from 1 to so many bytes; with 0 they are empty.
    pub longest: usize,
    /// Whether formatID is other than 0.
    pub has_xid: bool,
}

/// A payload that is accepted, and its fields in their order.
pub struct Made {
    pub payload: Vec<u8>,
    pub spots: Vec<Spot>,
    plan: Plan,
}

impl Made {
    pub fn new(plan: Plan) -> Made {
        let mut made = Made {
            payload: Vec::new(),
            spots: Vec::new(),
            plan,
        };
        let (mut rest, mut counts) = (rows(plan.kind), plan.counts.into_iter());
        while let Some((row, after)) = rest.split_first() {
            let of_element = after.iter().take_while(|row| row.each).count();
            let (element, behind) = after.split_at(of_element);
            rest = behind;
            match row.shape {
                Count => made.put_list(row, element, counts.next().unwrap_or(0)),
                Format if !plan.has_xid => {
                    made.put(row, None, &[0; 8]);
                    rest = &behind[3..];
                }
                _ => made.put_row(row, None),
            }
        }
        made
    }

    fn put_list(&mut self, row: &'static Row, element: &'static [Row], count: u64) {
        self.put(row, None, &count.to_be_bytes());
        for n in 0..count {
            for row in element {
                self.put_row(row, Some(n));
            }
        }
    }

    fn put_row(&mut self, row: &'static Row, element: Option<u64>) {
        match row.shape {
            Fixed(size) => self.put(row, element, &vec![0x5A; size]),
            Judged(width, value, _) => self.put(row, element, &value.to_be_bytes()[8 - width..]),
            Size => self.put(row, element, &(self.next_length() as u64).to_be_bytes()),
            Data => self.put(row, element, &vec![0x78; self.told()]),
            Count | Format => self.put(row, element, &42u64.to_be_bytes()),
        }
    }

    fn put(&mut self, row: &'static Row, element: Option<u64>, bytes: &[u8]) {
        let (at, size) = (self.payload.len(), bytes.len());
        self.spots.push(Spot { row, element, at, size });
        self.payload.extend(bytes);
    }

    /// The length of the next string: lengths differ from one to the next.
    fn next_length(&self) -> usize {
        match self.plan.longest {
            0 => 0,
            longest => 1 + self.spots.len() % longest,
        }
    }

    /// The length that the size just put says; it is below 256.
    fn told(&self) -> usize {
        self.payload.last().map_or(0, |&length| length.into())
    }

    /// A message with this payload and any size in its header.
    pub fn message(&self, size: u64) -> Vec<u8> {
        let mut message = self.plan.kind.number().to_be_bytes().to_vec();
        message.extend([0x11; 16]);
        message.extend(size.to_be_bytes());
        message.extend(&self.payload);
        message
    }

    /// The message that is accepted.
    pub fn whole(&self) -> Vec<u8> {
        self.message(self.payload.len() as u64)
    }

    /// The message with another value in a field.
    pub fn with(&self, spot: &Spot, value: u64) -> Vec<u8> {
        let mut message = self.whole();
        let at = crate::second::message::HEADER + spot.at;
        message[at..at + spot.size].copy_from_slice(&value.to_be_bytes()[8 - spot.size..]);
        message
    }

    /// How many elements the list with this count has.
    pub fn count(&self, spot: &Spot) -> u64 {
        let mut bytes = [0; 8];
        bytes.copy_from_slice(&self.payload[spot.at..spot.at + 8]);
        u64::from_be_bytes(bytes)
    }

    /// Whether no field stands behind the elements of the list with this count.
    pub fn is_last_list(&self, spot: &Spot) -> bool {
        rows(self.plan.kind).iter().rfind(|row| !row.each) == Some(spot.row)
    }

    /// The first field of an element of the list with this count, as it would stand at the payload's end.
    pub fn first_of_element(&self, spot: &Spot) -> Option<Spot> {
        let rows = rows(self.plan.kind);
        let at = rows.iter().position(|row| row == spot.row)?;
        let row = rows.get(at + 1)?;
        let size = match row.shape {
            Fixed(size) => size,
            _ => 8,
        };
        Some(Spot {
            row,
            element: Some(self.count(spot)),
            at: self.payload.len(),
            size,
        })
    }
}
