//! Messages with one fault each, and the reason and the place that follow from how each was made: every field of every
//! type, in every element, and all that stands before the payload.

use crate::layouts::{Made, Plan, Shape, Spot};
use crate::second::explain::Reason;
use crate::second::message::{Kind, HEADER, MOST_PAYLOAD};

/// The counts of lists.
const COUNTS: [u64; 5] = [0, 1, 2, 3, 7];

/// Bytes with a fault. What reading says is not known from the making where a count changes what the fields behind it
/// are.
#[derive(Clone)]
pub struct Faulty {
    pub bytes: Vec<u8>,
    pub expected: Option<Expected>,
}

/// Why a message is refused, and the payload offset that reading gives beside the number: 0 for all but 44, 45 and 46.
#[derive(Clone, Copy)]
pub struct Expected {
    pub reason: Reason,
    pub place: usize,
}

impl Expected {
    pub fn without_place(reason: Reason) -> Expected {
        Expected { reason, place: 0 }
    }
}

/// All plans of a type: every count of its lists, with and without an xid, strings of several lengths or none.
pub fn plans(kind: Kind) -> Vec<Plan> {
    let (first, second): (&[u64], &[u64]) = match kind {
        Kind::DiscoveryRequest | Kind::DiscoveryReply => (&COUNTS, &COUNTS),
        Kind::ConnectRequest | Kind::TopologyUpdate | Kind::DequeueReply => (&COUNTS, &[0]),
        _ => (&[0], &[0]),
    };
    let plan = |counts, longest, has_xid| Plan {
        kind,
        counts,
        longest,
        has_xid,
    };
    let counts = first.iter().flat_map(|&a| second.iter().map(move |&b| [a, b]));
    counts
        .flat_map(|counts| [plan(counts, 3, true), plan(counts, 0, true), plan(counts, 3, false)])
        .collect()
}

/// Every fault of a message's payload.
pub fn payload_faults(made: &Made) -> Vec<Faulty> {
    let mut faults = left_over(made);
    for (n, spot) in made.spots.iter().enumerate() {
        faults.extend(cut(made, n));
        match spot.row.shape {
            Shape::Size => faults.extend(too_long(made, n)),
            Shape::Count => faults.extend(miscounted(made, spot)),
            Shape::Judged(_, _, wrong) => faults.extend(wrong.iter().map(|&value| not_allowed(made, spot, value))),
            _ => {}
        }
    }
    faults
}

/// Where it is reported that a field does not fit: at its first byte, but of a string's data at its size, which is the
/// field before (02's T-02). An xid's data is no string.
fn place_of(made: &Made, n: usize) -> usize {
    match made.spots[n].row.shape {
        Shape::Data => made.spots[n - 1].at,
        _ => made.spots[n].at,
    }
}

/// The payload ends at each byte of the field; what is behind it is there, but does not belong to the message.
fn cut(made: &Made, n: usize) -> impl Iterator<Item = Faulty> + '_ {
    let (spot, place) = (&made.spots[n], place_of(made, n));
    (0..spot.size).map(move |had| Faulty {
        bytes: made.message((spot.at + had) as u64),
        expected: Some(past(spot, spot.size as u64, had, place)),
    })
}

/// A size that is above the bytes there are, by one and by more.
fn too_long(made: &Made, n: usize) -> impl Iterator<Item = Faulty> + '_ {
    let (size, data, place) = (&made.spots[n], &made.spots[n + 1], place_of(made, n + 1));
    let had = made.payload.len() - data.at;
    let sizes = [had as u64 + 1, 65_536, 1 << 32, 1 << 63, u64::MAX];
    sizes.into_iter().map(move |needed| Faulty {
        bytes: made.with(size, needed),
        expected: Some(past(data, needed, had, place)),
    })
}

/// A count that is above the elements there are, or below. Behind the last list nothing stands, so that the element
/// which is not there has no byte.
fn miscounted<'a>(made: &'a Made, spot: &'a Spot) -> impl Iterator<Item = Faulty> + 'a {
    let count = made.count(spot);
    let missing = match made.is_last_list(spot) {
        true => made
            .first_of_element(spot)
            .map(|first| past(&first, first.size as u64, 0, first.at)),
        false => None,
    };
    let above = [count + 1, count + 2, 1 << 32, u64::MAX]
        .into_iter()
        .map(move |value| (value, missing));
    let below = (0..count).map(|value| (value, None));
    above.chain(below).map(|(value, expected)| Faulty {
        bytes: made.with(spot, value),
        expected,
    })
}

fn not_allowed(made: &Made, spot: &Spot, value: u64) -> Faulty {
    let reason = Reason {
        number: 45,
        field: Some(spot.row.word),
        element: spot.element,
        value: Some(value),
        ..Reason::default()
    };
    Faulty {
        bytes: made.with(spot, value),
        expected: Some(Expected { reason, place: spot.at }),
    }
}

/// Bytes behind the last field.
fn left_over(made: &Made) -> Vec<Faulty> {
    let longer = |left: usize| {
        let place = made.payload.len();
        let mut bytes = made.message((place + left) as u64);
        bytes.resize(bytes.len() + left, 0);
        let reason = Reason {
            number: 46,
            left: Some(left as u64),
            ..Reason::default()
        };
        let expected = Some(Expected { reason, place });
        Faulty { bytes, expected }
    };
    vec![longer(1), longer(2), longer(100)]
}

/// A field that needs more bytes than the payload has from its first one on.
fn past(spot: &Spot, needed: u64, had: usize, place: usize) -> Expected {
    let reason = Reason {
        number: 44,
        field: Some(spot.row.word),
        element: spot.element,
        needed_had: Some((needed, had as u64)),
        ..Reason::default()
    };
    Expected { reason, place }
}

/// The message cut short at each byte, with its size as it was.
pub fn not_whole(made: &Made) -> Vec<Faulty> {
    let whole = made.whole();
    let reason = |length: usize| match length {
        0..HEADER => short("header", HEADER, length),
        _ => short("payload", made.payload.len(), length - HEADER),
    };
    let cut = |length| Faulty {
        bytes: whole[..length].to_vec(),
        expected: Some(Expected::without_place(reason(length))),
    };
    (0..whole.len()).map(cut).collect()
}

fn short(field: &'static str, needed: usize, had: usize) -> Reason {
    Reason {
        number: 1,
        field: Some(field),
        needed_had: Some((needed as u64, had as u64)),
        ..Reason::default()
    }
}

/// Types that there are not, and sizes above the limit.
pub fn header_faults(made: &Made) -> Vec<Faulty> {
    let whole = made.whole();
    let kind = u64::from(whole[6]) << 8 | u64::from(whole[7]);
    let set = |number, field, at: usize, value: u64| {
        let mut bytes = whole.clone();
        bytes[at..at + 8].copy_from_slice(&value.to_be_bytes());
        Faulty {
            bytes,
            expected: Some(Expected::without_place(header_value(number, field, value))),
        }
    };
    let types = [0, 3100, 3102, 7204, kind + (1 << 16), kind + (1 << 32), u64::MAX];
    let types = types.map(|value| set(41, "header.type", 0, value));
    let sizes = [MOST_PAYLOAD as u64 + 1, 1 << 32, u64::MAX].map(|value| set(43, "header.size", 24, value));
    types.into_iter().chain(sizes).collect()
}

/// A value of the header that is at fault.
pub fn header_value(number: u64, field: &'static str, value: u64) -> Reason {
    Reason {
        number,
        field: Some(field),
        value: Some(value),
        ..Reason::default()
    }
}

/// A version that cannot be agreed.
pub fn no_version(version: u64) -> Reason {
    Reason {
        number: 40,
        value: Some(version),
        ..Reason::default()
    }
}
