//! Refused messages of 65,536 bytes, of every type and most of them refused early, and the number that 01 gives for each.

use crate::layouts::{Made, Plan, Shape};
use crate::lent::KINDS;
use crate::second::message::{Kind, MOST_PAYLOAD};

/// A refused message, the version at which it is read, and the number of its refusal.
pub struct Refused {
    pub name: String,
    pub version: u64,
    pub bytes: Vec<u8>,
    pub number: u64,
}

impl Refused {
    /// A message of a type, at the newest version that has it.
    pub fn new(kind: Kind, what: &str, bytes: Vec<u8>, number: u64) -> Self {
        Refused {
            name: format!("{} {what}", kind.number()),
            version: *kind.versions().end(),
            bytes,
            number,
        }
    }
}

/// A size or a count that is far above what a payload has room for.
const HUGE: u64 = 1 << 40;

/// Those that are refused before their payload, then those of each type.
pub fn refused_of_all_types() -> Vec<Refused> {
    let payloads = KINDS
        .into_iter()
        .flat_map(|kind| [fields(kind), counts(kind), left_over(kind)]);
    headers().into_iter().chain(payloads.flatten()).collect()
}

/// One for each number that is given before the payload is looked at.
fn headers() -> Vec<Refused> {
    let request = bare(Kind::ConnectRequest);
    let mut unknown = request.whole();
    unknown[..8].copy_from_slice(&7199u64.to_be_bytes());
    let reply = bare(Kind::DiscoveryReply).whole();
    let too_large = request.message(MOST_PAYLOAD as u64 + 1);
    let row = |what: &str, version, bytes, number| Refused {
        name: format!("header, {what}"),
        version,
        bytes,
        number,
    };
    vec![
        row("version 999", 999, request.whole(), 40),
        row("type 7199", 1004, unknown, 41),
        row("type 7311 at version 1000", 1000, reply, 42),
        row("size 65,505", 1004, too_large, 43),
    ]
}

/// Each string whose data runs past, and each number with a value that is not allowed; in lists, those of the first
/// element.
fn fields(kind: Kind) -> Vec<Refused> {
    let made = full(kind);
    let spots = made.spots.iter().enumerate();
    spots
        .filter_map(|(n, spot)| match spot.row.shape {
            Shape::Size => Some((made.spots[n + 1].row.word, made.with(spot, HUGE), 44)),
            Shape::Judged(_, _, wrong) => Some((spot.row.word, made.with(spot, wrong[0]), 45)),
            _ => None,
        })
        .map(|(word, bytes, number)| Refused::new(kind, word, bytes, number))
        .collect()
}

/// Each list with a count that is too large. All bytes behind it are 0, so that no element has a value that is not
/// allowed and one of them runs past.
fn counts(kind: Kind) -> Vec<Refused> {
    let made = bare(kind);
    let lists = made.spots.iter().filter(|spot| spot.row.shape == Shape::Count);
    lists
        .map(|spot| Refused::new(kind, &format!("{} too large", spot.row.word), made.with(spot, HUGE), 44))
        .collect()
}

/// Bytes behind the last field; without elements and xid too, if the type can have them.
fn left_over(kind: Kind) -> Vec<Refused> {
    let (full, bare) = (full(kind), bare(kind));
    let mut rows = vec![Refused::new(kind, "bytes left over", full.whole(), 46)];
    if bare.spots.len() < full.spots.len() {
        let what = "bytes left over, no element or xid";
        rows.push(Refused::new(kind, what, bare.whole(), 46));
    }
    rows
}

/// One element in each list, an xid, and 0 in all bytes behind the last field.
fn full(kind: Kind) -> Made {
    padded(kind, 1, true)
}

/// Empty lists, formatID 0, and 0 in all bytes behind the last field.
fn bare(kind: Kind) -> Made {
    padded(kind, 0, false)
}

fn padded(kind: Kind, count: u64, has_xid: bool) -> Made {
    let mut made = Made::new(Plan {
        kind,
        counts: [count; 2],
        longest: 3,
        has_xid,
    });
    made.payload.resize(MOST_PAYLOAD, 0);
    made
}
