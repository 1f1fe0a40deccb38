//! The comparison notices errors: the second implementation against copies of it that are damaged in one way each,
//! among them the errors that look right by 01. A copy that is not damaged must show no difference.

use sootlark_compare::library::{Ask, Explained, Lend, Library, LinkCall, Reply, Second, HAS_ELEMENT, HAS_FIELD};
use sootlark_compare::links::Links;
use sootlark_compare::messages::Messages;
use sootlark_compare::second::explain::explain as reason_of;
use sootlark_compare::second::link::{row_of, Status, CLOSE, OPEN, QUEUE, REQUEST, STORE, TRANSMIT};
use sootlark_compare::second::message::{choose, HEADER, MOST_PAYLOAD};
use sootlark_compare::second::mirror::{endpoint_from, NUMBERS, ROW};
use sootlark_compare::second::write::{Body, Head, Services};

type AskFn = fn(&[u8], u64, Ask) -> Reply;
type ExplainFn = fn(&[u8], u64, &mut [u8]) -> Explained;
type ChooseFn = fn(&[u64]) -> u64;
type WriteFn = fn(&mut [u8], u64, Head, &Body) -> Reply;
type LinkFn = fn(&LinkCall, Lend) -> Reply;

/// A library in which one call may be damaged.
#[derive(Clone, Copy)]
struct Candidate {
    ask: AskFn,
    explain: ExplainFn,
    choose: ChooseFn,
    write: WriteFn,
    link: LinkFn,
}

const SOUND: Candidate = Candidate {
    ask,
    explain,
    choose: |offers| Second.choose(offers),
    write,
    link,
};

fn ask(bytes: &[u8], version: u64, ask: Ask) -> Reply {
    Second.ask(bytes, version, ask)
}

fn explain(bytes: &[u8], version: u64, field: &mut [u8]) -> Explained {
    Second.explain(bytes, version, field)
}

fn write(out: &mut [u8], version: u64, head: Head, body: &Body) -> Reply {
    Second.write(out, version, head, body)
}

fn link(call: &LinkCall, lend: Lend) -> Reply {
    Second.link(call, lend)
}

impl Library for Candidate {
    fn ask(&self, message: &[u8], version: u64, ask: Ask) -> Reply {
        (self.ask)(message, version, ask)
    }

    fn explain(&self, message: &[u8], version: u64, field: &mut [u8]) -> Explained {
        (self.explain)(message, version, field)
    }

    fn choose(&self, offers: &[u64]) -> u64 {
        (self.choose)(offers)
    }

    fn write(&self, out: &mut [u8], version: u64, head: Head, body: &Body) -> Reply {
        (self.write)(out, version, head, body)
    }

    fn link(&self, call: &LinkCall, lend: Lend) -> Reply {
        (self.link)(call, lend)
    }
}

/// Whether comparing messages shows a difference.
fn messages_differ(candidate: Candidate, inputs: u64) -> bool {
    let mut messages = Messages::new(&candidate, &Second, 1);
    messages.compare_examples().is_err() || (0..inputs).any(|index| messages.compare_input(index).is_err())
}

/// Whether comparing lists of calls shows a difference.
fn links_differ(candidate: Candidate, lists: u64) -> bool {
    let mut links = Links::new(&candidate, &Second, 1);
    (0..lists).any(|index| links.compare_list(index).is_err())
}

fn asks_noticed(name: &str, ask: AskFn) {
    assert!(
        messages_differ(Candidate { ask, ..SOUND }, 20_000),
        "not noticed: {name}"
    );
}

/// Whether a damaged reason shows, in messages with one fault each.
fn reasons_noticed(name: &str, explain: ExplainFn) {
    let candidate = Candidate { explain, ..SOUND };
    let mut messages = Messages::new(&candidate, &Second, 1);
    assert!(messages.compare_faults().is_err(), "not noticed: {name}");
}

/// Whether a damaged place shows: beside a sound library, and in messages with one fault each even if both libraries
/// are damaged in the same way, as the place follows from how the message was made.
fn places_noticed(name: &str, ask: AskFn) {
    asks_noticed(name, ask);
    let candidate = Candidate { ask, ..SOUND };
    let mut messages = Messages::new(&candidate, &candidate, 1);
    assert!(messages.compare_faults().is_err(), "not noticed in both: {name}");
}

fn writes_noticed(name: &str, write: WriteFn) {
    assert!(
        messages_differ(Candidate { write, ..SOUND }, 20_000),
        "not noticed: {name}"
    );
}

fn links_noticed(name: &str, link: LinkFn) {
    assert!(links_differ(Candidate { link, ..SOUND }, 5_000), "not noticed: {name}");
}

#[test]
fn a_sound_copy_shows_no_difference() {
    assert!(!messages_differ(SOUND, 500));
    assert!(Messages::new(&SOUND, &Second, 1).compare_faults().is_ok());
    assert!(!links_differ(SOUND, 100));
}

#[test]
fn damaged_reading() {
    asks_noticed("bytes after the last field accepted", |bytes, version, asked| {
        match (ask(bytes, version, asked), asked) {
            (Reply { number: 46, values }, Ask::Read) => Reply::done([7302, HEADER as u64 + values[2], 0]),
            (reply, _) => reply,
        }
    });
    asks_noticed("the type reported beside a refusal", |bytes, version, asked| {
        let mut reply = ask(bytes, version, asked);
        if let (44, Ask::Read) = (reply.number, asked) {
            reply.values[0] = u64::from(bytes[6]) << 8 | u64::from(bytes[7]);
        }
        reply
    });
    asks_noticed(
        "bytes behind the message looked at",
        |bytes, version, asked| match ask(bytes, version, asked) {
            reply if matches!(asked, Ask::Read) && reply.number == 0 && reply.values[1] < bytes.len() as u64 => {
                Reply::refused(46)
            }
            reply => reply,
        },
    );
    asks_noticed("43 before 42", |bytes, version, asked| {
        match ask(bytes, version, asked) {
            reply if reply.number == 42 && bytes[24..30] != [0; 6] => Reply::refused(43),
            reply => reply,
        }
    });
    asks_noticed("1 for the payload before 43", |bytes, version, asked| {
        match ask(bytes, version, asked) {
            reply if reply.number == 43 && bytes.len() < HEADER + MOST_PAYLOAD => Reply::refused(1),
            reply => reply,
        }
    });
    asks_noticed("the version narrowed", |bytes, version, asked| {
        ask(bytes, version & 0xFFFF, asked)
    });
    asks_noticed("no place beside a refused field", |bytes, version, asked| {
        let mut reply = ask(bytes, version, asked);
        if let (44..=46, Ask::Field(_)) = (reply.number, asked) {
            reply.values[1] = 0;
        }
        reply
    });
    asks_noticed("no place beside a refused correlation", |bytes, version, asked| {
        let mut reply = ask(bytes, version, asked);
        if let (44..=46, Ask::Correlation) = (reply.number, asked) {
            reply.values[2] = 0;
        }
        reply
    });
    asks_noticed("no place beside a refused part", |bytes, version, asked| {
        let mut reply = ask(bytes, version, asked);
        if let (44..=46, Ask::Part(_)) = (reply.number, asked) {
            reply.values[2] = 0;
        }
        reply
    });
    asks_noticed("no place beside a refused element's part", |bytes, version, asked| {
        let mut reply = ask(bytes, version, asked);
        if let (44..=46, Ask::ElementPart { .. }) = (reply.number, asked) {
            reply.values[2] = 0;
        }
        reply
    });
}

/// Reading's reply, with another place where a field of one sort runs past.
fn moved(bytes: &[u8], version: u64, asked: Ask, by: i64, is_moved: fn(&str) -> bool) -> Reply {
    let mut reply = ask(bytes, version, asked);
    if let (44, Ask::Read) = (reply.number, asked) {
        if reason_of(bytes, version).field.is_some_and(is_moved) {
            reply.values[2] = reply.values[2].wrapping_add_signed(by);
        }
    }
    reply
}

/// Whether a role name is that of a string's data; an xid's data is none.
fn is_string_data(word: &str) -> bool {
    word.ends_with(".data") && word != "xid.data"
}

/// Places by 02's T-02: a string whose data runs past is answered at its size, eight bytes before the data.
#[test]
fn damaged_places() {
    places_noticed("a string's data answered at its own place", |bytes, version, asked| {
        moved(bytes, version, asked, 8, is_string_data)
    });
    places_noticed(
        "only text answered at its size, not binary data",
        |bytes, version, asked| moved(bytes, version, asked, 8, |word| word.ends_with(".data.data")),
    );
    places_noticed(
        "only strings outside lists answered at their size",
        |bytes, version, asked| {
            moved(bytes, version, asked, 8, |word| {
                is_string_data(word) && word.contains(".element.")
            })
        },
    );
    places_noticed(
        "a string's data answered at what stands before its size",
        |bytes, version, asked| moved(bytes, version, asked, -8, is_string_data),
    );
    places_noticed(
        "an xid's data answered at the length before it",
        |bytes, version, asked| moved(bytes, version, asked, -8, |word| word == "xid.data"),
    );
    places_noticed(
        "a string's size answered eight bytes before itself",
        |bytes, version, asked| {
            moved(bytes, version, asked, -8, |word| {
                word.ends_with("name.size") || word.ends_with("data.size")
            })
        },
    );
    places_noticed(
        "a list's count answered eight bytes before itself",
        |bytes, version, asked| moved(bytes, version, asked, -8, |word| word == "content.queues.size"),
    );
    places_noticed(
        "everything but a string's data answered eight bytes before",
        |bytes, version, asked| moved(bytes, version, asked, -8, |word| !is_string_data(word)),
    );
    places_noticed("a value's place moved as a string's", |bytes, version, asked| {
        let mut reply = ask(bytes, version, asked);
        if let (45, Ask::Read) = (reply.number, asked) {
            reply.values[2] -= 8;
        }
        reply
    });
}

/// Where the two lengths of an xid stand in a 5205 or 5206.
const GTRID: usize = HEADER + 24;
const BQUAL: usize = HEADER + 32;

/// The two lengths of the xid of a message.
fn halves(bytes: &[u8]) -> Option<(u64, u64)> {
    let number = |at: usize| Some(u64::from_be_bytes(bytes.get(at..at + 8)?.try_into().ok()?));
    let has_xid = matches!(number(0)?, 5205 | 5206) && number(HEADER + 16)? != 0;
    has_xid.then_some((number(GTRID)?, number(BQUAL)?))
}

/// The reply of a library that accepts more halves of an xid: it reads two others of the same sum in their stead.
fn accepting(bytes: &[u8], version: u64, asked: Ask, is_accepted: fn(u64, u64) -> bool) -> Reply {
    let Some((gtrid, bqual)) = halves(bytes).filter(|&(gtrid, bqual)| is_accepted(gtrid, bqual)) else {
        return ask(bytes, version, asked);
    };
    let sum = gtrid.wrapping_add(bqual);
    let mut other = bytes.to_vec();
    other[GTRID..BQUAL].copy_from_slice(&(sum / 2).to_be_bytes());
    other[BQUAL..BQUAL + 8].copy_from_slice(&(sum - sum / 2).to_be_bytes());
    ask(&other, version, asked)
}

/// The limits of an xid's halves by 02's T-03, in reading: 64 each, the first one first.
#[test]
fn damaged_limits() {
    asks_noticed("a first half of 65", |bytes, version, asked| {
        accepting(bytes, version, asked, |gtrid, bqual| gtrid == 65 && bqual < 64)
    });
    asks_noticed("a second half of 65", |bytes, version, asked| {
        accepting(bytes, version, asked, |gtrid, bqual| gtrid < 64 && bqual == 65)
    });
    asks_noticed("a second half bounded by the sum", |bytes, version, asked| {
        accepting(bytes, version, asked, |gtrid, bqual| {
            gtrid <= 64 && bqual > 64 && bqual <= 128 - gtrid
        })
    });
    asks_noticed("halves added before either is bounded", |bytes, version, asked| {
        accepting(bytes, version, asked, |gtrid, bqual| {
            (gtrid > 64 || bqual > 64) && gtrid.wrapping_add(bqual) <= 128
        })
    });
    places_noticed("a half above 64 answered at the other one", |bytes, version, asked| {
        let mut reply = ask(bytes, version, asked);
        if let (45, 24 | 32, Ask::Read, Some(_)) = (reply.number, reply.values[2], asked, halves(bytes)) {
            reply.values[2] ^= 24 ^ 32;
        }
        reply
    });
    asks_noticed(
        "a second length missed before the first is judged",
        |bytes, version, asked| match (ask(bytes, version, asked), asked) {
            (reply, Ask::Read) if reply.number == 45 && reply.values[2] == 24 && cut_in_bqual(bytes) => Reply {
                number: 44,
                values: [0, 0, 32],
            },
            (reply, _) => reply,
        },
    );
}

/// Whether the payload of a message ends before the second length of an xid does.
fn cut_in_bqual(bytes: &[u8]) -> bool {
    bytes[24..31].iter().all(|&byte| byte == 0) && usize::from(bytes[31]) < BQUAL + 8 - HEADER
}

/// The name that a reason gave.
fn name_of<'f>(given: &Explained, field: &'f [u8]) -> &'f [u8] {
    &field[..given.field_size as usize]
}

/// The same reason under another name.
fn renamed(mut given: Explained, name: &[u8], field: &mut [u8]) -> Explained {
    let size = name.len().min(field.len());
    field[..size].copy_from_slice(&name[..size]);
    given.field_size = size as u64;
    given
}

#[test]
fn damaged_reasons() {
    reasons_noticed("the size named for its data", |bytes, version, field| {
        let given = explain(bytes, version, field);
        match name_of(&given, field).strip_suffix(b".data") {
            Some(b"xid") | None => given,
            Some(stem) => renamed(given, &[stem, b".size"].concat(), field),
        }
    });
    reasons_noticed("a neighbour's name", |bytes, version, field| {
        let given = explain(bytes, version, field);
        match name_of(&given, field) {
            b"content.queues.element.enable.dequeue" => renamed(given, b"content.queues.element.enable.enqueue", field),
            _ => given,
        }
    });
    reasons_noticed("another type's name", |bytes, version, field| {
        let given = explain(bytes, version, field);
        match name_of(&given, field) {
            b"transaction_state" => renamed(given, b"transaction.state", field),
            _ => given,
        }
    });
    reasons_noticed("elements counted from 1", |bytes, version, field| {
        let mut given = explain(bytes, version, field);
        given.element += u64::from(given.parts & HAS_ELEMENT != 0);
        given
    });
    reasons_noticed("elements counted through both lists", |bytes, version, field| {
        let mut given = explain(bytes, version, field);
        if name_of(&given, field).starts_with(b"content.queues.element") {
            given.element += 1;
        }
        given
    });
    reasons_noticed("had counted from the size", |bytes, version, field| {
        let mut given = explain(bytes, version, field);
        if name_of(&given, field).ends_with(b".name.data") {
            given.had += 8;
        }
        given
    });
    reasons_noticed("had with the bytes behind the message", |bytes, version, field| {
        let mut given = explain(bytes, version, field);
        if given.number == 44 && bytes[30] == 0 {
            given.had += bytes.len() as u64 - HEADER as u64 - u64::from(bytes[31]);
        }
        given
    });
    reasons_noticed("an element beside a list's count", |bytes, version, field| {
        let mut given = explain(bytes, version, field);
        if name_of(&given, field) == b"content.queues.size" {
            given.parts |= HAS_ELEMENT;
        }
        given
    });
    reasons_noticed("the sum of an xid's lengths as the value", |bytes, version, field| {
        let mut given = explain(bytes, version, field);
        if name_of(&given, field) == b"xid.bqual_length" && given.number == 45 {
            given.value = given.value.wrapping_add(u64::from(bytes[HEADER + 31]));
        }
        given
    });
    reasons_noticed("a count that lies named itself", |bytes, version, field| {
        let given = explain(bytes, version, field);
        match name_of(&given, field) {
            b"protocol.versions.element" if given.had == 0 => renamed(given, b"protocol.versions.size", field),
            _ => given,
        }
    });
    reasons_noticed("the whole message for the payload", |bytes, version, field| {
        let mut given = explain(bytes, version, field);
        if name_of(&given, field) == b"payload" {
            given.needed += HEADER as u64;
            given.had += HEADER as u64;
        }
        given
    });
    reasons_noticed("the version as 42's value", |bytes, version, field| {
        let mut given = explain(bytes, version, field);
        if given.number == 42 {
            given.value = version;
        }
        given
    });
    reasons_noticed("a field beside 40", |bytes, version, field| {
        let mut given = explain(bytes, version, field);
        if given.number == 40 {
            given.parts |= HAS_FIELD;
        }
        given
    });
    reasons_noticed("one byte less left over", |bytes, version, field| {
        let mut given = explain(bytes, version, field);
        given.left = given.left.saturating_sub(1);
        given
    });
    reasons_noticed("a name longer than its room", |bytes, version, field| {
        let mut given = explain(bytes, version, field);
        if given.parts & HAS_FIELD != 0 && field.len() < 6 {
            given.field_size = 6;
        }
        given
    });
    reasons_noticed("a byte behind the name", |bytes, version, field| {
        let given = explain(bytes, version, field);
        if let Some(behind) = field.get_mut(given.field_size as usize) {
            *behind = 0;
        }
        given
    });
}

#[test]
fn damaged_fields_and_elements() {
    asks_noticed("element n at the count", |bytes, version, asked| match asked {
        Ask::ElementPart { list, n, role } => {
            let count = ask(bytes, version, Ask::Count(list)).values[0];
            let n = if n == count { n.saturating_sub(1) } else { n };
            ask(bytes, version, Ask::ElementPart { list, n, role })
        }
        _ => ask(bytes, version, asked),
    });
    asks_noticed("a role narrowed to a byte", |bytes, version, asked| match asked {
        Ask::Part(role) => ask(bytes, version, Ask::Part(role & 0xFF)),
        _ => ask(bytes, version, asked),
    });
    asks_noticed("an index narrowed to 32 bits", |bytes, version, asked| match asked {
        Ask::ElementField { list, n, role } => {
            let n = n & 0xFFFF_FFFF;
            ask(bytes, version, Ask::ElementField { list, n, role })
        }
        _ => ask(bytes, version, asked),
    });
    asks_noticed("50 for a list that is not there", |bytes, version, asked| {
        match (ask(bytes, version, asked), asked) {
            (reply, Ask::Count(_)) if reply.number == 49 => Reply::refused(50),
            (reply, _) => reply,
        }
    });
    asks_noticed("50 before 49", |bytes, version, asked| {
        match (ask(bytes, version, asked), asked) {
            (reply, Ask::ElementPart { role: 36.., .. }) if reply.number == 49 => Reply::refused(50),
            (reply, _) => reply,
        }
    });
    asks_noticed("an absent xid has no lengths", |bytes, version, asked| match asked {
        Ask::Xid(1 | 2) if ask(bytes, version, Ask::Xid(0)) == Reply::default() => Reply::refused(50),
        _ => ask(bytes, version, asked),
    });
    asks_noticed("an empty part at 0", |bytes, version, asked| {
        match (ask(bytes, version, asked), asked) {
            (reply, Ask::ElementPart { .. }) if reply.values[1] == 0 => Reply::refused(reply.number),
            (reply, _) => reply,
        }
    });
    asks_noticed("a choice for a refused message", |bytes, version, asked| match asked {
        Ask::ChooseVersion if version > 1004 => Reply::done([1004, 0, 0]),
        _ => ask(bytes, version, asked),
    });
    let choose_all = Candidate {
        choose: |offers| offers.iter().copied().max().unwrap_or(0),
        ..SOUND
    };
    assert!(messages_differ(choose_all, 5_000), "a choice of any offer");
    let choose_first = Candidate {
        choose: |offers| choose(offers.first().copied()),
        ..SOUND
    };
    assert!(messages_differ(choose_first, 5_000), "a choice of the first offer");
}

#[test]
fn damaged_writing() {
    writes_noticed("a byte after the message", |out, version, head, body| {
        let reply = write(out, version, head, body);
        if reply.number == 0 {
            if let Some(after) = out.get_mut(reply.values[0] as usize) {
                *after ^= 1;
            }
        }
        reply
    });
    writes_noticed("a refusal that writes", |out, version, head, body| {
        let reply = write(out, version, head, body);
        if let (47, Some(first)) = (reply.number, out.first_mut()) {
            *first ^= 1;
        }
        reply
    });
    writes_noticed("modes narrowed before they are judged", |out, version, head, body| {
        let Body::DiscoveryReply {
            domain,
            services,
            queues,
        } = *body
        else {
            return write(out, version, head, body);
        };
        let narrowed: Vec<u64> = services.transactions.iter().map(|mode| mode & 0xFFFF).collect();
        let services = Services {
            transactions: &narrowed,
            ..services
        };
        write(
            out,
            version,
            head,
            &Body::DiscoveryReply {
                domain,
                services,
                queues,
            },
        )
    });
    writes_noticed("lengths that sum by wrapping", |out, version, head, body| {
        let reply = write(out, version, head, body);
        let Body::TopologyUpdate { ids, names } = body else {
            return reply;
        };
        let sum = names
            .lengths
            .iter()
            .fold(0, |sum: u64, &length| sum.wrapping_add(length));
        let agree = sum == names.bytes.len() as u64 && ids.len() == 16 * names.lengths.len();
        let whole = head.correlation.len() == 16 && head.execution.len() == 16;
        match reply.number {
            48 if agree && whole => Reply::refused(45),
            _ => reply,
        }
    });
    writes_noticed("an xid's lengths added by wrapping", |out, version, head, body| {
        let reply = write(out, version, head, body);
        match body {
            Body::RollbackReply { xid, .. }
                if reply.number == 48
                    && xid.format != 0
                    && xid.gtrid.wrapping_add(xid.bqual) == xid.data.len() as u64 =>
            {
                Reply::refused(45)
            }
            _ => reply,
        }
    });
    writes_noticed(
        "a second half of an xid bounded by the sum",
        |out, version, head, body| {
            let reply = write(out, version, head, body);
            match body {
                Body::RollbackRequest { xid, .. } | Body::RollbackReply { xid, .. }
                    if reply.number == 45 && xid.gtrid <= 64 && xid.data.len() <= 128 =>
                {
                    Reply::done([0; 3])
                }
                _ => reply,
            }
        },
    );
    writes_noticed("45 for a first half above 64 before 48", |out, version, head, body| {
        let reply = write(out, version, head, body);
        match body {
            Body::RollbackRequest { xid, .. } | Body::RollbackReply { xid, .. }
                if reply.number == 48 && xid.gtrid > 64 =>
            {
                Reply::refused(45)
            }
            _ => reply,
        }
    });
    writes_noticed("47 before 43", |out, version, head, body| {
        match write(out, version, head, body) {
            reply if reply.number == 43 && out.len() < HEADER + MOST_PAYLOAD => Reply::refused(47),
            reply => reply,
        }
    });
    writes_noticed("48 before 42", |out, version, head, body| {
        let newest = *body.kind().versions().end();
        match write(out, version, head, body) {
            reply if reply.number == 42 && write(&mut [], newest, head, body).number == 48 => Reply::refused(48),
            reply => reply,
        }
    });
    writes_noticed("a correlation that is too long", |out, version, head, body| {
        let cut = head.correlation.len().min(16);
        let correlation = &head.correlation[..cut];
        write(out, version, Head { correlation, ..head }, body)
    });
    writes_noticed("used without the header", |out, version, head, body| {
        let mut reply = write(out, version, head, body);
        reply.values[0] = reply.values[0].saturating_sub(HEADER as u64);
        reply
    });
}

/// The row that a received record is about, and its number in the mirror.
fn record_row(bytes: &[u8]) -> Option<(u8, usize)> {
    let row = row_of(u16::from_be_bytes([*bytes.get(1)?, *bytes.get(2)?]))?;
    Some((bytes[0], row))
}

fn row_number(row: usize, field: usize) -> usize {
    3 + ROW * row + field
}

const STATUS: usize = 0;
const SESSION: usize = 1;
const INPUT: usize = 2;
const OUTPUT: usize = 3;
const UNREAD: usize = 4;

/// Lends the same again.
fn again<'a>(lend: &'a mut Lend) -> Lend<'a> {
    Lend {
        numbers: lend.numbers,
        store: lend.store,
        out: lend.out,
    }
}

#[test]
fn damaged_calls() {
    links_noticed("a queue found without its session", |call, lend| match *call {
        LinkCall::Read { id, .. } if lend.numbers.len() == NUMBERS => {
            let session = row_of(id).map_or(0, |row| lend.numbers[row_number(row, SESSION)]);
            link(&LinkCall::Read { id, session }, lend)
        }
        _ => link(call, lend),
    });
    links_noticed(
        "reading refused on an endpoint that is down",
        |call, lend| match *call {
            LinkCall::Read { .. } if lend.numbers.get(1) == Some(&1) && lend.store.len() == STORE => Reply::refused(4),
            _ => link(call, lend),
        },
    );
    links_noticed("read bytes left behind", |call, mut lend| {
        let before = lend.store.to_vec();
        let reply = link(call, again(&mut lend));
        if let (0, LinkCall::Read { id, .. }) = (reply.number, call) {
            let row = row_of(*id).unwrap_or(0);
            let unread = lend.numbers[row_number(row, UNREAD)] as usize;
            let rest = row * QUEUE + unread..(row + 1) * QUEUE;
            lend.store[rest.clone()].copy_from_slice(&before[rest]);
        }
        reply
    });
    links_noticed("opening leaves the row's bytes", |call, mut lend| {
        let before = lend.store.to_vec();
        let reply = link(call, again(&mut lend));
        if let (0, LinkCall::Open { .. }) = (reply.number, call) {
            lend.store.copy_from_slice(&before);
        }
        reply
    });
    links_noticed("our close leaves the row's bytes", |call, mut lend| {
        let before = lend.store.to_vec();
        let reply = link(call, again(&mut lend));
        if let (0, LinkCall::Close { .. }) = (reply.number, call) {
            lend.store.copy_from_slice(&before);
        }
        reply
    });
    links_noticed("our close takes the input count back", |call, mut lend| {
        let reply = link(call, again(&mut lend));
        if let (0, LinkCall::Close { id, .. }) = (reply.number, call) {
            lend.numbers[row_number(row_of(*id).unwrap_or(0), INPUT)] = 0;
        }
        reply
    });
    links_noticed("13 before 11", |call, mut lend| {
        let reply = link(call, again(&mut lend));
        match call {
            LinkCall::Request { .. } if reply.number == 11 && lend.out.len() < 7 => Reply::refused(13),
            _ => reply,
        }
    });
    links_noticed("13 before 14", |call, mut lend| {
        let reply = link(call, again(&mut lend));
        match reply.number {
            14 if lend.out.len() < 3 => Reply::refused(13),
            _ => reply,
        }
    });
    links_noticed("an amount taken as signed", |call, mut lend| {
        let reply = link(call, again(&mut lend));
        match *call {
            LinkCall::Request { amount, .. } if reply.number == 11 && amount >= 1 << 31 => Reply::refused(10),
            _ => reply,
        }
    });
    links_noticed("an output byte past the record", |call, mut lend| {
        let reply = link(call, again(&mut lend));
        if let (0, LinkCall::Transmit { .. }) = (reply.number, call) {
            if let Some(after) = lend.out.get_mut(reply.values[0] as usize) {
                *after = 0;
            }
        }
        reply
    });
    links_noticed("identifiers masked", |call, lend| match *call {
        LinkCall::Open { id } => link(&LinkCall::Open { id: id & 0x800F }, lend),
        _ => link(call, lend),
    });
}

#[test]
fn damaged_endpoints() {
    links_noticed("a store that is too long", |call, lend| {
        let length = lend.store.len().min(STORE);
        let Lend { numbers, store, out } = lend;
        let store = &mut store[..length];
        link(call, Lend { numbers, store, out })
    });
    links_noticed("3 before 2", |call, mut lend| {
        let reply = link(call, again(&mut lend));
        match reply.number {
            2 if lend.numbers.len() != NUMBERS => Reply::refused(3),
            _ => reply,
        }
    });
    links_noticed("4 before 3", |call, mut lend| {
        let reply = link(call, again(&mut lend));
        match reply.number {
            3 if lend.numbers.get(1) == Some(&1) => Reply::refused(4),
            _ => reply,
        }
    });
    links_noticed("sessions that are the same", |call, mut lend| {
        let reply = link(call, again(&mut lend));
        let endpoint = endpoint_from(lend.numbers);
        let same = endpoint.is_some_and(|endpoint| {
            let sessions = endpoint.rows.map(|row| row.session);
            (1..32).any(|r| sessions[r] != 0 && sessions[..r].contains(&sessions[r]))
        });
        match reply.number {
            3 if same => Reply::refused(8),
            _ => reply,
        }
    });
    links_noticed("an endpoint not made beside 2", |call, mut lend| {
        let before = lend.numbers.to_vec();
        let reply = link(call, again(&mut lend));
        if let (2, LinkCall::Make { .. }) = (reply.number, call) {
            lend.numbers.copy_from_slice(&before);
        }
        reply
    });
    links_noticed("a store not zeroed", |call, mut lend| {
        let before = lend.store.to_vec();
        let reply = link(call, again(&mut lend));
        if let LinkCall::Make { .. } = call {
            lend.store.copy_from_slice(&before);
        }
        reply
    });
    links_noticed("no session numbers near the last", |call, mut lend| {
        let last = lend.numbers.get(2).copied();
        let reply = link(call, again(&mut lend));
        match (call, reply.number) {
            (LinkCall::Open { .. }, 0) if last == Some(u32::MAX - 1) => Reply::refused(14),
            _ => reply,
        }
    });
}

#[test]
fn damaged_receiving() {
    links_noticed("a crossing CLOSE answered", |call, mut lend| {
        let before = endpoint_from(lend.numbers);
        let mut reply = link(call, again(&mut lend));
        if let (LinkCall::Receive { bytes }, 0, Some(before)) = (call, reply.number, before) {
            if let Some((CLOSE, row)) = record_row(bytes) {
                if before.rows[row].status == Status::Pending && lend.out.len() >= 3 {
                    lend.out[0] = 0xE3;
                    reply.values[2] = 3;
                }
            }
        }
        reply
    });
    links_noticed("credit used while pending forgotten", |call, mut lend| {
        let before = endpoint_from(lend.numbers);
        let reply = link(call, again(&mut lend));
        if let (LinkCall::Receive { bytes }, 0, Some(before)) = (call, reply.number, before) {
            if let Some((TRANSMIT, row)) = record_row(bytes) {
                if before.rows[row].status == Status::Pending {
                    lend.numbers[row_number(row, INPUT)] = before.rows[row].input;
                }
            }
        }
        reply
    });
    links_noticed("a REQUEST counted while pending", |call, mut lend| {
        let reply = link(call, again(&mut lend));
        if let (LinkCall::Receive { bytes }, 0) = (call, reply.number) {
            if let Some((REQUEST, row)) = record_row(bytes) {
                if lend.numbers[row_number(row, STATUS)] == 2 {
                    lend.numbers[row_number(row, OUTPUT)] = 1;
                }
            }
        }
        reply
    });
    links_noticed("a received CLOSE drops what is unread", |call, mut lend| {
        let reply = link(call, again(&mut lend));
        if let (LinkCall::Receive { bytes }, 0) = (call, reply.number) {
            if let Some((CLOSE, row)) = record_row(bytes) {
                lend.numbers[row_number(row, UNREAD)] = 0;
            }
        }
        reply
    });
    links_noticed("going down drops what is unread", |call, mut lend| {
        let reply = link(call, again(&mut lend));
        if reply.number >= 20 {
            for row in 0..32 {
                lend.numbers[row_number(row, UNREAD)] = 0;
            }
        }
        reply
    });
    links_noticed("a refused OPEN takes a number", |call, mut lend| {
        let reply = link(call, again(&mut lend));
        if reply.number == 24 {
            lend.numbers[2] = lend.numbers[2].wrapping_add(1);
        }
        reply
    });
    links_noticed("a refused record reports its bytes", |call, lend| {
        let mut reply = link(call, lend);
        if let (LinkCall::Receive { .. }, 20..) = (call, reply.number) {
            reply.values[1] = 3;
        }
        reply
    });
    links_noticed("a session named by every record", |call, mut lend| {
        let mut reply = link(call, again(&mut lend));
        if let (LinkCall::Receive { bytes }, 0) = (call, reply.number) {
            if let Some((opcode, row)) = record_row(bytes) {
                if opcode != OPEN {
                    reply.values[0] = lend.numbers[row_number(row, SESSION)].into();
                }
            }
        }
        reply
    });
    links_noticed("29 where the queue would be too full", |call, mut lend| {
        let before = endpoint_from(lend.numbers);
        let mut reply = link(call, again(&mut lend));
        if let (LinkCall::Receive { bytes }, 27, Some(before)) = (call, reply.number, before) {
            let count = u32::from_be_bytes(bytes[3..7].try_into().unwrap());
            let (_, row) = record_row(bytes).unwrap();
            let row = before.rows[row];
            if row.status == Status::Open && row.unread + count > QUEUE as u32 {
                reply.number = 29;
            }
        }
        reply
    });
    links_noticed("29 given to an OPEN when the numbers are spent", |call, lend| {
        let mut reply = link(call, lend);
        if reply.number == 30 {
            reply.number = 29;
        }
        reply
    });
    links_noticed("27 only once the data is there", |call, lend| {
        let reply = link(call, lend);
        match call {
            LinkCall::Receive { bytes } if reply.number == 27 && bytes.len() == 7 => Reply::refused(1),
            _ => reply,
        }
    });
}

#[test]
fn damaged_runs() {
    links_noticed("1 where the bytes end", |call, lend| {
        let mut reply = link(call, lend);
        if let (LinkCall::Run { bytes, .. }, 0) = (call, reply.number) {
            if reply.values[1] == bytes.len() as u64 {
                reply.number = 1;
            }
        }
        reply
    });
    links_noticed("0 where the bytes end inside a record", |call, lend| {
        let mut reply = link(call, lend);
        if let (LinkCall::Run { .. }, 1) = (call, reply.number) {
            reply.number = 0;
        }
        reply
    });
    links_noticed("nothing tested for no records", |call, lend| match call {
        LinkCall::Run { n: 0, .. } => Reply::default(),
        _ => link(call, lend),
    });
    links_noticed("a run that forgets what it wrote", |call, lend| {
        let mut reply = link(call, lend);
        if let (LinkCall::Run { .. }, 1..) = (call, reply.number) {
            reply.values[2] = 0;
        }
        reply
    });
    links_noticed("a run that counts what stopped it", |call, lend| {
        let mut reply = link(call, lend);
        if let (LinkCall::Run { .. }, 20..) = (call, reply.number) {
            reply.values[0] += 1;
        }
        reply
    });
    links_noticed("one record more than n", |call, lend| match *call {
        LinkCall::Run { n, bytes } => link(
            &LinkCall::Run {
                n: n.saturating_add(1),
                bytes,
            },
            lend,
        ),
        _ => link(call, lend),
    });
}
