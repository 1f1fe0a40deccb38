//! Where a refused message is at fault, by 02's T-02: a string whose data runs past is answered at its size, everything
//! else at its own first byte. The reason names the data all the same. Places are added up from 01's layouts.

use sootlark_compare::library::{Ask, Library, Second};
use sootlark_compare::second::explain::explain;
use sootlark_compare::second::message::read;
use sootlark_compare::second::role;

const ID: [u8; 16] = [0x22; 16];

fn message(kind: u64, payload: &[&[u8]]) -> Vec<u8> {
    let payload = payload.concat();
    let size = number(payload.len() as u64);
    [&number(kind)[..], &[0x11; 16], &size, &payload].concat()
}

fn number(value: u64) -> [u8; 8] {
    value.to_be_bytes()
}

/// A string that is whole.
fn string(text: &[u8]) -> Vec<u8> {
    [&number(text.len() as u64), text].concat()
}

/// The number and the place that reading gives, and the line that explains them.
#[track_caller]
fn refused(bytes: &[u8], version: u64, number: u64, place: usize, line: &str) {
    let refusal = read(bytes, version).expect_err("refused");
    assert_eq!((refusal.fault.number(), refusal.place), (number, place));
    assert_eq!(explain(bytes, version).to_string(), format!("answer {number} {line}\n"));
}

/// A field that runs past.
#[track_caller]
fn runs_past(bytes: &[u8], version: u64, place: usize, line: &str) {
    refused(bytes, version, 44, place, line);
}

/// A string that stands at a place behind the bytes in front of it. `word` is its role name without `.size` and
/// `.data`, `element` the part of the line that counts its element.
#[track_caller]
fn string_at(place: usize, kind: u64, version: u64, front: &[u8], word: &str, element: &str) {
    assert_eq!(front.len(), place);
    let with = |string: &[&[u8]]| message(kind, &[front, &string.concat()]);
    // The data runs past: by one byte, by all of its bytes, by more than there can be.
    let data = |needed: u64, had: u64| format!("field {word}.data{element} needed {needed} had {had}");
    runs_past(&with(&[&number(5), b"abcd"]), version, place, &data(5, 4));
    runs_past(&with(&[&number(1)]), version, place, &data(1, 0));
    runs_past(&with(&[&number(u64::MAX), b"abc"]), version, place, &data(u64::MAX, 3));
    // The size itself runs past. It is a number, and stands at the same place.
    let size = |had: u64| format!("field {word}.size{element} needed 8 had {had}");
    runs_past(&with(&[]), version, place, &size(0));
    runs_past(&with(&[&[0; 7]]), version, place, &size(7));
}

#[test]
fn a_domains_name() {
    for (kind, version) in [(7200, 1000), (7201, 1001), (7300, 1002), (7311, 1004)] {
        string_at(16 + 16, kind, version, &[ID, ID].concat(), "domain.name", "");
    }
}

/// The type stands behind result, user and state, the data behind a type of three bytes.
#[test]
fn a_buffers_type_and_data() {
    let front = [&ID[..], &[0; 4 + 8 + 1]].concat();
    string_at(16 + 13, 3103, 1003, &front, "buffer.type", "");
    let front = [front, string(b"xyz")].concat();
    string_at(16 + 13 + 8 + 3, 3103, 1004, &front, "buffer.data", "");
}

#[test]
fn the_names_of_a_7300s_lists() {
    let front = [&ID[..], &ID, &string(b"room"), &number(2)].concat();
    let services = "content.services.element";
    string_at(32 + 12 + 8, 7300, 1000, &front, services, " element 0");
    let front = [front, string(b"get")].concat();
    string_at(52 + 11, 7300, 1004, &front, services, " element 1");
    let front = [&front[..], &string(b""), &number(3), &string(b"q")].concat();
    string_at(
        63 + 8 + 8 + 9,
        7300,
        1004,
        &front,
        "content.queues.element",
        " element 1",
    );
}

#[test]
fn the_names_of_a_7302s_domains() {
    let front = [&ID[..], &number(2), &ID].concat();
    string_at(16 + 8 + 16, 7302, 1002, &front, "domains.element.name", " element 0");
    let front = [&front[..], &string(b"north"), &ID].concat();
    string_at(40 + 13 + 16, 7302, 1004, &front, "domains.element.name", " element 1");
}

#[test]
fn the_strings_of_a_7311s_lists() {
    let front = [&ID[..], &ID, &string(b""), &number(1)].concat();
    string_at(
        32 + 8 + 8,
        7311,
        1004,
        &front,
        "content.services.element.name",
        " element 0",
    );
    let front = [front, string(b"s")].concat();
    let category = "content.services.element.category";
    string_at(48 + 9, 7311, 1004, &front, category, " element 0");
    // Mode, timeout and hops, then the queues' count.
    let front = [&front[..], &string(b"ca"), &[0; 2 + 8 + 8], &number(1)].concat();
    let queue = "content.queues.element.name";
    string_at(57 + 10 + 18 + 8, 7311, 1004, &front, queue, " element 0");
}

/// The four strings of a 6201's message, in its second one.
#[test]
fn the_strings_of_a_dequeued_message() {
    for version in 1000..=1002 {
        let at = |place, front: &[u8], word: &str| {
            string_at(
                place,
                6201,
                version,
                front,
                &format!("message.element.{word}"),
                " element 1",
            );
        };
        // The first has an id, four empty strings and three numbers.
        let front = [&ID[..], &number(2), &ID, &[0; 7 * 8], &ID].concat();
        at(16 + 8 + 72 + 16, &front, "attributes.properties");
        let front = [front, string(b"pr")].concat();
        at(112 + 10, &front, "attributes.reply");
        let front = [&front[..], &string(b""), &number(1)].concat();
        at(122 + 8 + 8, &front, "payload.type");
        let front = [front, string(b".x/")].concat();
        at(138 + 11, &front, "payload.data");
    }
}

/// Numbers, counts and fields of a fixed size keep their own places, also directly behind a string.
#[test]
fn other_fields_that_run_past() {
    runs_past(&message(7202, &[&[0; 15]]), 1004, 0, "field execution needed 16 had 15");
    let name = string(b"room");
    let behind_name = |kind, rest: &[u8]| message(kind, &[&ID, &ID, &name, rest]);
    runs_past(
        &message(7201, &[&ID, &[0; 9]]),
        1004,
        16,
        "field domain.id needed 16 had 9",
    );
    let place = 16 + 16 + 12;
    runs_past(
        &behind_name(7201, &[0; 7]),
        1004,
        place,
        "field protocol.version needed 8 had 7",
    );
    runs_past(
        &behind_name(7200, &[]),
        1004,
        place,
        "field protocol.versions.size needed 8 had 0",
    );
    let element = "field protocol.versions.element element 0 needed 8 had 3";
    runs_past(
        &behind_name(7200, &[&number(1)[..], &[0; 3]].concat()),
        1004,
        place + 8,
        element,
    );
    let id = "field domains.element.id element 1 needed 16 had 8";
    runs_past(
        &message(7302, &[&ID, &number(2), &ID, &name, &[0; 8]]),
        1004,
        16 + 8 + 28,
        id,
    );
    let user = "field code.user needed 8 had 7";
    runs_past(&message(3103, &[&ID, &[0; 4 + 7]]), 1004, 16 + 4, user);
    let services = [&number(1)[..], &string(b"s"), &string(b"ca"), &[0]].concat();
    let mode = "field content.services.element.transaction element 0 needed 2 had 1";
    runs_past(&behind_name(7311, &services), 1004, place + 8 + 9 + 10, mode);
}

/// An xid's data has two lengths before it and is no string: it keeps its own place.
#[test]
fn an_xids_data() {
    let with = |kind, lengths: &[u64], rest: &[u8]| {
        let lengths: Vec<u8> = lengths.iter().flat_map(|&length| number(length)).collect();
        message(kind, &[&ID, &lengths, rest])
    };
    for kind in [5205, 5206] {
        let data = "field xid.data needed 5 had 4";
        runs_past(&with(kind, &[1, 3, 2], &[0; 4]), 1000, 16 + 24, data);
        runs_past(&with(kind, &[1, 0, 5], &[0; 4]), 1004, 16 + 24, data);
        let none = "field xid.data needed 128 had 0";
        runs_past(&with(kind, &[1, 64, 64], &[]), 1004, 16 + 24, none);
        let gtrid = "field xid.gtrid_length needed 8 had 1";
        runs_past(&with(kind, &[1], &[0; 1]), 1004, 16 + 8, gtrid);
        let bqual = "field xid.bqual_length needed 8 had 0";
        runs_past(&with(kind, &[1, 3], &[]), 1004, 16 + 16, bqual);
        let resource = "field resource needed 4 had 3";
        runs_past(&with(kind, &[1, 3, 2], &[0; 5 + 3]), 1004, 16 + 24 + 5, resource);
    }
}

/// 45 and 46 behind strings have the places that they had.
#[test]
fn other_numbers() {
    let version = message(7201, &[&ID, &ID, &string(b"room"), &number(1005)]);
    refused(&version, 1004, 45, 16 + 16 + 12, "field protocol.version value 1005");
    let left = message(7302, &[&ID, &number(1), &ID, &number(3), b"north"]);
    refused(&left, 1004, 46, 16 + 8 + 16 + 8 + 3, "left 2");
}

/// Of two sizes that are too large the first is answered.
#[test]
fn the_first_of_two() {
    let both = message(3103, &[&ID, &[0; 13], &number(100), &number(u64::MAX)]);
    runs_past(&both, 1004, 16 + 13, "field buffer.type.data needed 100 had 8");
}

/// Every call that reads the message first gives reading's place.
#[test]
fn every_call() {
    let bytes = message(7300, &[&ID, &ID, &string(b"room"), &number(1), &number(9)]);
    let place = 16 + 16 + 12 + 8;
    let (list, n) = (role::SERVICES, 0);
    let parts = [
        Ask::Read,
        Ask::Correlation,
        Ask::Part(role::DOMAIN_NAME),
        Ask::ElementPart {
            list,
            n,
            role: role::NAME,
        },
    ];
    for ask in parts {
        let reply = Second.ask(&bytes, 1004, ask);
        assert_eq!((reply.number, reply.values), (44, [0, 0, place]), "{ask:?}");
    }
    let numbers = [
        Ask::Field(role::RESOURCE),
        Ask::Xid(role::FORMAT_ID),
        Ask::Count(list),
        Ask::ElementField {
            list,
            n,
            role: role::HOPS,
        },
    ];
    for ask in numbers {
        let reply = Second.ask(&bytes, 1004, ask);
        assert_eq!((reply.number, reply.values), (44, [0, place, 0]), "{ask:?}");
    }
}
