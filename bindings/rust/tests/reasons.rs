//! Why messages are refused: every number of a reading, with what is known of it and its sentence.

use sootlark::{explain, Fault, Message, Reason};

const ID: [u8; 16] = [0x22; 16];

/// A message: type, a correlation id, the size that is claimed, and the payload.
fn sized(kind: u64, size: u64, payload: &[u8]) -> Vec<u8> {
    [&kind.to_be_bytes()[..], &[0x11; 16], &size.to_be_bytes(), payload].concat()
}

fn message(kind: u64, payload: &[&[u8]]) -> Vec<u8> {
    let payload = payload.concat();
    sized(kind, payload.len() as u64, &payload)
}

fn number(value: u64) -> [u8; 8] {
    value.to_be_bytes()
}

/// The reason, which the error of a reading has as well, and whose sentence it displays.
#[track_caller]
fn refused(bytes: &[u8], version: u64, sentence: &str) -> Reason {
    let reason = explain(bytes, version).expect("a reason");
    let error = Message::read(bytes, version).expect_err("refused");
    assert_eq!((error.number(), error.fault, error.reason()), (reason.number(), reason.fault(), Some(reason)));
    assert_eq!((reason.to_string().as_str(), error.to_string().as_str()), (sentence, sentence));
    reason
}

/// Number, field and element.
fn at(reason: &Reason) -> (u64, Option<&str>, Option<u64>) {
    (reason.number(), reason.field(), reason.element())
}

/// Needed, had, value and left.
fn what(reason: &Reason) -> [Option<u64>; 4] {
    [reason.needed(), reason.had(), reason.value(), reason.left()]
}

#[test]
fn accepted() {
    assert_eq!(explain(&message(7202, &[&ID]), 1004), None);
}

#[test]
fn not_whole() {
    let reason = refused(&[0; 31], 1004, "the header needs 32 bytes, and 31 are there");
    assert_eq!((at(&reason), what(&reason)), ((1, Some("header"), None), [Some(32), Some(31), None, None]));
    let reason = refused(&sized(7202, 16, &[0]), 1004, "the payload needs 16 bytes, and 1 is there");
    assert_eq!((at(&reason), what(&reason)), ((1, Some("payload"), None), [Some(16), Some(1), None, None]));
}

#[test]
fn version_type_and_size() {
    let reason = refused(&[], 999, "the agreed version is 999, which is none of 1000 to 1004");
    assert_eq!((at(&reason), what(&reason)), ((40, None, None), [None, None, Some(999), None]));
    let reason = refused(&message(3100, &[]), 1004, "header.type is 3100, which is no known type of message");
    assert_eq!((at(&reason), what(&reason)), ((41, Some("header.type"), None), [None, None, Some(3100), None]));
    let sentence = "header.type is 7311, a type that the agreed version does not have";
    let reason = refused(&message(7311, &[]), 1003, sentence);
    assert_eq!((at(&reason), what(&reason)), ((42, Some("header.type"), None), [None, None, Some(7311), None]));
    let reason = refused(&sized(7202, 65_505, &ID), 1004, "header.size is 65505, which is above the most, 65504");
    assert_eq!((at(&reason), what(&reason)), ((43, Some("header.size"), None), [None, None, Some(65_505), None]));
}

#[test]
fn a_field_that_runs_past() {
    let bytes = message(7201, &[&ID, &ID, &number(20), b"abc"]);
    let reason = refused(&bytes, 1004, "domain.name.data needs 20 bytes, and 3 are there");
    assert_eq!((at(&reason), what(&reason)), ((44, Some("domain.name.data"), None), [Some(20), Some(3), None, None]));
    refused(&message(3103, &[&ID, &[0; 12]]), 1004, "transaction_state needs 1 byte, and 0 are there");

    let bytes = message(7200, &[&ID, &ID, &number(0), &number(6), &[0; 40]]);
    let reason = refused(&bytes, 1004, "in element 5, protocol.versions.element needs 8 bytes, and 0 are there");
    assert_eq!(at(&reason), (44, Some("protocol.versions.element"), Some(5)));
    assert_eq!(what(&reason), [Some(8), Some(0), None, None]);
}

/// A field that runs past, and the place of reading's error.
#[track_caller]
fn past(bytes: &[u8], version: u64, place: usize, field: &str, needed: u64, had: u64) {
    let error = Message::read(bytes, version).expect_err("refused");
    let reason = error.reason().expect("a reason");
    assert_eq!((error.fault, error.place), (Fault::RunsPast, place));
    assert_eq!(reason.field(), Some(field));
    assert_eq!((reason.needed(), reason.had()), (Some(needed), Some(had)));
}

/// Data of a string that runs past is named by the reason, and the place is that of its size (document 02's T-02).
#[test]
fn a_string_is_placed_at_its_size() {
    let name = message(7201, &[&ID, &ID, &number(20), b"abc"]);
    past(&name, 1004, 16 + 16, "domain.name.data", 20, 3);
    // Behind result, user, state and a type of two bytes.
    let buffer = message(3103, &[&ID, &[0; 4 + 8 + 1], &number(2), b"t/", &number(9), &[0; 8]]);
    past(&buffer, 1003, 16 + 13 + 10, "buffer.data.data", 9, 8);
    // Behind an empty name, the count and a service of three bytes.
    let service = message(7300, &[&ID, &ID, &number(0), &number(2), &number(3), b"get", &number(u64::MAX)]);
    past(&service, 1000, 32 + 8 + 8 + 11, "content.services.element.data", u64::MAX, 0);
    // Behind the count, an id, empty properties and reply, available, and an empty type.
    let payload = message(6201, &[&ID, &number(1), &ID, &[0; 4 * 8], &number(17), &[0; 16]]);
    past(&payload, 1000, 16 + 8 + 16 + 32, "message.element.payload.data.data", 17, 16);
}

/// A size that does not fit itself, and all that is no string, keep their own places.
#[test]
fn other_fields_keep_their_places() {
    past(&message(7201, &[&ID, &ID, &[0; 5]]), 1004, 16 + 16, "domain.name.size", 8, 5);
    past(&message(7201, &[&ID, &ID, &number(1), b"n"]), 1004, 16 + 16 + 9, "protocol.version", 8, 0);
    past(&message(7200, &[&ID, &ID, &number(0), &[0; 7]]), 1004, 32 + 8, "protocol.versions.size", 8, 7);
    past(&message(7302, &[&ID, &number(1), &[0; 9]]), 1002, 16 + 8, "domains.element.id", 16, 9);
    let xid = message(5205, &[&ID, &number(1), &number(3), &number(2), &[0; 4]]);
    past(&xid, 1000, 16 + 24, "xid.data", 5, 4);
}

#[test]
fn a_value_that_is_not_allowed() {
    let bytes = message(7201, &[&ID, &ID, &number(0), &number(1005)]);
    let reason = refused(&bytes, 1004, "protocol.version is 1005, which is not allowed");
    assert_eq!((at(&reason), what(&reason)), ((45, Some("protocol.version"), None), [None, None, Some(1005), None]));

    let service: [&[u8]; 4] = [&number(0), &number(0), &[0, 4], &[0; 16]];
    let bytes = message(7311, &[&ID, &ID, &number(0), &number(1), &service.concat(), &number(0)]);
    let sentence = "in element 0, content.services.element.transaction is 4, which is not allowed";
    let reason = refused(&bytes, 1004, sentence);
    assert_eq!(at(&reason), (45, Some("content.services.element.transaction"), Some(0)));
    assert_eq!(what(&reason), [None, None, Some(4), None]);
}

#[test]
fn the_longest_name() {
    let bytes = message(6201, &[&ID, &number(1), &ID, &[0; 7]]);
    let sentence = "in element 0, message.element.attributes.properties.size needs 8 bytes, and 7 are there";
    refused(&bytes, 1002, sentence);
}

#[test]
fn bytes_left_over() {
    let reason = refused(&message(7202, &[&ID, &[0; 2]]), 1004, "2 bytes are left over behind the last field");
    assert_eq!((at(&reason), what(&reason)), ((46, None, None), [None, None, None, Some(2)]));
    refused(&message(7202, &[&ID, &[0]]), 1004, "1 byte is left over behind the last field");
}

/// What is shown for programmers says what applies.
#[test]
fn debug() {
    let reason = explain(&[], 1004).expect("a reason");
    assert_eq!(
        format!("{reason:?}"),
        "Reason { fault: NotWhole, field: Some(\"header\"), element: None, needed: Some(32), had: Some(0), value: None, \
         left: None }"
    );
    let error = Message::read(&[], 1004).expect_err("refused");
    assert_eq!(format!("{error:?}"), format!("Error {{ fault: NotWhole, place: 0, reason: Some({reason:?}) }}"));
    assert_eq!(reason.fault(), Fault::NotWhole);
}

/// An error is handed from call to call: it stays below the 128 bytes from which on tools warn of its size.
#[test]
fn size() {
    assert!(size_of::<sootlark::Error>() <= 120);
}
