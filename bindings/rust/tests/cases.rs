//! Document 01's fourteen cases; 8 and 9 as document 02's T-03 has them.

use sootlark::link::{Row, Status, STORE_LENGTH};
use sootlark::{choose_version, End, Endpoint, Fault, Message, MessageKind, Refusal};

/// A message: type, a correlation id, the size that is claimed, and the payload.
fn message(kind: u64, size: u64, payload: &[&[u8]]) -> Vec<u8> {
    [&kind.to_be_bytes()[..], &[0x11; 16], &size.to_be_bytes(), &payload.concat()].concat()
}

/// What reading answers: 0, or the number and the place.
fn answer(bytes: &[u8], version: u64) -> (u64, usize) {
    Message::read(bytes, version).map_or_else(|error| (error.number(), error.place), |_| (0, 0))
}

const EXECUTION: [u8; 16] = [0x22; 16];

#[test]
fn case_1_no_bytes() {
    assert_eq!(answer(&[], 1004), (1, 0));
    let mut store = [0; STORE_LENGTH];
    let mut endpoint = Endpoint::new(End::Other, &mut store);
    assert_eq!(endpoint.receive(&[], &mut []), Err(Refusal::NotWhole));
    assert!(!endpoint.is_down());
}

#[test]
fn case_2_a_disconnect_request_has_its_versions() {
    let bytes = message(7202, 16, &[&EXECUTION]);
    let read = Message::read(&bytes, 1001).unwrap();
    assert_eq!((read.kind(), read.used()), (MessageKind::DisconnectRequest, 48));
    assert_eq!(read.correlation(), Ok(&[0x11; 16]));
    assert_eq!(read.execution(), Ok(&EXECUTION));
    assert_eq!(answer(&bytes, 1000), (42, 0));
}

#[test]
fn case_3_a_byte_after_the_last_field() {
    let bytes = message(7202, 17, &[&EXECUTION, &[0]]);
    let error = Message::read(&bytes, 1004).unwrap_err();
    assert_eq!((error.fault, error.place), (Fault::BytesAfter, 16));
}

#[test]
fn case_4_a_field_that_runs_past() {
    assert_eq!(answer(&message(7202, 15, &[&EXECUTION]), 1004), (44, 0));
}

#[test]
fn case_5_too_large() {
    assert_eq!(answer(&message(7202, 65_505, &[&EXECUTION]), 1004), (43, 0));
}

#[test]
fn case_6_a_version_that_is_not_allowed() {
    let bytes = |version: u64| {
        message(7201, 50, &[&EXECUTION, &[0x33; 16], &2u64.to_be_bytes(), b"AB", &version.to_be_bytes()])
    };
    assert_eq!(answer(&bytes(1005), 1004), (45, 42));
    assert_eq!(answer(&bytes(1004), 1004), (0, 0));
}

/// A 5205 whose xid has the lengths, with as much data.
fn rollback(gtrid: u64, bqual: u64) -> Vec<u8> {
    let data = vec![0x44; (gtrid + bqual) as usize];
    let payload: [&[u8]; 6] =
        [&EXECUTION, &1u64.to_be_bytes(), &gtrid.to_be_bytes(), &bqual.to_be_bytes(), &data, &[0; 12]];
    message(5205, 52 + gtrid + bqual, &payload)
}

#[test]
fn case_7_no_xid() {
    let bytes = message(5205, 36, &[&EXECUTION, &[0; 8], &[0; 4], &[0; 8]]);
    let read = Message::read(&bytes, 1000).unwrap();
    assert_eq!(read.used(), 32 + 36);
    assert_eq!(read.xid(), Ok(Default::default()));
}

#[test]
fn case_8_the_longest_xid() {
    let bytes = rollback(64, 64);
    let xid = Message::read(&bytes, 1000).unwrap().xid().unwrap();
    assert_eq!((xid.format, xid.gtrid_length, xid.bqual_length, xid.data), (1, 64, 64, &[0x44; 128][..]));
}

#[test]
fn case_9_an_xid_with_a_half_that_is_too_long() {
    assert_eq!(answer(&rollback(65, 0), 1000), (45, 24));
    assert_eq!(answer(&rollback(0, 65), 1000), (45, 32));
}

#[test]
fn case_10_the_version_to_choose() {
    assert_eq!(choose_version(&[1005, 1003, 1003]), Some(1003));
    assert_eq!(choose_version(&[]), None);
}

#[test]
fn case_11_a_request_has_room_for_a_row() {
    let (mut store, mut out) = ([0; STORE_LENGTH], [0; 16]);
    let mut endpoint = Endpoint::new(End::Began, &mut store);
    let session = endpoint.open(0x8000, &mut out).unwrap().session;
    assert_eq!(endpoint.request(session, 1024, &mut out).unwrap(), [0xE4, 0x80, 0, 0, 0, 4, 0]);
    assert_eq!(endpoint.request(session, 1, &mut out), Err(Refusal::AboveRoom));
}

#[test]
fn case_12_data_without_credit() {
    let mut store = [0; STORE_LENGTH];
    let mut endpoint = Endpoint::new(End::Other, &mut store);
    endpoint.receive(&[0xE1, 0x80, 0], &mut []).unwrap();
    let refusal = endpoint.receive(&[0xE5, 0x80, 0, 0, 0, 0, 1], &mut []).unwrap_err();
    assert_eq!((refusal.number(), refusal.takes_down()), (27, true));
    assert!(endpoint.is_down());
}

#[test]
fn case_13_a_crossing_close() {
    let (mut store, mut out) = ([0; STORE_LENGTH], [0; 16]);
    let mut endpoint = Endpoint::new(End::Began, &mut store);
    let session = endpoint.open(0x8000, &mut out).unwrap().session;
    assert_eq!(endpoint.close(session, &mut out).unwrap(), [0xE2, 0x80, 0]);
    assert_eq!(endpoint.row(0x8000).unwrap().status, Status::Pending);
    let received = endpoint.receive(&[0xE2, 0x80, 0], &mut out).unwrap();
    assert_eq!((received.used, received.written.len()), (3, 0));
    assert_eq!(endpoint.row(0x8000).unwrap().status, Status::Closed);
}

#[test]
fn case_14_the_next_patient() {
    let (mut store, mut out) = ([0; STORE_LENGTH], [0; 16]);
    let mut endpoint = Endpoint::new(End::Other, &mut store);
    let old = endpoint.receive(&[0xE1, 0x80, 3], &mut out).unwrap().session.unwrap();
    endpoint.request(old, 8, &mut out).unwrap();
    endpoint.receive(&[0xE5, 0x80, 3, 0, 0, 0, 3, b'a', b'b', b'c'], &mut out).unwrap();
    let row = Row { status: Status::Open, session: Some(old), input: 5, output: 0, unread: 3 };
    assert_eq!(endpoint.row(0x8003), Some(row));

    // The old session can be read after CLOSE, until the identifier is opened again.
    let closed = endpoint.receive(&[0xE2, 0x80, 3], &mut out).unwrap();
    assert_eq!(closed.written, [0xE3, 0x80, 3]);
    assert_eq!(endpoint.read(old, &mut out[..1]).unwrap(), b"a");
    let new = endpoint.receive(&[0xE1, 0x80, 3], &mut out).unwrap().session.unwrap();
    assert_eq!((old.number, new.number), (1, 2));
    assert_eq!(endpoint.read(old, &mut out).unwrap_err().number(), 8);
    assert_eq!(endpoint.read(new, &mut out).unwrap(), b"");
    assert_eq!(endpoint.store(), &[0; STORE_LENGTH]);
}
