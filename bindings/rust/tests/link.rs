//! The link through the safe calls: credit, data, runs, going down, and what each call refuses.

use sootlark::link::{Status, NUMBERS, STORE_LENGTH};
use sootlark::{End, Endpoint, Refusal, Session};

/// An endpoint of the other end on which the end that began the link opened 0x8000.
fn opened(store: &mut [u8; STORE_LENGTH]) -> (Endpoint<'_>, Session) {
    let mut endpoint = Endpoint::new(End::Other, store);
    let session = endpoint.receive(&[0xE1, 0x80, 0], &mut []).unwrap().session.unwrap();
    (endpoint, session)
}

#[test]
fn a_fresh_endpoint_zeroes_its_store() {
    let mut store = [0xFF; STORE_LENGTH];
    let endpoint = Endpoint::new(End::Began, &mut store);
    assert!(!endpoint.is_down());
    assert_eq!((endpoint.numbers()[0], endpoint.row(0).unwrap().status), (1, Status::Closed));
    assert_eq!((endpoint.latest(0x800F), endpoint.row(0x8010), endpoint.row(16)), (None, None, None));
    assert_eq!(store, [0; STORE_LENGTH]);
}

#[test]
fn records_are_as_document_01_lays_them_out() {
    let (mut store, mut out) = ([0; STORE_LENGTH], [0; 16]);
    let (mut endpoint, session) = opened(&mut store);
    assert_eq!(endpoint.request(session, 258, &mut out).unwrap(), [0xE4, 0x80, 0, 0, 0, 1, 2]);
    endpoint.receive(&[0xE4, 0x80, 0, 0, 0, 0, 5], &mut []).unwrap();
    assert_eq!(endpoint.transmit(session, b"ab", &mut out).unwrap(), [0xE5, 0x80, 0, 0, 0, 0, 2, b'a', b'b']);
    assert_eq!(endpoint.row(0x8000).unwrap().output, 3);
    assert_eq!(endpoint.close(session, &mut out).unwrap(), [0xE2, 0x80, 0]);

    let ours = endpoint.open(0x000F, &mut out).unwrap();
    assert_eq!((ours.session, ours.record), (Session { identifier: 0x000F, number: 2 }, &mut [0xE1, 0, 0x0F][..]));
}

#[test]
fn a_run_reports_what_stood_before_it_was_stopped() {
    let (mut store, mut out) = ([0; STORE_LENGTH], [0; 16]);
    let mut endpoint = Endpoint::new(End::Other, &mut store);
    let bytes = [0xE1, 0x80, 0, 0xE2, 0x80, 0, 0xE1, 0x80, 1, 0xE1, 0x80];
    let ran = endpoint.run(100, &bytes, &mut out);
    assert_eq!((ran.accepted, ran.used, &*ran.written), (3, 9, &[0xE3, 0x80, 0][..]));
    assert_eq!(ran.answer, Err(Refusal::NotWhole));
    assert_eq!(endpoint.latest(0x8001), Some(Session { identifier: 0x8001, number: 2 }));

    let ran = endpoint.run(100, &[], &mut out);
    assert_eq!((ran.accepted, ran.answer), (0, Ok(())));
    let ran = endpoint.run(1, &[0xE1, 0x80, 2, 0xFF], &mut out);
    assert_eq!((ran.accepted, ran.used, ran.answer), (1, 3, Ok(())));
    let ran = endpoint.run(100, &[0xE1, 0x80, 3, 0xFF], &mut out);
    assert_eq!((ran.accepted, ran.used, ran.answer), (1, 3, Err(Refusal::UnknownOpcode)));
    assert!(endpoint.is_down());
}

#[test]
fn reading_goes_on_when_the_endpoint_is_down() {
    let (mut store, mut out) = ([0; STORE_LENGTH], [0; 16]);
    let (mut endpoint, session) = opened(&mut store);
    endpoint.request(session, 4, &mut out).unwrap();
    endpoint.receive(&[0xE5, 0x80, 0, 0, 0, 0, 4, 1, 2, 3, 4], &mut []).unwrap();
    assert_eq!(endpoint.receive(&[0], &mut []), Err(Refusal::UnknownOpcode));
    assert_eq!(endpoint.close(session, &mut out), Err(Refusal::LinkDown));
    assert_eq!(endpoint.receive(&[0xE1, 0x80, 1], &mut out), Err(Refusal::LinkDown));
    assert_eq!(endpoint.read(session, &mut out[..3]).unwrap(), [1, 2, 3]);
    assert_eq!(endpoint.read(session, &mut out).unwrap(), [4]);
    assert_eq!(endpoint.read(session, &mut out).unwrap(), []);
}

#[test]
fn what_our_calls_refuse() {
    let (mut store, mut out) = ([0; STORE_LENGTH], [0; 16]);
    let (mut endpoint, session) = opened(&mut store);
    assert_eq!(endpoint.open(16, &mut out), Err(Refusal::NotServed));
    assert_eq!(endpoint.open(0x8001, &mut out), Err(Refusal::OtherHalf));
    assert_eq!(endpoint.open(1, &mut out[..2]), Err(Refusal::OutputShort));
    let ours = endpoint.open(1, &mut out).unwrap().session;
    assert_eq!(endpoint.open(1, &mut out), Err(Refusal::NotClosed));
    assert_eq!(endpoint.read(Session { number: 0, ..ours }, &mut out), Err(Refusal::WrongSession));
    assert_eq!(endpoint.read(Session { identifier: 0x8000, ..ours }, &mut out), Err(Refusal::WrongSession));
    assert_eq!(endpoint.request(session, 0, &mut out), Err(Refusal::Empty));
    assert_eq!(endpoint.request(session, u32::MAX, &mut out), Err(Refusal::AboveRoom));
    assert_eq!(endpoint.transmit(session, b"a", &mut out), Err(Refusal::AboveOutput));
    endpoint.close(ours, &mut out).unwrap();
    assert_eq!(endpoint.close(ours, &mut out), Err(Refusal::NotOpen));
}

/// Where one would look for 29, which cannot occur.
#[test]
fn a_full_queue() {
    let (mut store, mut out) = ([0; STORE_LENGTH], [0; 16]);
    let (mut endpoint, session) = opened(&mut store);
    endpoint.request(session, 1024, &mut out).unwrap();
    let mut full = vec![0xE5, 0x80, 0, 0, 0, 4, 0];
    full.extend([7; 1024]);
    endpoint.receive(&full, &mut []).unwrap();
    let transmit = [0xE5, 0x80, 0, 0, 0, 0, 1, 7];
    let mut granted = *endpoint.numbers();
    assert_eq!(endpoint.receive(&transmit, &mut []), Err(Refusal::AboveInput));

    // Credit beside a full queue breaks the row rules: the input count of identifier 0x8000's row stands at 3 + 16 * 5 + 2.
    assert_eq!(granted[85..88], [0, 0, 1024]);
    granted[85] = 1;
    assert_eq!(Endpoint::resume(granted, &mut store).receive(&transmit, &mut []), Err(Refusal::RowRules));
}

#[test]
fn any_numbers_may_be_resumed() {
    let (mut store, mut out) = ([7; STORE_LENGTH], [0; 16]);
    let mut broken = Endpoint::resume([u32::MAX; NUMBERS], &mut store);
    assert_eq!(broken.row(0).unwrap().status, Status::Unknown(u32::MAX));
    assert_eq!(broken.open(0, &mut out), Err(Refusal::RowRules));
    assert_eq!(store, [7; STORE_LENGTH]);

    // The last session number was given: neither end can open any more.
    let mut numbers = [0; NUMBERS];
    numbers[2] = u32::MAX;
    let mut spent = Endpoint::resume(numbers, &mut store);
    assert_eq!(spent.open(0, &mut out), Err(Refusal::SessionsSpent));
    assert_eq!(spent.receive(&[0xE1, 0x80, 0], &mut out), Err(Refusal::OpenSessionsSpent));
}

#[test]
fn refusals_in_words_and_numbers() {
    assert_eq!(Refusal::WrongSession.to_string(), "the session is not the identifier's latest");
    for number in (1..=14).chain(20..=30) {
        let refusal = Refusal::from_number(number);
        assert_eq!((refusal.number(), refusal.takes_down()), (number, number >= 20));
        assert_ne!(refusal, Refusal::Unknown(number));
    }
    assert_eq!(Refusal::from_number(15), Refusal::Unknown(15));
}

#[test]
fn showing_an_endpoint_shows_no_data() {
    let (mut store, mut out) = ([0; STORE_LENGTH], [0; 16]);
    let (mut endpoint, session) = opened(&mut store);
    endpoint.request(session, 4, &mut out).unwrap();
    endpoint.receive(&[0xE5, 0x80, 0, 0, 0, 0, 2, 222, 223], &mut []).unwrap();
    assert!(!format!("{endpoint:?}").contains("222"));
}
