//! Why a message is refused: lines worked out by hand from 02's T-08, the layouts of 003 and the readings, one for each
//! number and each kind of field at least.

use sootlark_compare::second::explain::{explain, Reason};

const ID: [u8; 16] = [0x22; 16];

fn message(kind: u64, payload: &[&[u8]]) -> Vec<u8> {
    let payload = payload.concat();
    sized(kind, payload.len() as u64, &payload)
}

/// A message whose header names any size.
fn sized(kind: u64, size: u64, payload: &[u8]) -> Vec<u8> {
    [&kind.to_be_bytes()[..], &[0x11; 16], &size.to_be_bytes(), payload].concat()
}

fn number(value: u64) -> [u8; 8] {
    value.to_be_bytes()
}

fn line(bytes: &[u8], version: u64) -> String {
    explain(bytes, version).to_string()
}

#[track_caller]
fn says(bytes: &[u8], version: u64, expected: &str) {
    assert_eq!(line(bytes, version), format!("{expected}\n"));
}

#[test]
fn an_accepted_message_has_no_reason() {
    let bytes = message(7202, &[&ID]);
    says(&bytes, 1001, "answer 0");
    assert_eq!(explain(&bytes, 1001), Reason::default());
    // Bytes behind the message are not looked at.
    says(&[&bytes[..], &[1, 2, 3]].concat(), 1001, "answer 0");
}

#[test]
fn not_whole() {
    says(&[], 1004, "answer 1 field header needed 32 had 0");
    says(&[0xFF; 31], 1004, "answer 1 field header needed 32 had 31");
    says(&sized(7202, 16, &[]), 1004, "answer 1 field payload needed 16 had 0");
    says(
        &sized(7202, 16, &[0; 15]),
        1004,
        "answer 1 field payload needed 16 had 15",
    );
    says(
        &sized(7202, 65_504, &[0; 100]),
        1004,
        "answer 1 field payload needed 65504 had 100",
    );
}

#[test]
fn version_type_and_size() {
    let most = u64::MAX;
    says(&[], 999, "answer 40 value 999");
    says(&message(7202, &[&ID]), 1005, "answer 40 value 1005");
    says(&[], most, "answer 40 value 18446744073709551615");
    // 3100 is in 003, but none of the eleven.
    says(&sized(3100, most, &[]), 1004, "answer 41 field header.type value 3100");
    says(
        &sized(7202 + (1 << 32), 16, &ID),
        1004,
        "answer 41 field header.type value 4294974498",
    );
    says(&sized(7202, most, &[]), 1000, "answer 42 field header.type value 7202");
    says(&message(6201, &[&ID]), 1004, "answer 42 field header.type value 6201");
    says(
        &sized(7202, 65_505, &[]),
        1004,
        "answer 43 field header.size value 65505",
    );
    says(
        &sized(7202, most, &ID),
        1004,
        "answer 43 field header.size value 18446744073709551615",
    );
}

#[test]
fn a_field_of_fixed_size_runs_past() {
    says(&message(7202, &[]), 1004, "answer 44 field execution needed 16 had 0");
    // Bytes beyond the size are not there, even if they are lent.
    says(
        &sized(7203, 15, &ID),
        1004,
        "answer 44 field execution needed 16 had 15",
    );
    says(
        &message(7200, &[&ID, &[0; 7]]),
        1004,
        "answer 44 field domain.id needed 16 had 7",
    );
    says(
        &message(3103, &[&ID, &[0; 3]]),
        1004,
        "answer 44 field code.result needed 4 had 3",
    );
    says(
        &message(3103, &[&ID, &[0; 4]]),
        1004,
        "answer 44 field code.user needed 8 had 0",
    );
    says(
        &message(3103, &[&ID, &[0; 12]]),
        1004,
        "answer 44 field transaction_state needed 1 had 0",
    );
    says(
        &message(5205, &[&ID, &number(0), &[0; 4]]),
        1004,
        "answer 44 field flags needed 8 had 0",
    );
    says(
        &message(5206, &[&ID, &number(0), &[0; 7]]),
        1004,
        "answer 44 field state needed 4 had 3",
    );
}

/// Which of the two fields of a string is named.
#[test]
fn a_string_runs_past() {
    let with = |rest: &[u8]| message(7201, &[&ID, &ID, rest]);
    says(&with(&[0; 5]), 1004, "answer 44 field domain.name.size needed 8 had 5");
    let data = [&number(20)[..], b"abc"].concat();
    says(&with(&data), 1004, "answer 44 field domain.name.data needed 20 had 3");
    says(
        &with(&number(1)),
        1004,
        "answer 44 field domain.name.data needed 1 had 0",
    );
    let most = "answer 44 field domain.name.data needed 18446744073709551615 had 0";
    says(&with(&number(u64::MAX)), 1004, most);
    // An empty string at the very end is whole.
    says(
        &with(&number(0)),
        1004,
        "answer 44 field protocol.version needed 8 had 0",
    );
    let reply = message(3103, &[&ID, &[0; 13], &number(2), b"t/", &number(9), &[0; 8]]);
    says(&reply, 1003, "answer 44 field buffer.data.data needed 9 had 8");
}

#[test]
fn an_xid() {
    let with = |lengths: &[u64], data: &[u8]| {
        let lengths: Vec<u8> = lengths.iter().flat_map(|&length| number(length)).collect();
        message(5205, &[&ID, &lengths, data])
    };
    says(&with(&[], &[0; 6]), 1000, "answer 44 field xid.formatID needed 8 had 6");
    says(
        &with(&[1], &[]),
        1000,
        "answer 44 field xid.gtrid_length needed 8 had 0",
    );
    says(&with(&[1, 65], &[]), 1000, "answer 45 field xid.gtrid_length value 65");
    says(
        &with(&[1, 64], &[9]),
        1000,
        "answer 44 field xid.bqual_length needed 8 had 1",
    );
    // The value is that of the length itself, not the sum; and the limit is that of the half, not of the sum.
    for gtrid in [0, 3, 64] {
        says(
            &with(&[1, gtrid, 65], &[]),
            1000,
            "answer 45 field xid.bqual_length value 65",
        );
    }
    let most = "answer 45 field xid.bqual_length value 18446744073709551615";
    says(&with(&[1, 1, u64::MAX], &[]), 1000, most);
    says(
        &with(&[1, 64, 64], &[7; 127]),
        1000,
        "answer 44 field xid.data needed 128 had 127",
    );
    // Data of no bytes is there.
    says(
        &with(&[1, 0, 0], &[7; 3]),
        1000,
        "answer 44 field resource needed 4 had 3",
    );
    says(&with(&[0], &[7; 3]), 1000, "answer 44 field resource needed 4 had 3");
}

/// A count is not judged; the first field that does not fit is named, with its element.
#[test]
fn a_count_that_lies() {
    let offers: Vec<u8> = (1000..1005).flat_map(number).collect();
    let with = |count: u64| message(7200, &[&ID, &ID, &number(0), &number(count), &offers]);
    says(&with(5), 1004, "answer 0");
    let sixth = "answer 44 field protocol.versions.element element 5 needed 8 had 0";
    says(&with(6), 1004, sixth);
    says(&with(u64::MAX), 1004, sixth);
    says(&with(4), 1004, "answer 46 left 8");
    let none = message(7302, &[&ID, &number(1 << 63)]);
    says(
        &none,
        1002,
        "answer 44 field domains.element.id element 0 needed 16 had 0",
    );
    says(
        &message(7302, &[&ID, &[0; 7]]),
        1002,
        "answer 44 field domains.size needed 8 had 7",
    );
}

#[test]
fn elements_are_counted_in_their_own_list() {
    let string = |text: &[u8]| [&number(text.len() as u64), text].concat();
    let head = [&ID[..], &ID, &string(b"room")].concat();
    let services = [&number(2)[..], &string(b"get"), &string(b"")].concat();
    let with = |queues: &[u8]| message(7300, &[&head, &services, queues]);
    says(&with(&[]), 1004, "answer 44 field content.queues.size needed 8 had 0");
    says(
        &with(&number(1)),
        1004,
        "answer 44 field content.queues.element.size element 0 needed 8 had 0",
    );
    let queues = [&number(2)[..], &string(b"q"), &number(4), b"abc"].concat();
    says(
        &with(&queues),
        1004,
        "answer 44 field content.queues.element.data element 1 needed 4 had 3",
    );
    let cut = message(7300, &[&head, &number(2), &string(b"get"), &number(6), b"store"]);
    says(
        &cut,
        1004,
        "answer 44 field content.services.element.data element 1 needed 6 had 5",
    );
}

/// A service of a 7311 with a mode, and a queue with two flags.
fn service(mode: u16) -> Vec<u8> {
    [&number(1)[..], b"s", &number(2), b"ca", &mode.to_be_bytes(), &[1; 16]].concat()
}

fn queue(enqueue: u8, dequeue: u8) -> Vec<u8> {
    [&number(1)[..], b"q", &[1; 16], &[enqueue, dequeue]].concat()
}

#[test]
fn values_that_are_not_allowed() {
    let head = [&ID[..], &ID, &number(0)].concat();
    let version = |chosen| message(7201, &[&head, &number(chosen)]);
    says(&version(1005), 1004, "answer 45 field protocol.version value 1005");
    says(&version(1), 1000, "answer 45 field protocol.version value 1");
    let state = |state| message(3103, &[&ID, &[0; 12], &[state]]);
    says(&state(4), 1004, "answer 45 field transaction_state value 4");
    says(&state(255), 1004, "answer 45 field transaction_state value 255");
    says(&state(3), 1004, "answer 44 field buffer.type.size needed 8 had 0");
    let modes = |last| message(7311, &[&head, &number(2), &service(3), &service(last), &number(0)]);
    says(
        &modes(4),
        1004,
        "answer 45 field content.services.element.transaction element 1 value 4",
    );
    says(
        &modes(0x0103),
        1004,
        "answer 45 field content.services.element.transaction element 1 value 259",
    );
    let flags = |last: Vec<u8>| message(7311, &[&head, &number(0), &number(2), &queue(1, 0), &last]);
    says(
        &flags(queue(2, 9)),
        1004,
        "answer 45 field content.queues.element.enable.enqueue element 1 value 2",
    );
    says(
        &flags(queue(0, 255)),
        1004,
        "answer 45 field content.queues.element.enable.dequeue element 1 value 255",
    );
}

/// Half a value is not judged.
#[test]
fn room_comes_before_value() {
    let head = [&ID[..], &ID, &number(0)].concat();
    let service = service(4);
    let half = message(7311, &[&head, &number(1), &service[..20]]);
    says(
        &half,
        1004,
        "answer 44 field content.services.element.transaction element 0 needed 2 had 1",
    );
}

#[test]
fn a_dequeued_message() {
    let empty: [&[u8]; 2] = [&ID, &[0; 56]];
    let whole = empty.concat();
    let second = |rest: &[&[u8]]| message(6201, &[&ID, &number(2), &whole, &rest.concat()]);
    let field = "answer 44 field message.element.";
    says(
        &second(&[&[0; 9]]),
        1002,
        &format!("{field}id element 1 needed 16 had 9"),
    );
    let properties = format!("{field}attributes.properties.data element 1 needed 3 had 2");
    says(&second(&[&ID, &number(3), b"ab"]), 1000, &properties);
    let available = format!("{field}attributes.available element 1 needed 8 had 0");
    says(&second(&[&ID, &[0; 16]]), 1001, &available);
    let data = format!("{field}payload.data.data element 1 needed 17 had 16");
    says(&second(&[&ID, &[0; 32], &number(17), &[0; 16]]), 1002, &data);
    says(
        &second(&[&ID, &[0; 55]]),
        1002,
        &format!("{field}timestamp element 1 needed 8 had 7"),
    );
    says(&second(&[&whole]), 1002, "answer 0");
}

#[test]
fn bytes_left_over() {
    says(&message(7202, &[&ID, &[0]]), 1004, "answer 46 left 1");
    says(
        &message(7302, &[&ID, &number(0), &[0; 100]]),
        1004,
        "answer 46 left 100",
    );
    // A last name that ends short of the payload.
    let short = message(7302, &[&ID, &number(1), &ID, &number(3), b"north"]);
    says(&short, 1004, "answer 46 left 2");
}
