//! Every message type written and read back, and what the writers refuse.

use sootlark::write::{
    ConnectReply, ConnectRequest, DequeueReply, DisconnectReply, DisconnectRequest, DiscoveryReply, DiscoveryRequest,
    Head, Queues, RollbackReply, RollbackRequest, ServiceReply, Services, Strings, TopologyUpdate, Xid,
};
use sootlark::{raw, Fault, Id, List, Message, MessageKind, Role};

const ID: Id = *b"0123456789abcdef";
const CORRELATION: Id = [0x11; 16];
const EXECUTION: Id = [0x22; 16];

fn head(version: u64) -> Head<'static> {
    Head { version, correlation: &CORRELATION, execution: &EXECUTION }
}

/// The message just written, read at a version: its kind and head are as expected, and it fills its bytes.
fn read(bytes: &[u8], version: u64, kind: MessageKind) -> Message<'_> {
    let message = Message::read(bytes, version).unwrap();
    assert_eq!((message.kind(), message.version(), message.used()), (kind, version, bytes.len()));
    assert_eq!((message.correlation(), message.execution()), (Ok(&CORRELATION), Ok(&EXECUTION)));
    message
}

/// The names of a list's elements.
fn names<'a>(message: &Message<'a>, list: List) -> Vec<&'a [u8]> {
    message.elements(list).unwrap().map(|element| element.name().unwrap()).collect()
}

#[test]
fn a_written_message_has_the_bytes_of_its_layout() {
    let mut out = [0xFF; 100];
    let reply = ServiceReply { result: 0x01020304, user: 5, state: 3, buffer_type: b"t", buffer_data: b"abc" };
    let used = reply.write(&head(1004), &mut out).unwrap().len();
    let parts: [&[u8]; 11] = [
        &3103u64.to_be_bytes(),
        &CORRELATION,
        &49u64.to_be_bytes(),
        &EXECUTION,
        &[1, 2, 3, 4],
        &5u64.to_be_bytes(),
        &[3],
        &1u64.to_be_bytes(),
        b"t",
        &3u64.to_be_bytes(),
        b"abc",
    ];
    assert_eq!(out[..used], parts.concat());
    assert_eq!(out[used..], [0xFF; 100][used..]);
}

#[test]
fn disconnects() {
    let mut out = [0; 48];
    let written = DisconnectRequest.write(&head(1001), &mut out).unwrap();
    read(written, 1001, MessageKind::DisconnectRequest);
    let written = DisconnectReply.write(&head(1001), &mut out).unwrap();
    read(written, 1001, MessageKind::DisconnectReply);
}

#[test]
fn connect_request() {
    let mut out = [0; 256];
    let request = ConnectRequest { domain_id: &ID, domain_name: b"clinic", versions: &[1004, 1002, 9] };
    let message = read(request.write(&head(1000), &mut out).unwrap(), 1000, MessageKind::ConnectRequest);
    assert_eq!((message.domain_id(), message.domain_name()), (Ok(&ID), Ok(&b"clinic"[..])));
    let offers: Vec<_> = message.elements(List::ProtocolVersions).unwrap().map(|e| e.offered().unwrap()).collect();
    assert_eq!(offers, [1004, 1002, 9]);
    assert_eq!(message.choose_version(), Some(1004));
}

#[test]
fn connect_reply() {
    let mut out = [0; 256];
    let reply = ConnectReply { domain_id: &ID, domain_name: b"", version: 1003 };
    let message = read(reply.write(&head(1004), &mut out).unwrap(), 1004, MessageKind::ConnectReply);
    assert_eq!((message.domain_id(), message.domain_name()), (Ok(&ID), Ok(&b""[..])));
    assert_eq!(message.protocol_version(), Ok(1003));
    assert_eq!(message.choose_version(), None);
}

#[test]
fn discovery_request() {
    let mut out = [0; 256];
    let request = DiscoveryRequest {
        domain_id: &ID,
        domain_name: b"room 4",
        services: Strings { lengths: &[3, 0, 5], joined: b"getstore" },
        queues: Strings { lengths: &[1], joined: b"q" },
    };
    let message = read(request.write(&head(1004), &mut out).unwrap(), 1004, MessageKind::DiscoveryRequest);
    assert_eq!((message.domain_id(), message.domain_name()), (Ok(&ID), Ok(&b"room 4"[..])));
    assert_eq!(names(&message, List::Services), [&b"get"[..], b"", b"store"]);
    assert_eq!(names(&message, List::Queues), [b"q"]);
}

#[test]
fn topology_update() {
    let mut out = [0; 256];
    let update = TopologyUpdate { ids: &[ID, EXECUTION], names: Strings { lengths: &[5, 6], joined: b"northsouth " } };
    let message = read(update.write(&head(1002), &mut out).unwrap(), 1002, MessageKind::TopologyUpdate);
    assert_eq!(names(&message, List::Domains), [&b"north"[..], b"south "]);
    let ids: Vec<_> = message.elements(List::Domains).unwrap().map(|element| element.id().unwrap()).collect();
    assert_eq!(ids, [&ID, &EXECUTION]);
}

#[test]
fn discovery_reply() {
    let mut out = [0; 512];
    let reply = DiscoveryReply {
        domain_id: &ID,
        domain_name: b"records",
        services: Services {
            names: Strings { lengths: &[3, 3], joined: b"getput" },
            categories: Strings { lengths: &[0, 1], joined: b"c" },
            transactions: &[1, 3],
            timeouts: &[10, 20],
            hops: &[30, 40],
        },
        queues: Queues {
            names: Strings { lengths: &[4], joined: b"post" },
            retry_counts: &[50],
            retry_delays: &[60],
            enqueues: &[1],
            dequeues: &[0],
        },
    };
    let message = read(reply.write(&head(1004), &mut out).unwrap(), 1004, MessageKind::DiscoveryReply);
    assert_eq!((message.domain_id(), message.domain_name()), (Ok(&ID), Ok(&b"records"[..])));
    let service = message.elements(List::Services).unwrap().nth(1).unwrap();
    assert_eq!((service.name(), service.category()), (Ok(&b"put"[..]), Ok(&b"c"[..])));
    assert_eq!((service.transaction(), service.timeout(), service.hops()), (Ok(3), Ok(20), Ok(40)));
    let queue = message.elements(List::Queues).unwrap().next().unwrap();
    assert_eq!((queue.name(), queue.retry_count(), queue.retry_delay()), (Ok(&b"post"[..]), Ok(50), Ok(60)));
    assert_eq!((queue.enqueue(), queue.dequeue()), (Ok(true), Ok(false)));
    let error = queue.category().unwrap_err();
    assert_eq!((error.fault, error.place, error.reason()), (Fault::NoField, 0, None));
}

#[test]
fn service_reply() {
    let mut out = [0; 256];
    let reply =
        ServiceReply { result: u32::MAX, user: 2, state: 1, buffer_type: b".binary/", buffer_data: b"audiogram" };
    let message = read(reply.write(&head(1003), &mut out).unwrap(), 1003, MessageKind::ServiceReply);
    assert_eq!((message.code_result(), message.code_user()), (Ok(u32::MAX), Ok(2)));
    assert_eq!(message.transaction_state(), Ok(1));
    assert_eq!((message.buffer_type(), message.buffer_data()), (Ok(&b".binary/"[..]), Ok(&b"audiogram"[..])));

    // The data is not a copy: it lies in the bytes that were lent.
    assert!(message.bytes().as_ptr_range().contains(&message.buffer_data().unwrap().as_ptr()));
}

#[test]
fn rollbacks() {
    let mut out = [0; 256];
    let xid = Xid { format: 42, gtrid_length: 2, bqual_length: 3, data: b"ggbbb" };
    let request = RollbackRequest { xid, resource: 7, flags: u64::MAX };
    let message = read(request.write(&head(1000), &mut out).unwrap(), 1000, MessageKind::RollbackRequest);
    assert_eq!((message.xid(), message.resource(), message.flags()), (Ok(xid), Ok(7), Ok(u64::MAX)));

    let reply = RollbackReply { xid: Xid::default(), resource: 8, state: 9 };
    let message = read(reply.write(&head(1000), &mut out).unwrap(), 1000, MessageKind::RollbackReply);
    assert_eq!((message.xid(), message.resource(), message.state()), (Ok(Xid::default()), Ok(8), Ok(9)));
}

/// Each half of an xid is at most 64 bytes; but first the lengths have to sum to the data.
#[test]
fn halves_of_an_xid() {
    let write = |gtrid_length, bqual_length, size| {
        let xid = Xid { format: 1, gtrid_length, bqual_length, data: &[0x44; 130][..size] };
        let request = RollbackRequest { xid, resource: 7, flags: 0 };
        let written = request.write(&head(1000), &mut [0; 256]).map(|message| message.len());
        written.map_err(|error| (error.number(), error.place))
    };
    assert_eq!(write(64, 64, 128), Ok(32 + 16 + 24 + 128 + 4 + 8));
    assert_eq!(write(65, 0, 65), Err((45, 0)));
    assert_eq!(write(0, 65, 65), Err((45, 0)));
    assert_eq!(write(65, 0, 64), Err((48, 0)));
}

#[test]
fn dequeue_reply() {
    let mut out = [0; 512];
    let reply = DequeueReply {
        ids: &[EXECUTION, ID],
        properties: Strings { lengths: &[0, 1], joined: b"p" },
        reply_queues: Strings { lengths: &[1, 2], joined: b"rrr" },
        availables: &[10, 11],
        types: Strings { lengths: &[2, 3], joined: b"ttuuu" },
        data: Strings { lengths: &[0, 4], joined: b"data" },
        redelivereds: &[12, 13],
        timestamps: &[14, 15],
    };
    let message = read(reply.write(&head(1002), &mut out).unwrap(), 1002, MessageKind::DequeueReply);
    assert_eq!(message.count(List::Messages), Ok(2));
    let last = message.elements(List::Messages).unwrap().last().unwrap();
    assert_eq!((last.id(), last.properties(), last.reply_queue()), (Ok(&ID), Ok(&b"p"[..]), Ok(&b"rr"[..])));
    assert_eq!((last.available(), last.data_type(), last.data()), (Ok(11), Ok(&b"uuu"[..]), Ok(&b"data"[..])));
    assert_eq!((last.redelivered(), last.timestamp()), (Ok(13), Ok(15)));
}

#[test]
fn what_a_message_lacks() {
    let mut out = [0; 48];
    let message = read(DisconnectRequest.write(&head(1004), &mut out).unwrap(), 1004, MessageKind::DisconnectRequest);
    assert_eq!(message.part(Role::BufferData).unwrap_err().number(), 50);
    assert_eq!(message.number(Role::Execution).unwrap_err().number(), 50);
    assert_eq!(message.xid().unwrap_err().number(), 50);
    assert_eq!(message.count(List::Services).unwrap_err().number(), 49);
    assert_eq!(message.element_part(List::Services, 0, Role::Name).unwrap_err().number(), 49);
    assert_eq!(message.element_number(List::Services, u64::MAX, Role::Hops).unwrap_err().number(), 49);
}

/// A 7202 with a byte after its last field: each call that hands back a part of it says where it is at fault.
#[test]
fn a_part_of_a_refused_message_has_the_readings_place() {
    let mut out = [0; 49];
    DisconnectRequest.write(&head(1004), &mut out).unwrap();
    out[31] = 17;
    let error = Message::read(&out, 1004).unwrap_err();
    assert_eq!((error.fault, error.place), (Fault::BytesAfter, 16));
    for call in 0..3 {
        let (bytes, length) = (out.as_ptr(), out.len());
        let (mut at, mut size, mut place) = (7, 7, 7);
        // SAFETY: the pointer and the length are those of a slice, and the results are variables of our own.
        let number = unsafe {
            match call {
                0 => raw::sootlark_correlation(bytes, length, 1004, &mut at, &mut size, &mut place),
                1 => raw::sootlark_part(bytes, length, 1004, 0, &mut at, &mut size, &mut place),
                _ => raw::sootlark_element_part(bytes, length, 1004, 5, 0, 19, &mut at, &mut size, &mut place),
            }
        };
        assert_eq!((number, at, size, place), (46, 0, 0, 16));
    }
}

#[test]
fn what_writers_refuse() {
    let mut out = [0xFF; 64];
    let reply = ServiceReply::default();
    let number = |version, reply: &ServiceReply, out: &mut [u8]| reply.write(&head(version), out).unwrap_err().number();
    assert_eq!(number(999, &reply, &mut out), 40);
    assert_eq!(number(1002, &reply, &mut out), 42);
    assert_eq!(number(1004, &ServiceReply { state: 4, ..reply }, &mut out), 45);
    assert_eq!(number(1004, &ServiceReply { buffer_data: &[0; 65_505], ..reply }, &mut out), 43);
    assert_eq!(number(1004, &reply, &mut out), 47);
    let differing = TopologyUpdate { ids: &[ID], names: Strings::default() };
    assert_eq!(differing.write(&head(1004), &mut out).unwrap_err().number(), 48);
    assert_eq!(out, [0xFF; 64]);
}

#[test]
fn errors_in_words() {
    let past = Message::read(&DISCONNECT_CUT, 1004).unwrap_err();
    assert_eq!(past.to_string(), "execution needs 16 bytes, and 0 are there");
    assert_eq!(Message::read(&[], 1004).unwrap_err().to_string(), "the header needs 32 bytes, and 0 are there");
    let short = DisconnectRequest.write(&head(1004), &mut []).unwrap_err();
    assert_eq!(short.to_string(), "the output is too short for the message");
    assert_eq!(Fault::from_number(99), Fault::Unknown(99));
    assert_eq!(Fault::Unknown(99).number(), 99);
}

/// A 7202 without a payload.
const DISCONNECT_CUT: [u8; 32] = {
    let mut bytes = [0; 32];
    (bytes[6], bytes[7]) = (0x1C, 0x22);
    bytes
};
