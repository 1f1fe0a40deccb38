//! 003's printed examples: every printed value is found in the printed bytes, and writing the values gives the bytes.

use sootlark_compare::examples::{base64, Example, EXAMPLES};
use sootlark_compare::second::message::{choose_version, read, Element, Message, Part};
use sootlark_compare::second::role;
use sootlark_compare::second::write::{write, Body, Dequeued, Domain, Head, Queues, Services, Strings, Xid};

const EXECUTION: &str = "cHPL9BRESkGHswCG8UP8YA==";
const DOMAIN_A: &str = "MV2sxhguTBK/mHfvqSTLhg==";
const DOMAIN_B: &str = "4va3w39zSgmCoKsVgbIfpQ==";
const XID_DATA: &str = "W2wb9vJLSA29vN71TDoIUVtsG/byS0gNvbze9Uw6CFI=";

fn example(kind: u64) -> &'static Example {
    EXAMPLES
        .iter()
        .find(|example| example.kind == kind)
        .expect("one of the eleven")
}

/// An example, read at the newest version that has it.
struct Given {
    bytes: Vec<u8>,
    version: u64,
}

impl Given {
    fn new(kind: u64) -> Self {
        let example = example(kind);
        Given {
            bytes: example.message(),
            version: example.version,
        }
    }

    fn message(&self) -> Message<'_> {
        let message = read(&self.bytes, self.version).expect("accepted");
        assert_eq!(message.used(), self.bytes.len());
        assert_eq!(self.cut(message.correlation()), &self.bytes[8..24]);
        assert_eq!(self.part(role::EXECUTION, &message), base64(EXECUTION));
        message
    }

    fn cut(&self, part: Part) -> &[u8] {
        &self.bytes[part.at..part.at + part.size]
    }

    fn part(&self, role: u64, message: &Message) -> &[u8] {
        self.cut(message.part(role).expect("a part"))
    }

    fn element_part(&self, role: u64, element: &Element) -> &[u8] {
        self.cut(element.part(role).expect("a part"))
    }

    /// That writing these values gives the example's bytes, at each version that has the type.
    fn is_written_from(&self, body: Body) {
        let correlation = &self.bytes[8..24];
        let execution = base64(EXECUTION);
        let head = Head {
            correlation,
            execution: &execution,
        };
        for version in body.kind().versions() {
            let mut out = vec![0xAA; self.bytes.len() + 1];
            assert_eq!(write(&mut out, version, head, &body), Ok(self.bytes.len()));
            assert_eq!(out[..self.bytes.len()], self.bytes);
            assert_eq!(out[self.bytes.len()], 0xAA);
        }
    }
}

fn strings<'a>(lengths: &'a [u64], bytes: &'a [u8]) -> Strings<'a> {
    Strings { lengths, bytes }
}

/// The bytes 80 to FF, which the example of 3103 has as its buffer.
fn buffer() -> Vec<u8> {
    (0x80..=0xFF).collect()
}

#[test]
fn connect_request() {
    let given = Given::new(7200);
    let message = given.message();
    assert_eq!(given.part(role::DOMAIN_ID, &message), base64(DOMAIN_A));
    assert_eq!(given.part(role::DOMAIN_NAME, &message), b"domain A");
    assert_eq!(message.count(role::PROTOCOL_VERSIONS), Ok(5));
    let versions = [1004, 1003, 1002, 1001, 1000];
    for (n, version) in versions.into_iter().enumerate() {
        let element = message.element(role::PROTOCOL_VERSIONS, n as u64).unwrap();
        assert_eq!(element.number(role::OFFERED), Ok(version));
    }
    assert_eq!(choose_version(&given.bytes, 1004), 1004);
    given.is_written_from(Body::ConnectRequest {
        domain: Domain {
            id: &base64(DOMAIN_A),
            name: b"domain A",
        },
        versions: &versions,
    });
}

#[test]
fn connect_reply() {
    let given = Given::new(7201);
    let message = given.message();
    assert_eq!(given.part(role::DOMAIN_ID, &message), base64(DOMAIN_A));
    assert_eq!(given.part(role::DOMAIN_NAME, &message), b"domain A");
    assert_eq!(message.number(role::PROTOCOL_VERSION), Ok(1000));
    given.is_written_from(Body::ConnectReply {
        domain: Domain {
            id: &base64(DOMAIN_A),
            name: b"domain A",
        },
        version: 1000,
    });
}

#[test]
fn disconnects() {
    Given::new(7202).message();
    Given::new(7202).is_written_from(Body::DisconnectRequest);
    Given::new(7203).message();
    Given::new(7203).is_written_from(Body::DisconnectReply);
}

#[test]
fn discovery_request() {
    let given = Given::new(7300);
    let message = given.message();
    assert_eq!(given.part(role::DOMAIN_ID, &message), base64(DOMAIN_A));
    assert_eq!(given.part(role::DOMAIN_NAME, &message), b"domain A");
    let lists: [(u64, [&[u8]; 3]); 2] = [
        (role::SERVICES, [b"service1", b"service2", b"service3"]),
        (role::QUEUES, [b"queue1", b"queue2", b"queue3"]),
    ];
    for (list, names) in lists {
        assert_eq!(message.count(list), Ok(3));
        for (n, name) in names.into_iter().enumerate() {
            let element = message.element(list, n as u64).unwrap();
            assert_eq!(given.element_part(role::NAME, &element), name);
        }
    }
    given.is_written_from(Body::DiscoveryRequest {
        domain: Domain {
            id: &base64(DOMAIN_A),
            name: b"domain A",
        },
        services: strings(&[8, 8, 8], b"service1service2service3"),
        queues: strings(&[6, 6, 6], b"queue1queue2queue3"),
    });
}

#[test]
fn discovery_reply() {
    let given = Given::new(7311);
    let message = given.message();
    assert_eq!(given.part(role::DOMAIN_ID, &message), base64(DOMAIN_B));
    assert_eq!(given.part(role::DOMAIN_NAME, &message), b"domain B");
    assert_eq!(message.count(role::SERVICES), Ok(1));
    let service = message.element(role::SERVICES, 0).unwrap();
    assert_eq!(given.element_part(role::NAME, &service), b"service1");
    assert_eq!(given.element_part(role::CATEGORY, &service), b"example");
    assert_eq!(service.number(role::TRANSACTION), Ok(1));
    assert_eq!(service.number(role::TIMEOUT), Ok(90_000_000_000));
    assert_eq!(service.number(role::HOPS), Ok(0));
    assert_eq!(message.count(role::QUEUES), Ok(1));
    let queue = message.element(role::QUEUES, 0).unwrap();
    assert_eq!(given.element_part(role::NAME, &queue), b"queue1");
    assert_eq!(queue.number(role::RETRY_COUNT), Ok(10));
    assert_eq!(queue.number(role::RETRY_DELAY), Ok(4_000_000));
    assert_eq!(queue.number(role::ENQUEUE), Ok(1));
    assert_eq!(queue.number(role::DEQUEUE), Ok(0));
    given.is_written_from(Body::DiscoveryReply {
        domain: Domain {
            id: &base64(DOMAIN_B),
            name: b"domain B",
        },
        services: Services {
            names: strings(&[8], b"service1"),
            categories: strings(&[7], b"example"),
            transactions: &[1],
            timeouts: &[90_000_000_000],
            hops: &[0],
        },
        queues: Queues {
            names: strings(&[6], b"queue1"),
            retry_counts: &[10],
            retry_delays: &[4_000_000],
            enqueues: &[1],
            dequeues: &[0],
        },
    });
}

#[test]
fn topology_update() {
    let given = Given::new(7302);
    let message = given.message();
    let id = base64("4fa3w39zSgmCoKsVgbIfog==");
    assert_eq!(message.count(role::DOMAINS), Ok(1));
    let domain = message.element(role::DOMAINS, 0).unwrap();
    assert_eq!(given.element_part(role::ID, &domain), id);
    assert_eq!(given.element_part(role::NAME, &domain), b"B");
    given.is_written_from(Body::TopologyUpdate {
        ids: &id,
        names: strings(&[1], b"B"),
    });
}

#[test]
fn service_reply() {
    let given = Given::new(3103);
    let message = given.message();
    assert_eq!(message.number(role::CODE_RESULT), Ok(11));
    assert_eq!(message.number(role::CODE_USER), Ok(42));
    assert_eq!(message.number(role::TRANSACTION_STATE), Ok(0));
    assert_eq!(given.part(role::BUFFER_TYPE, &message), b".binary/");
    assert_eq!(given.part(role::BUFFER_DATA, &message), buffer());
    given.is_written_from(Body::ServiceReply {
        result: 11,
        user: 42,
        state: 0,
        buffer_type: b".binary/",
        buffer_data: &buffer(),
    });
}

#[test]
fn rollbacks() {
    let data = base64(XID_DATA);
    let xid = Xid {
        format: 42,
        gtrid: 16,
        bqual: 16,
        data: &data,
    };
    for kind in [5205, 5206] {
        let given = Given::new(kind);
        let message = given.message();
        assert_eq!(message.xid_number(role::FORMAT_ID), Ok(42));
        assert_eq!(message.xid_number(role::GTRID_LENGTH), Ok(16));
        assert_eq!(message.xid_number(role::BQUAL_LENGTH), Ok(16));
        assert_eq!(given.part(role::XID, &message), data);
        assert_eq!(message.number(role::RESOURCE), Ok(42));
    }
    let request = Given::new(5205);
    assert_eq!(request.message().number(role::FLAGS), Ok(0));
    request.is_written_from(Body::RollbackRequest {
        xid,
        resource: 42,
        flags: 0,
    });
    let reply = Given::new(5206);
    assert_eq!(reply.message().number(role::STATE), Ok(0));
    reply.is_written_from(Body::RollbackReply {
        xid,
        resource: 42,
        state: 0,
    });
}

#[test]
fn dequeue_reply() {
    let given = Given::new(6201);
    let message = given.message();
    let id = base64("Uy+LbBV2Tcqf6CowAt5Xng==");
    let time = 1_559_762_216_552_100_000;
    assert_eq!(message.count(role::MESSAGES), Ok(1));
    let element = message.element(role::MESSAGES, 0).unwrap();
    assert_eq!(given.element_part(role::ID, &element), id);
    assert_eq!(given.element_part(role::PROPERTIES, &element), b"property 1:property 2");
    assert_eq!(given.element_part(role::REPLY_QUEUE, &element), b"queueB");
    assert_eq!(element.number(role::AVAILABLE), Ok(time));
    assert_eq!(given.element_part(role::DATA_TYPE, &element), b".json/");
    assert_eq!(given.element_part(role::DATA, &element), base64("e30="));
    assert_eq!(element.number(role::REDELIVERED), Ok(1));
    assert_eq!(element.number(role::TIMESTAMP), Ok(time));
    given.is_written_from(Body::DequeueReply(Dequeued {
        ids: &id,
        properties: strings(&[21], b"property 1:property 2"),
        reply_queues: strings(&[6], b"queueB"),
        availables: &[time],
        data_types: strings(&[6], b".json/"),
        data: strings(&[2], b"{}"),
        redelivereds: &[1],
        timestamps: &[time],
    }));
}
