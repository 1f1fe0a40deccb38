//! The fourteen cases that 01 lists, and points of 01 and of the readings that are easily missed.

use sootlark_compare::second::link::{self, Endpoint, Opened, Ran, Received, Refusal, Status, QUEUE, STORE};
use sootlark_compare::second::message::{choose, read, Fault, Refusal as Refused};
use sootlark_compare::second::mirror::{endpoint_from, numbers_of, NUMBERS};
use sootlark_compare::second::role;
use sootlark_compare::second::write::{write, Body, Head, Queues, Services, Strings, Xid};

const ID: [u8; 16] = [0x22; 16];

fn message(kind: u64, payload: &[u8]) -> Vec<u8> {
    sized(kind, payload.len() as u64, payload)
}

/// A message whose header names any size.
fn sized(kind: u64, size: u64, payload: &[u8]) -> Vec<u8> {
    let mut bytes = kind.to_be_bytes().to_vec();
    bytes.extend([0x11; 16]);
    bytes.extend(size.to_be_bytes());
    bytes.extend(payload);
    bytes
}

/// Fields one after another.
fn joined(fields: &[&[u8]]) -> Vec<u8> {
    fields.concat()
}

fn number(value: u64) -> [u8; 8] {
    value.to_be_bytes()
}

fn fault(bytes: &[u8], version: u64) -> (u64, usize) {
    let Refused { fault, place } = read(bytes, version).expect_err("refused");
    (fault.number(), place)
}

fn used(bytes: &[u8], version: u64) -> usize {
    read(bytes, version).expect("accepted").used()
}

/// An endpoint, its store, and an output.
struct Link {
    endpoint: Endpoint,
    store: Vec<u8>,
    out: Vec<u8>,
}

impl Link {
    fn new(began: bool) -> Self {
        let mut store = vec![0x55; STORE];
        let (endpoint, made) = link::make(began, &mut store);
        assert_eq!(made, Ok(()));
        assert!(store.iter().all(|&byte| byte == 0));
        let out = vec![0xCC; 2048];
        Link { endpoint, store, out }
    }

    fn open(&mut self, id: u16) -> Result<Opened, Refusal> {
        self.endpoint.open(&mut self.store, id, &mut self.out)
    }

    fn close(&mut self, id: u16, session: u32) -> Result<usize, Refusal> {
        self.endpoint.close(&mut self.store, id, session, &mut self.out)
    }

    fn request(&mut self, id: u16, session: u32, amount: u32) -> Result<usize, Refusal> {
        self.endpoint
            .request(&mut self.store, id, session, amount, &mut self.out)
    }

    fn read(&mut self, id: u16, session: u32) -> Result<Vec<u8>, Refusal> {
        let given = self.endpoint.read(&mut self.store, id, session, &mut self.out)?;
        Ok(self.out[..given].to_vec())
    }

    fn receive(&mut self, bytes: &[u8]) -> Result<Received, Refusal> {
        self.endpoint.receive(&mut self.store, bytes, &mut self.out)
    }

    fn run(&mut self, n: usize, bytes: &[u8]) -> Ran {
        self.endpoint.run(&mut self.store, n, bytes, &mut self.out)
    }
}

#[test]
fn case_1_no_bytes() {
    assert_eq!(fault(&[], 1004), (1, 0));
    assert_eq!(Link::new(false).receive(&[]), Err(Refusal::NotWhole));
}

#[test]
fn case_2_disconnect_by_version() {
    let bytes = message(7202, &ID);
    assert_eq!(used(&bytes, 1001), 48);
    assert_eq!(fault(&bytes, 1000), (42, 0));
}

#[test]
fn cases_3_to_5_sizes() {
    let mut longer = sized(7202, 17, &ID);
    longer.push(0);
    assert_eq!(fault(&longer, 1004), (46, 16));
    assert_eq!(fault(&sized(7202, 15, &ID), 1004), (44, 0));
    assert_eq!(fault(&sized(7202, 65_505, &ID), 1004), (43, 0));
}

#[test]
fn case_6_chosen_version() {
    let with = |version| message(7201, &joined(&[&ID, &ID, &number(1), b"n", &number(version)]));
    assert_eq!(fault(&with(1005), 1004), (45, 16 + 16 + 8 + 1));
    assert_eq!(used(&with(0), 1004), 32 + 49);
}

#[test]
fn cases_7_to_9_xid() {
    let tail = [0; 12];
    let absent = joined(&[&ID, &number(0), &tail]);
    assert_eq!(absent.len(), 36);
    assert_eq!(used(&message(5205, &absent), 1004), 68);
    let with = |gtrid, bqual, data: usize| {
        let fields: [&[u8]; 6] = [&ID, &number(1), &number(gtrid), &number(bqual), &vec![3; data], &tail];
        message(5205, &joined(&fields))
    };
    // 8 and 9 by 02's T-03
    assert_eq!(used(&with(64, 64, 128), 1004), 32 + 16 + 24 + 128 + 12);
    assert_eq!(fault(&with(65, 0, 65), 1004), (45, 24));
    assert_eq!(fault(&with(0, 65, 65), 1004), (45, 32));
    assert_eq!(fault(&with(65, 65, 130), 1004), (45, 24));
    assert_eq!(fault(&with(128, 1, 129), 1004), (45, 24));
    assert_eq!(fault(&with(1, u64::MAX, 0), 1004), (45, 32));
    assert_eq!(fault(&with(u64::MAX, 1, 0), 1004), (45, 24));
    assert_eq!(used(&with(0, 0, 0), 1004), 32 + 16 + 24 + 12);
}

#[test]
fn case_10_choice() {
    assert_eq!(choose([1005, 1003, 1003]), 1003);
    assert_eq!(choose([]), 0);
}

#[test]
fn case_11_request() {
    let mut link = Link::new(false);
    let session = link.open(0).unwrap().session;
    assert_eq!(session, 1);
    assert_eq!(link.request(0, session, 1024), Ok(7));
    assert_eq!(link.out[..7], [0xE4, 0, 0, 0, 0, 4, 0]);
    assert_eq!(link.request(0, session, 1), Err(Refusal::AboveRoom));
}

#[test]
fn case_12_transmit_without_credit() {
    let mut link = Link::new(false);
    link.open(0).unwrap();
    assert_eq!(link.receive(&[0xE5, 0, 0, 0, 0, 0, 1]), Err(Refusal::AboveInput));
    assert!(link.endpoint.down);
}

/// Where a technician would look for 29, which cannot occur: what is above the credit is 27, and credit that would not fit
/// beside the unread bytes breaks the row rules.
#[test]
fn a_full_queue() {
    let mut link = Link::new(false);
    let session = link.open(0).unwrap().session;
    link.request(0, session, 1024).unwrap();
    let transmit = |count: usize| {
        let mut bytes = vec![0xE5, 0, 0, 0, 0, (count / 256) as u8, (count % 256) as u8];
        bytes.extend(vec![7; count]);
        bytes
    };
    assert_eq!(link.receive(&transmit(1000)).unwrap().used, 1007);
    assert_eq!(link.receive(&transmit(24)).unwrap().used, 31);
    assert_eq!((link.endpoint.rows[0].unread, link.endpoint.rows[0].input), (1024, 0));
    let mut granted = link.endpoint;
    granted.rows[0].input = 1;
    let mut store = link.store.clone();
    assert_eq!(
        granted.receive(&mut store, &transmit(1), &mut []),
        Err(Refusal::RowRules)
    );
    assert_eq!(link.receive(&transmit(1)), Err(Refusal::AboveInput));
    assert!(link.endpoint.down);
}

#[test]
fn case_13_crossing_close() {
    let mut link = Link::new(false);
    let session = link.open(0).unwrap().session;
    assert_eq!(link.close(0, session), Ok(3));
    link.out.fill(0xCC);
    let received = link.receive(&[0xE2, 0, 0]).unwrap();
    assert_eq!((received.used, received.written), (3, 0));
    assert!(link.out.iter().all(|&byte| byte == 0xCC));
    assert_eq!(link.endpoint.rows[0].status, Status::Closed);
}

#[test]
fn case_14_unread_is_dropped_by_opening() {
    let mut link = Link::new(false);
    assert_eq!(link.receive(&[0xE1, 0x80, 0]).unwrap().session, 1);
    assert_eq!(link.request(0x8000, 1, 10), Ok(7));
    let received = link.receive(&[0xE5, 0x80, 0, 0, 0, 0, 3, 7, 8, 9]).unwrap();
    assert_eq!(received.used, 10);
    assert_eq!(link.receive(&[0xE2, 0x80, 0]).unwrap().written, 3);
    assert_eq!(link.out[..3], [0xE3, 0x80, 0]);
    assert_eq!(link.endpoint.rows[16].unread, 3);
    assert_eq!(link.receive(&[0xE1, 0x80, 0]).unwrap().session, 2);
    assert_eq!(link.read(0x8000, 1), Err(Refusal::WrongSession));
    assert_eq!(link.read(0x8000, 2), Ok(vec![]));
}

// Points that are easily missed.

#[test]
fn order_of_reading() {
    assert_eq!(fault(&[], 999), (40, 0));
    assert_eq!(fault(&sized(7202 + (1 << 32), u64::MAX, &[]), 1004), (41, 0));
    assert_eq!(fault(&sized(7202, u64::MAX, &[]), 1000), (42, 0));
    assert_eq!(fault(&sized(7202, 65_504, &ID), 1001), (1, 0));
}

#[test]
fn strings_and_counts() {
    let name = |size: u64, rest: &[u8]| message(7300, &joined(&[&ID, &ID, &number(size), rest]));
    // Too large a size is a fault of the data. It is answered at the size, which stands behind two ids (02's T-02).
    assert_eq!(fault(&name(u64::MAX, &[]), 1000), (44, 16 + 16));
    // An empty string at the very end is whole; the next count is missing.
    assert_eq!(fault(&name(0, &number(0)), 1000), (44, 48));
    assert_eq!(used(&name(0, &joined(&[&number(0), &number(0)])), 1000), 32 + 56);
    // An absurd count is no fault, the element that is missing is.
    assert_eq!(fault(&name(0, &number(u64::MAX)), 1000), (44, 48));
    // Half a number is missing, not wrong.
    let service = joined(&[&number(0), &number(1), &number(0), &number(0), &[9]]);
    assert_eq!(
        fault(&message(7311, &joined(&[&ID, &ID, &service])), 1004),
        (44, 32 + 32)
    );
}

#[test]
fn a_last_name_that_ends_short_of_the_payload() {
    let payload = joined(&[&ID, &number(1), &ID, &number(1), b"ab"]);
    assert_eq!(fault(&message(7302, &payload), 1002), (46, 49));
}

#[test]
fn elements_and_fields_that_are_not_there() {
    let bytes = message(7302, &joined(&[&ID, &number(1), &ID, &number(1), b"a"]));
    let message = read(&bytes, 1002).unwrap();
    assert_eq!(message.element(role::DOMAINS, 1), Err(Fault::NoElement));
    assert_eq!(message.element(role::SERVICES, 0), Err(Fault::NoElement));
    assert_eq!(message.count(role::EXECUTION), Err(Fault::NoElement));
    let element = message.element(role::DOMAINS, 0).unwrap();
    assert_eq!(element.number(role::NAME), Err(Fault::NoField));
    assert_eq!(message.part(role::DOMAIN_NAME), Err(Fault::NoField));
    assert_eq!(message.xid_number(role::FORMAT_ID), Err(Fault::NoField));
}

fn written(version: u64, body: Body, length: usize) -> Result<usize, Fault> {
    let head = Head {
        correlation: &ID,
        execution: &ID,
    };
    let mut out = vec![0xCC; length];
    let done = write(&mut out, version, head, &body);
    if done.is_err() {
        assert!(out.iter().all(|&byte| byte == 0xCC));
    }
    done
}

fn rollback(format: u64, gtrid: u64, bqual: u64, data: &[u8]) -> Result<usize, Fault> {
    let xid = Xid {
        format,
        gtrid,
        bqual,
        data,
    };
    let body = Body::RollbackRequest {
        xid,
        resource: 1,
        flags: 2,
    };
    written(1000, body, 300)
}

#[test]
fn writing_an_xid() {
    assert_eq!(rollback(0, 0, 0, &[]), Ok(68));
    assert_eq!(rollback(0, 1, 0, &[1]), Err(Fault::ListsDisagree));
    assert_eq!(rollback(1, 0, 0, &[]), Ok(84));
    assert_eq!(rollback(1, 64, 64, &[0; 128]), Ok(84 + 128));
    assert_eq!(rollback(1, 65, 0, &[0; 65]), Err(Fault::BadValue));
    assert_eq!(rollback(1, 0, 65, &[0; 65]), Err(Fault::BadValue));
    assert_eq!(rollback(1, 65, 0, &[0; 64]), Err(Fault::ListsDisagree));
    assert_eq!(rollback(1, 1 << 63, 1 << 63, &[]), Err(Fault::ListsDisagree));
}

#[test]
fn writing_tests_in_order() {
    let services = |mode, length, name| Services {
        names: Strings {
            lengths: length,
            bytes: name,
        },
        categories: Strings {
            lengths: &[0],
            bytes: &[],
        },
        transactions: mode,
        timeouts: &[0],
        hops: &[0],
    };
    let queues = Queues {
        names: Strings {
            lengths: &[],
            bytes: &[],
        },
        retry_counts: &[],
        retry_delays: &[],
        enqueues: &[],
        dequeues: &[],
    };
    let reply = |services| Body::DiscoveryReply {
        domain: sootlark_compare::second::write::Domain { id: &ID, name: &[] },
        services,
        queues,
    };
    let large = vec![0; 70_000];
    // A mode that only fits once it is narrowed is not allowed.
    assert_eq!(
        written(1004, reply(services(&[65_536], &[0], &[])), 500),
        Err(Fault::BadValue)
    );
    // 42, 48, 45, 43, 47, each before the next.
    assert_eq!(
        written(1003, reply(services(&[4], &[70_001], &large)), 0),
        Err(Fault::TypeNotInVersion)
    );
    assert_eq!(
        written(1004, reply(services(&[4], &[70_001], &large)), 0),
        Err(Fault::ListsDisagree)
    );
    assert_eq!(
        written(1004, reply(services(&[4], &[70_000], &large)), 0),
        Err(Fault::BadValue)
    );
    assert_eq!(
        written(1004, reply(services(&[3], &[70_000], &large)), 0),
        Err(Fault::TooLarge)
    );
    assert_eq!(
        written(1004, reply(services(&[3], &[0], &[])), 0),
        Err(Fault::OutputShort)
    );
}

#[test]
fn order_of_receiving() {
    let receive = |bytes: &[u8]| Link::new(false).receive(bytes).map_err(Refusal::number);
    assert_eq!(receive(&[0xE0]), Err(20));
    assert_eq!(receive(&[0xE1, 0x80]), Err(1));
    assert_eq!(receive(&[0xE4, 0x80, 0x10]), Err(21));
    assert_eq!(receive(&[0xE4, 0x80, 0]), Err(1));
    assert_eq!(receive(&[0xE4, 0x80, 0, 0, 0, 0, 0]), Err(22));
    assert_eq!(receive(&[0xE4, 0x80, 0, 0x80, 0, 0, 0]), Err(22));
    assert_eq!(receive(&[0xE5, 0x80, 0, 0, 0, 0, 1]), Err(25));
    assert_eq!(receive(&[0xE1, 0, 0]), Err(23));
    assert_eq!(receive(&[0xE3, 0, 0]), Err(26));
}

#[test]
fn credit_is_used_while_pending() {
    let mut link = Link::new(false);
    let session = link.open(1).unwrap().session;
    link.request(1, session, 4).unwrap();
    link.close(1, session).unwrap();
    assert_eq!(link.endpoint.rows[1].input, 4);
    let transmit = [0xE5, 0, 1, 0, 0, 0, 3, 1, 2, 3];
    assert_eq!(link.receive(&transmit[..9]), Err(Refusal::NotWhole));
    assert_eq!(link.receive(&transmit).unwrap().used, 10);
    assert_eq!(link.endpoint.rows[1].input, 1);
    assert_eq!(link.endpoint.rows[1].unread, 0);
    assert!(link.store.iter().all(|&byte| byte == 0));
    assert_eq!(link.receive(&transmit), Err(Refusal::AboveInput));
}

#[test]
fn runs() {
    let ran = |accepted, used, written, stopped| Ran {
        accepted,
        used,
        written,
        stopped,
    };
    let open_close = [0xE1, 0x80, 0, 0xE2, 0x80, 0];
    assert_eq!(Link::new(false).run(9, &[]), ran(0, 0, 0, None));
    assert_eq!(Link::new(false).run(0, &[0]), ran(0, 0, 0, None));
    assert_eq!(Link::new(false).run(1, &open_close), ran(1, 3, 0, None));
    assert_eq!(Link::new(false).run(9, &open_close), ran(2, 6, 3, None));
    assert_eq!(
        Link::new(false).run(9, &open_close[..5]),
        ran(1, 3, 0, Some(Refusal::NotWhole))
    );
    let twice_and_bad = [&open_close[..], &open_close[..], &[0xE0]].concat();
    let mut link = Link::new(false);
    assert_eq!(link.run(9, &twice_and_bad), ran(4, 12, 6, Some(Refusal::UnknownOpcode)));
    assert_eq!(link.out[..7], [0xE3, 0x80, 0, 0xE3, 0x80, 0, 0xCC]);
    assert_eq!(link.run(0, &[]), ran(0, 0, 0, Some(Refusal::Down)));
}

#[test]
fn a_store_of_wrong_length() {
    let mut store = vec![0x55; STORE - 1];
    let (endpoint, made) = link::make(true, &mut store);
    assert_eq!(made, Err(Refusal::StoreLength));
    assert!(endpoint.began && endpoint.down && endpoint.keeps_rules());
    assert!(store.iter().all(|&byte| byte == 0x55));
}

#[test]
fn reading_moves_the_rest_and_zeroes_behind_it() {
    let mut link = Link::new(true);
    let session = link.open(0x8001).unwrap().session;
    link.request(0x8001, session, 5).unwrap();
    link.receive(&[0xE5, 0x80, 1, 0, 0, 0, 5, 1, 2, 3, 4, 5]).unwrap();
    let start = 17 * QUEUE;
    link.store[start + 5] = 99; // a foreign byte behind the unread ones
    link.out.truncate(2);
    assert_eq!(link.read(0x8001, session), Ok(vec![1, 2]));
    assert_eq!(link.store[start..start + 6], [3, 4, 5, 0, 0, 99]);
}

#[test]
fn session_numbers_are_spent() {
    let mut link = Link::new(false);
    link.endpoint.last = u32::MAX - 1;
    assert_eq!(link.open(0).unwrap().session, u32::MAX);
    assert_eq!(link.open(1), Err(Refusal::SessionsSpent));
    assert_eq!(link.receive(&[0xE1, 0x80, 0]), Err(Refusal::OpenSessionsSpent));
    assert_eq!(link.endpoint.last, u32::MAX);
}

#[test]
fn row_rules() {
    let breaks = |change: fn(&mut Endpoint)| {
        let mut link = Link::new(false);
        link.open(0).unwrap();
        link.open(1).unwrap();
        assert!(link.endpoint.keeps_rules());
        change(&mut link.endpoint);
        !link.endpoint.keeps_rules()
    };
    assert!(breaks(|endpoint| endpoint.rows[0].input = 1025));
    assert!(breaks(|endpoint| endpoint.rows[0].unread = u32::MAX));
    assert!(breaks(|endpoint| endpoint.rows[0].output = 1 << 31));
    assert!(breaks(|endpoint| endpoint.rows[2].output = 1));
    assert!(breaks(|endpoint| endpoint.rows[2].input = 1));
    assert!(breaks(|endpoint| endpoint.rows[2].unread = 1));
    assert!(breaks(|endpoint| endpoint.rows[0].session = 0));
    assert!(breaks(|endpoint| endpoint.rows[0].session = 2));
    assert!(breaks(|endpoint| endpoint.rows[0].session = 3));
    assert!(breaks(|endpoint| endpoint.down = true));
    assert!(breaks(|endpoint| {
        endpoint.rows[0].status = Status::Pending;
        endpoint.rows[0].unread = 1;
    }));
    assert!(!breaks(|endpoint| {
        endpoint.rows[0].unread = 24;
        endpoint.rows[0].input = 1000;
        endpoint.rows[0].output = (1 << 31) - 1;
    }));
}

#[test]
fn the_mirror() {
    let mut link = Link::new(true);
    link.open(0x8003).unwrap();
    let numbers = numbers_of(&link.endpoint);
    assert_eq!(endpoint_from(&numbers), Some(link.endpoint));
    assert_eq!(numbers[..3], [1, 0, 1]);
    assert_eq!(numbers[3 + 5 * 19..][..5], [1, 1, 0, 0, 0]);
    assert_eq!(endpoint_from(&numbers[..NUMBERS - 1]), None);
    for (at, value) in [(0, 2), (1, 2), (3, 3)] {
        let mut damaged = numbers;
        damaged[at] = value;
        assert_eq!(endpoint_from(&damaged), None);
    }
}
