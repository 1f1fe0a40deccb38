//! raw.rs and the enums are include/sootlark.h, one for one: functions, parameters and their types, and numbers.

use sootlark::{raw, List, Role};
use std::mem::{offset_of, size_of};

const HEADER: &str = include_str!("../../../include/sootlark.h");
const RAW: &str = include_str!("../src/raw.rs");

/// The header without its comments, with one space between words.
fn header() -> String {
    let mut text = String::new();
    for (n, piece) in HEADER.split("/*").enumerate() {
        text.push_str(if n == 0 { piece } else { piece.split_once("*/").expect("a comment that ends").1 });
    }
    text.split_whitespace().collect::<Vec<_>>().join(" ")
}

/// A C parameter as Rust has it: `const uint8_t *out` is `out: *const u8`.
fn parameter(c: &str) -> String {
    let (kind, name) = c.trim().rsplit_once(' ').expect("a type and a name");
    let pointer = match (name.starts_with('*'), kind.starts_with("const ")) {
        (true, true) => "*const ",
        (true, false) => "*mut ",
        _ => "",
    };
    let number = match kind.trim_start_matches("const ") {
        "uint8_t" => "u8",
        "uint16_t" => "u16",
        "uint32_t" => "u32",
        "uint64_t" => "u64",
        "size_t" => "usize",
        "bool" => "bool",
        other => panic!("a type that the header did not have: {other}"),
    };
    let name = name.trim_start_matches('*');
    let name = if name == "type" { "type_" } else { name };
    format!("{name}: {pointer}{number}")
}

#[test]
fn functions() {
    let text = header();
    let declared: Vec<String> = text
        .split("uint64_t sootlark_")
        .skip(1)
        .filter_map(|rest| rest.split_once(");"))
        .map(|(declaration, _)| {
            let (name, parameters) = declaration.split_once('(').expect("a list of parameters");
            let parameters: Vec<_> = parameters.split(',').map(parameter).collect();
            format!("sootlark_{name}({}) -> u64", parameters.join(", "))
        })
        .collect();
    let written: Vec<String> = RAW
        .split("pub fn ")
        .skip(1)
        .filter_map(|rest| rest.split_once(';'))
        .map(|(declaration, _)| {
            let line = declaration.split_whitespace().collect::<Vec<_>>().join(" ");
            line.replace("( ", "(").replace(", )", ")")
        })
        .collect();
    assert_eq!(declared.len(), 30);
    assert_eq!(declared, written);
}

#[test]
fn numbers() {
    let text = header();
    let number = |name: &str| -> u64 {
        let (_, rest) = text.split_once(&format!("SOOTLARK_{name} = ")).expect(name);
        rest.split([',', ' ']).next().and_then(|number| number.parse().ok()).expect(name)
    };
    let roles = [
        ("EXECUTION", Role::Execution),
        ("DOMAIN_ID", Role::DomainId),
        ("DOMAIN_NAME", Role::DomainName),
        ("PROTOCOL_VERSION", Role::ProtocolVersion),
        ("CODE_RESULT", Role::CodeResult),
        ("CODE_USER", Role::CodeUser),
        ("TRANSACTION_STATE", Role::TransactionState),
        ("BUFFER_TYPE", Role::BufferType),
        ("BUFFER_DATA", Role::BufferData),
        ("XID", Role::Xid),
        ("RESOURCE", Role::Resource),
        ("FLAGS", Role::Flags),
        ("STATE", Role::State),
        ("OFFERED", Role::Offered),
        ("NAME", Role::Name),
        ("CATEGORY", Role::Category),
        ("TRANSACTION", Role::Transaction),
        ("TIMEOUT", Role::Timeout),
        ("HOPS", Role::Hops),
        ("RETRY_COUNT", Role::RetryCount),
        ("RETRY_DELAY", Role::RetryDelay),
        ("ENQUEUE", Role::Enqueue),
        ("DEQUEUE", Role::Dequeue),
        ("ID", Role::Id),
        ("PROPERTIES", Role::Properties),
        ("REPLY_QUEUE", Role::ReplyQueue),
        ("AVAILABLE", Role::Available),
        ("DATA_TYPE", Role::DataType),
        ("DATA", Role::Data),
        ("REDELIVERED", Role::Redelivered),
        ("TIMESTAMP", Role::Timestamp),
    ];
    let lists = [
        ("PROTOCOL_VERSIONS", List::ProtocolVersions),
        ("SERVICES", List::Services),
        ("QUEUES", List::Queues),
        ("DOMAINS", List::Domains),
        ("MESSAGES", List::Messages),
    ];
    assert_eq!(roles.len() + lists.len(), 36);
    for (name, role) in roles {
        assert_eq!(role.number(), number(name), "{name}");
    }
    for (name, list) in lists {
        assert_eq!(list.number(), number(name), "{name}");
    }
    let parts = [
        ("HAS_FIELD", raw::HAS_FIELD),
        ("HAS_ELEMENT", raw::HAS_ELEMENT),
        ("HAS_ROOM", raw::HAS_ROOM),
        ("HAS_VALUE", raw::HAS_VALUE),
        ("HAS_LEFT", raw::HAS_LEFT),
        ("FIELD_NAME", raw::FIELD_NAME as u64),
    ];
    for (name, part) in parts {
        assert_eq!(part, number(name), "{name}");
    }
    assert_eq!(number("ENDPOINT_NUMBERS"), sootlark::link::NUMBERS as u64);
    assert_eq!(number("STORE_LENGTH"), sootlark::link::STORE_LENGTH as u64);
    assert_eq!(number("STACK"), sootlark::STACK as u64);
    assert_eq!(number("ELEMENT_STACK"), sootlark::ELEMENT_STACK as u64);
}

#[test]
fn layout() {
    assert_eq!(size_of::<raw::Endpoint>(), 4 * sootlark::link::NUMBERS);
    assert_eq!(offset_of!(raw::Endpoint, rows), 12);
    assert_eq!(size_of::<raw::Row>(), 20);
    assert_eq!((offset_of!(raw::Row, session), offset_of!(raw::Row, unread)), (4, 16));
}
