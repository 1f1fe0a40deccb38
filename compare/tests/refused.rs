//! The refused messages that the benchmark measures.

use sootlark_compare::lent::KINDS;
use sootlark_compare::refused::refused_of_all_types;
use sootlark_compare::second::explain::explain;
use sootlark_compare::second::message::{read, HEADER, MOST_PAYLOAD};

#[test]
fn each_has_65536_bytes_and_gives_its_number() {
    for row in refused_of_all_types() {
        assert_eq!(row.bytes.len(), HEADER + MOST_PAYLOAD, "{}", row.name);
        assert_eq!(explain(&row.bytes, row.version).number, row.number, "{}", row.name);
        let refusal = read(&row.bytes, row.version).expect_err(&row.name);
        assert_eq!(refusal.fault.number(), row.number, "{}", row.name);
    }
}

#[test]
fn every_number_and_every_type_is_there() {
    let rows = refused_of_all_types();
    for number in 40..=46 {
        assert!(rows.iter().any(|row| row.number == number), "{number}");
    }
    for kind in KINDS {
        let front = format!("{} ", kind.number());
        assert!(rows.iter().any(|row| row.name.starts_with(&front)), "{front}");
    }
}
