//! An endpoint as the header lends it: 163 numbers of 32 bits.

use super::link::{Endpoint, Row, Status, ROWS};

/// began, down, last, and five numbers for each row.
pub const NUMBERS: usize = 3 + ROW * ROWS;
/// The numbers of a row: status, session, input, output, unread.
pub const ROW: usize = 5;

/// The endpoint that the numbers are, if they are one.
pub fn endpoint_from(numbers: &[u32]) -> Option<Endpoint> {
    if numbers.len() != NUMBERS {
        return None;
    }
    let (head, tail) = numbers.split_at(3);
    let mut endpoint = Endpoint {
        began: flag(head[0])?,
        down: flag(head[1])?,
        last: head[2],
        rows: [Row::default(); ROWS],
    };
    for (row, numbers) in endpoint.rows.iter_mut().zip(tail.chunks_exact(ROW)) {
        *row = Row {
            status: status(numbers[0])?,
            session: numbers[1],
            input: numbers[2],
            output: numbers[3],
            unread: numbers[4],
        };
    }
    Some(endpoint)
}

/// The numbers of an endpoint.
pub fn numbers_of(endpoint: &Endpoint) -> [u32; NUMBERS] {
    let mut numbers = [0; NUMBERS];
    let (head, tail) = numbers.split_at_mut(3);
    head.copy_from_slice(&[u32::from(endpoint.began), u32::from(endpoint.down), endpoint.last]);
    for (row, numbers) in endpoint.rows.iter().zip(tail.chunks_exact_mut(ROW)) {
        numbers.copy_from_slice(&[row.status as u32, row.session, row.input, row.output, row.unread]);
    }
    numbers
}

fn flag(number: u32) -> Option<bool> {
    match number {
        0 => Some(false),
        1 => Some(true),
        _ => None,
    }
}

fn status(number: u32) -> Option<Status> {
    match number {
        0 => Some(Status::Closed),
        1 => Some(Status::Open),
        2 => Some(Status::Pending),
        _ => None,
    }
}
