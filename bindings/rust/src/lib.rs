#![doc = include_str!("../README.md")]
#![no_std]
#![deny(unsafe_code)]
#![warn(missing_docs)]

mod answers;
#[allow(unsafe_code)]
mod call;
pub mod link;
mod message;
pub mod raw;
mod reason;
pub mod write;

pub use answers::{Error, Fault, MessageKind, Refusal};
pub use link::{End, Endpoint, Session};
pub use message::{choose_version, Element, Elements, List, Message, Role};
pub use reason::{explain, Reason};

/// A correlation id, an execution id, or an id of a domain or a message.
pub type Id = [u8; 16];

/// A thread's stack, in bytes, that is enough for every call of the library but those for a field of an element. They use
/// less than 8 KiB of it.
pub const STACK: usize = 16_384;

/// A thread's stack, in bytes, that is enough for every call of the library. [`Message::element_part`],
/// [`Message::element_number`] and the fields of an [`Element`] step past the elements before theirs, with 32 bytes of
/// stack for each; a message holds at most 8,182 elements, so they use up to 257 KiB.
pub const ELEMENT_STACK: usize = 294_912;
