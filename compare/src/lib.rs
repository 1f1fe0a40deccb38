//! An independent second implementation of the messages and the link, and its comparison with the proved library.

#![deny(unsafe_code)]

pub mod difference;
pub mod examples;
pub mod faults;
pub mod layouts;
pub mod lent;
pub mod library;
pub mod links;
pub mod messages;
#[cfg(feature = "proved")]
#[allow(unsafe_code)] // the calls of the C boundary
pub mod proved;
pub mod random;
pub mod refused;
pub mod second;
pub mod tally;
