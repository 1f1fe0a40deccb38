//! The second implementation, written from the papers 01, 02 (T-08), 003 and 004, their readings and docs/DECISIONS.md; of
//! the proved library it knows the header: the roles' numbers and how an endpoint is lent. 02's T-02 and T-03 were put in
//! by people who knew the Rattle code (README.md).
//!
//! No function here panics, allocates, or copies a string when reading: parts are handed back as ranges of the
//! message.

#![forbid(unsafe_code)]

pub mod explain;
pub mod link;
pub mod message;
pub mod mirror;
pub mod role;
pub mod write;
