//! Why a message is refused: the field that is at fault first, by 003's role name, and what is wrong with it.
//!
//! This is a walk of its own over the payload, beside the one of `message`.

use super::message::{Fault, Kind, HEADER, ID, MOST_BQUAL, MOST_GTRID, MOST_PAYLOAD, VERSIONS};
use std::fmt;

/// Why a message is refused. Each part is there where 02's T-08 gives it; an accepted message has number 0 and no part.
#[derive(Clone, Copy, Debug, PartialEq, Eq, Default)]
pub struct Reason {
    pub number: u64,
    pub field: Option<&'static str>,
    /// The element of its list that the field belongs to, from 0.
    pub element: Option<u64>,
    /// The bytes that the field needs, and those that are there from its first byte on.
    pub needed_had: Option<(u64, u64)>,
    /// The value that is not allowed.
    pub value: Option<u64>,
    /// The bytes behind the last field.
    pub left: Option<u64>,
}

impl Reason {
    fn of(fault: Fault) -> Self {
        Reason {
            number: fault.number(),
            ..Reason::default()
        }
    }

    /// A field that has fewer bytes than it needs.
    fn short(fault: Fault, field: &'static str, needed: u64, had: usize) -> Self {
        Reason {
            field: Some(field),
            needed_had: Some((needed, had as u64)),
            ..Reason::of(fault)
        }
    }

    /// A field whose value is not allowed.
    fn value(fault: Fault, field: &'static str, value: u64) -> Self {
        Reason {
            field: Some(field),
            value: Some(value),
            ..Reason::of(fault)
        }
    }
}

/// The line that the program explain prints, with its newline.
impl fmt::Display for Reason {
    fn fmt(&self, to: &mut fmt::Formatter) -> fmt::Result {
        write!(to, "answer {}", self.number)?;
        if let Some(field) = self.field {
            write!(to, " field {field}")?;
        }
        if let Some(element) = self.element {
            write!(to, " element {element}")?;
        }
        if let Some((needed, had)) = self.needed_had {
            write!(to, " needed {needed} had {had}")?;
        }
        if let Some(value) = self.value {
            write!(to, " value {value}")?;
        }
        if let Some(left) = self.left {
            write!(to, " left {left}")?;
        }
        writeln!(to)
    }
}

/// Why the message at the front of `bytes` is refused at a version; number 0 if it is not.
pub fn explain(bytes: &[u8], version: u64) -> Reason {
    let walked = opened(bytes, version).and_then(|(kind, payload)| walk(kind, payload));
    walked.err().unwrap_or_default()
}

/// The type and the payload, if nothing before the payload's first field is at fault.
fn opened(bytes: &[u8], version: u64) -> Result<(Kind, &[u8]), Reason> {
    if !VERSIONS.contains(&version) {
        let value = Some(version);
        return Err(Reason {
            value,
            ..Reason::of(Fault::NoSuchVersion)
        });
    }
    let Some((header, rest)) = bytes.split_at_checked(HEADER) else {
        return Err(Reason::short(Fault::NotWhole, "header", HEADER as u64, bytes.len()));
    };
    let (number, size) = (number_of(&header[..8]), number_of(&header[24..]));
    let Some(kind) = Kind::from_number(number) else {
        return Err(Reason::value(Fault::UnknownType, "header.type", number));
    };
    if !kind.versions().contains(&version) {
        return Err(Reason::value(Fault::TypeNotInVersion, "header.type", number));
    }
    if size > MOST_PAYLOAD as u64 {
        return Err(Reason::value(Fault::TooLarge, "header.size", size));
    }
    match rest.get(..size as usize) {
        Some(payload) => Ok((kind, payload)),
        None => Err(Reason::short(Fault::NotWhole, "payload", size, rest.len())),
    }
}

/// A number of up to eight bytes.
fn number_of(bytes: &[u8]) -> u64 {
    bytes.iter().fold(0, |number, &byte| number << 8 | u64::from(byte))
}

/// The payload's fields in 003's order, then its end.
fn walk(kind: Kind, payload: &[u8]) -> Result<(), Reason> {
    let mut walk = Walk {
        rest: payload,
        element: None,
    };
    walk.id("execution")?;
    match kind {
        Kind::ConnectRequest => walk.connect_request()?,
        Kind::ConnectReply => walk.connect_reply()?,
        Kind::DisconnectRequest | Kind::DisconnectReply => {}
        Kind::DiscoveryRequest => walk.discovery_request()?,
        Kind::TopologyUpdate => walk.list("domains.size", Walk::known_domain)?,
        Kind::DiscoveryReply => walk.discovery_reply()?,
        Kind::ServiceReply => walk.service_reply()?,
        Kind::RollbackRequest => walk.rollback("flags", 8)?,
        Kind::RollbackReply => walk.rollback("state", 4)?,
        Kind::DequeueReply => walk.list("message.size", Walk::dequeued)?,
    }
    walk.end()
}

/// What is left of the payload, and the element that the walk is in.
struct Walk<'a> {
    rest: &'a [u8],
    element: Option<u64>,
}

type Step = Result<(), Reason>;

impl<'a> Walk<'a> {
    /// Steps past a field and hands its bytes back.
    #[inline(always)]
    fn take(&mut self, field: &'static str, needed: u64) -> Result<&'a [u8], Reason> {
        let had = self.rest.len();
        if needed > had as u64 {
            return Err(Reason {
                element: self.element,
                ..Reason::short(Fault::PastPayload, field, needed, had)
            });
        }
        let (bytes, rest) = self.rest.split_at(needed as usize);
        self.rest = rest;
        Ok(bytes)
    }

    fn id(&mut self, field: &'static str) -> Step {
        self.take(field, ID as u64).map(|_| ())
    }

    #[inline(always)]
    fn number(&mut self, field: &'static str, width: u64) -> Result<u64, Reason> {
        self.take(field, width).map(number_of)
    }

    /// A number whose value is not judged.
    fn any(&mut self, field: &'static str, width: u64) -> Step {
        self.take(field, width).map(|_| ())
    }

    fn allowed(&mut self, field: &'static str, width: u64, allow: impl Fn(u64) -> bool) -> Result<u64, Reason> {
        let value = self.number(field, width)?;
        if !allow(value) {
            return Err(Reason {
                element: self.element,
                ..Reason::value(Fault::BadValue, field, value)
            });
        }
        Ok(value)
    }

    fn string(&mut self, size: &'static str, data: &'static str) -> Step {
        let needed = self.number(size, 8)?;
        self.take(data, needed).map(|_| ())
    }

    /// The count is not judged by itself. Every element has at least eight bytes, so one that lies runs past soon.
    fn list(&mut self, count: &'static str, element: impl Fn(&mut Self) -> Step) -> Step {
        let count = self.number(count, 8)?;
        for n in 0..count {
            self.element = Some(n);
            element(self)?;
        }
        self.element = None;
        Ok(())
    }

    fn end(&self) -> Step {
        if !self.rest.is_empty() {
            return Err(Reason {
                left: Some(self.rest.len() as u64),
                ..Reason::of(Fault::BytesLeft)
            });
        }
        Ok(())
    }

    fn domain(&mut self) -> Step {
        self.id("domain.id")?;
        self.string("domain.name.size", "domain.name.data")
    }

    fn connect_request(&mut self) -> Step {
        self.domain()?;
        self.list("protocol.versions.size", |walk| {
            walk.any("protocol.versions.element", 8)
        })
    }

    fn connect_reply(&mut self) -> Step {
        self.domain()?;
        let allow = |version| version == 0 || VERSIONS.contains(&version);
        self.allowed("protocol.version", 8, allow).map(|_| ())
    }

    fn discovery_request(&mut self) -> Step {
        self.domain()?;
        self.list("content.services.size", |walk| {
            walk.string("content.services.element.size", "content.services.element.data")
        })?;
        self.list("content.queues.size", |walk| {
            walk.string("content.queues.element.size", "content.queues.element.data")
        })
    }

    fn known_domain(&mut self) -> Step {
        self.id("domains.element.id")?;
        self.string("domains.element.name.size", "domains.element.name.data")
    }

    fn discovery_reply(&mut self) -> Step {
        self.domain()?;
        self.list("content.services.size", Walk::service)?;
        self.list("content.queues.size", Walk::queue)
    }

    fn service(&mut self) -> Step {
        self.string(
            "content.services.element.name.size",
            "content.services.element.name.data",
        )?;
        self.string(
            "content.services.element.category.size",
            "content.services.element.category.data",
        )?;
        self.allowed("content.services.element.transaction", 2, |mode| mode <= 3)?;
        self.any("content.services.element.timeout.duration", 8)?;
        self.any("content.services.element.hops", 8)
    }

    fn queue(&mut self) -> Step {
        self.string("content.queues.element.name.size", "content.queues.element.name.data")?;
        self.any("content.queues.element.retry.count", 8)?;
        self.any("content.queues.element.retry.delay", 8)?;
        self.allowed("content.queues.element.enable.enqueue", 1, |flag| flag <= 1)?;
        self.allowed("content.queues.element.enable.dequeue", 1, |flag| flag <= 1)
            .map(|_| ())
    }

    fn service_reply(&mut self) -> Step {
        self.any("code.result", 4)?;
        self.any("code.user", 8)?;
        self.allowed("transaction_state", 1, |state| state <= 3)?;
        self.string("buffer.type.size", "buffer.type.data")?;
        self.string("buffer.data.size", "buffer.data.data")
    }

    /// A 5205 ends with its flags, a 5206 with its state.
    fn rollback(&mut self, last: &'static str, width: u64) -> Step {
        self.xid()?;
        self.any("resource", 4)?;
        self.any(last, width)
    }

    /// Each length is judged before the two are added.
    fn xid(&mut self) -> Step {
        if self.number("xid.formatID", 8)? == 0 {
            return Ok(());
        }
        let gtrid = self.allowed("xid.gtrid_length", 8, |length| length <= MOST_GTRID)?;
        let bqual = self.allowed("xid.bqual_length", 8, |length| length <= MOST_BQUAL)?;
        self.take("xid.data", gtrid + bqual).map(|_| ())
    }

    fn dequeued(&mut self) -> Step {
        self.id("message.element.id")?;
        self.string(
            "message.element.attributes.properties.size",
            "message.element.attributes.properties.data",
        )?;
        self.string(
            "message.element.attributes.reply.size",
            "message.element.attributes.reply.data",
        )?;
        self.any("message.element.attributes.available", 8)?;
        self.string("message.element.payload.type.size", "message.element.payload.type.data")?;
        self.string("message.element.payload.data.size", "message.element.payload.data.data")?;
        self.any("message.element.redelivered", 8)?;
        self.any("message.element.timestamp", 8)
    }
}
