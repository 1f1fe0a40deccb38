//! Reading messages: the header, the eleven types, fields by role, and the elements of lists.

use super::role;
use std::ops::RangeInclusive;

/// The length of a header: type, correlation, size.
pub const HEADER: usize = 32;
/// The largest payload; with its header such a message has 65,536 bytes.
pub const MOST_PAYLOAD: usize = 65_504;
/// The versions that can be agreed.
pub const VERSIONS: RangeInclusive<u64> = 1000..=1004;
/// The length of an id, an execution and a correlation.
pub const ID: usize = 16;
/// The halves of an xid have at most so many bytes each (02's T-03).
pub const MOST_GTRID: u64 = 64;
pub const MOST_BQUAL: u64 = 64;

/// Why a message, a field or a writing is refused. The values are 01's numbers; 50 is the project's own.
#[derive(Clone, Copy, Debug, PartialEq, Eq)]
pub enum Fault {
    NotWhole = 1,
    NoSuchVersion = 40,
    UnknownType = 41,
    TypeNotInVersion = 42,
    TooLarge = 43,
    PastPayload = 44,
    BadValue = 45,
    BytesLeft = 46,
    OutputShort = 47,
    ListsDisagree = 48,
    NoElement = 49,
    NoField = 50,
}

impl Fault {
    pub fn number(self) -> u64 {
        self as u64
    }
}

/// A fault, and the payload offset that 44, 45 and 46 name: where the field at fault starts, of a string's data where
/// its size starts, or the first byte left over. For the others it is 0.
#[derive(Clone, Copy, Debug, PartialEq, Eq)]
pub struct Refusal {
    pub fault: Fault,
    pub place: usize,
}

impl From<Fault> for Refusal {
    fn from(fault: Fault) -> Self {
        Refusal { fault, place: 0 }
    }
}

/// The eleven types of message. The values are the types' numbers.
#[derive(Clone, Copy, Debug, PartialEq, Eq)]
pub enum Kind {
    ConnectRequest = 7200,
    ConnectReply = 7201,
    DisconnectRequest = 7202,
    DisconnectReply = 7203,
    DiscoveryRequest = 7300,
    TopologyUpdate = 7302,
    DiscoveryReply = 7311,
    ServiceReply = 3103,
    RollbackRequest = 5205,
    RollbackReply = 5206,
    DequeueReply = 6201,
}

impl Kind {
    pub fn from_number(number: u64) -> Option<Kind> {
        Some(match number {
            7200 => Kind::ConnectRequest,
            7201 => Kind::ConnectReply,
            7202 => Kind::DisconnectRequest,
            7203 => Kind::DisconnectReply,
            7300 => Kind::DiscoveryRequest,
            7302 => Kind::TopologyUpdate,
            7311 => Kind::DiscoveryReply,
            3103 => Kind::ServiceReply,
            5205 => Kind::RollbackRequest,
            5206 => Kind::RollbackReply,
            6201 => Kind::DequeueReply,
            _ => return None,
        })
    }

    pub fn number(self) -> u64 {
        self as u64
    }

    /// The versions that have this type.
    pub fn versions(self) -> RangeInclusive<u64> {
        match self {
            Kind::ConnectRequest | Kind::ConnectReply => 1000..=1004,
            Kind::DisconnectRequest | Kind::DisconnectReply => 1001..=1004,
            Kind::DiscoveryRequest => 1000..=1004,
            Kind::TopologyUpdate => 1002..=1004,
            Kind::DiscoveryReply => 1004..=1004,
            Kind::ServiceReply => 1003..=1004,
            Kind::RollbackRequest | Kind::RollbackReply => 1000..=1004,
            Kind::DequeueReply => 1000..=1002,
        }
    }
}

/// A part of a message: where it starts, counted from the message's first byte, and how long it is.
#[derive(Clone, Copy, Debug, PartialEq, Eq)]
pub struct Part {
    pub at: usize,
    pub size: usize,
}

/// A list of an accepted message: how many elements it has, and where the first one starts.
#[derive(Clone, Copy, Debug, PartialEq, Eq)]
pub struct List {
    pub count: u64,
    at: usize,
}

#[derive(Clone, Copy, Debug, PartialEq, Eq)]
pub struct Domain {
    pub id: Part,
    pub name: Part,
}

/// With formatID 0 the lengths are 0 and the data is empty.
#[derive(Clone, Copy, Debug, PartialEq, Eq)]
pub struct Xid {
    pub format: u64,
    pub gtrid: u64,
    pub bqual: u64,
    pub data: Part,
}

/// What a message has after its execution.
#[derive(Clone, Copy, Debug, PartialEq, Eq)]
pub enum Body {
    ConnectRequest {
        domain: Domain,
        versions: List,
    },
    ConnectReply {
        domain: Domain,
        version: u64,
    },
    DisconnectRequest,
    DisconnectReply,
    DiscoveryRequest {
        domain: Domain,
        services: List,
        queues: List,
    },
    TopologyUpdate {
        domains: List,
    },
    DiscoveryReply {
        domain: Domain,
        services: List,
        queues: List,
    },
    ServiceReply {
        result: u32,
        user: u64,
        state: u8,
        buffer_type: Part,
        buffer_data: Part,
    },
    RollbackRequest {
        xid: Xid,
        resource: u32,
        flags: u64,
    },
    RollbackReply {
        xid: Xid,
        resource: u32,
        state: u32,
    },
    DequeueReply {
        messages: List,
    },
}

/// A service of a 7311.
#[derive(Clone, Copy, Debug, PartialEq, Eq)]
pub struct Service {
    pub name: Part,
    pub category: Part,
    pub transaction: u16,
    pub timeout: u64,
    pub hops: u64,
}

/// A queue of a 7311.
#[derive(Clone, Copy, Debug, PartialEq, Eq)]
pub struct Queue {
    pub name: Part,
    pub retry_count: u64,
    pub retry_delay: u64,
    pub enqueue: u8,
    pub dequeue: u8,
}

/// A message of a 6201.
#[derive(Clone, Copy, Debug, PartialEq, Eq)]
pub struct Dequeued {
    pub id: Part,
    pub properties: Part,
    pub reply_queue: Part,
    pub available: u64,
    pub data_type: Part,
    pub data: Part,
    pub redelivered: u64,
    pub timestamp: u64,
}

/// An element of a list.
#[derive(Clone, Copy, Debug, PartialEq, Eq)]
pub enum Element {
    Version(u64),
    Name(Part),
    Domain(Domain),
    Service(Service),
    Queue(Queue),
    Dequeued(Dequeued),
}

/// An accepted message. It borrows its bytes, header included and nothing after the payload.
#[derive(Clone, Copy, Debug, PartialEq, Eq)]
pub struct Message<'a> {
    bytes: &'a [u8],
    kind: Kind,
    body: Body,
}

/// Reads the message at the front of `bytes` at an agreed version.
pub fn read(bytes: &[u8], version: u64) -> Result<Message<'_>, Refusal> {
    if !VERSIONS.contains(&version) {
        return Err(Fault::NoSuchVersion.into());
    }
    let Some(header) = bytes.first_chunk::<HEADER>() else {
        return Err(Fault::NotWhole.into());
    };
    let Some(kind) = Kind::from_number(number_in(header, 0)) else {
        return Err(Fault::UnknownType.into());
    };
    if !kind.versions().contains(&version) {
        return Err(Fault::TypeNotInVersion.into());
    }
    let size = number_in(header, 24);
    if size > MOST_PAYLOAD as u64 {
        return Err(Fault::TooLarge.into());
    }
    let Some(bytes) = bytes.get(..HEADER + size as usize) else {
        return Err(Fault::NotWhole.into());
    };
    let mut cursor = Cursor { bytes, at: HEADER };
    cursor.id()?; // the execution
    let body = cursor.body(kind)?;
    cursor.end()?;
    Ok(Message { bytes, kind, body })
}

/// The version to choose: the greatest of the offers that can be agreed, or 0.
pub fn choose(offers: impl IntoIterator<Item = u64>) -> u64 {
    let agreeable = offers.into_iter().filter(|offer| VERSIONS.contains(offer));
    agreeable.max().unwrap_or(0)
}

/// The version to choose for the message's own offers: 0 unless it is an accepted 7200.
pub fn choose_version(bytes: &[u8], version: u64) -> u64 {
    read(bytes, version).map_or(0, |message| choose(message.offers()))
}

/// The eight bytes of a header that start at `at`, as a number.
fn number_in(header: &[u8; HEADER], at: usize) -> u64 {
    let mut bytes = [0; 8];
    bytes.copy_from_slice(&header[at..at + 8]);
    u64::from_be_bytes(bytes)
}

impl<'a> Message<'a> {
    pub fn kind(&self) -> Kind {
        self.kind
    }

    pub fn body(&self) -> &Body {
        &self.body
    }

    /// The message's length, header included.
    pub fn used(&self) -> usize {
        self.bytes.len()
    }

    pub fn correlation(&self) -> Part {
        Part { at: 8, size: ID }
    }

    pub fn execution(&self) -> Part {
        Part { at: HEADER, size: ID }
    }

    /// The bytes of a field. An xid with formatID 0 has none; the header fixes their place and length as 0.
    pub fn part(&self, role: u64) -> Result<Part, Fault> {
        match (role, self.body) {
            (role::EXECUTION, _) => Ok(self.execution()),
            (role::DOMAIN_ID, _) => self.domain().map(|domain| domain.id),
            (role::DOMAIN_NAME, _) => self.domain().map(|domain| domain.name),
            (role::BUFFER_TYPE, Body::ServiceReply { buffer_type, .. }) => Ok(buffer_type),
            (role::BUFFER_DATA, Body::ServiceReply { buffer_data, .. }) => Ok(buffer_data),
            (role::XID, _) => self.xid().map(|xid| match xid.format {
                0 => Part { at: 0, size: 0 },
                _ => xid.data,
            }),
            _ => Err(Fault::NoField),
        }
    }

    /// The number of a field.
    pub fn number(&self, role: u64) -> Result<u64, Fault> {
        match (role, self.body) {
            (role::PROTOCOL_VERSION, Body::ConnectReply { version, .. }) => Ok(version),
            (role::CODE_RESULT, Body::ServiceReply { result, .. }) => Ok(result.into()),
            (role::CODE_USER, Body::ServiceReply { user, .. }) => Ok(user),
            (role::TRANSACTION_STATE, Body::ServiceReply { state, .. }) => Ok(state.into()),
            (role::RESOURCE, Body::RollbackRequest { resource, .. }) => Ok(resource.into()),
            (role::RESOURCE, Body::RollbackReply { resource, .. }) => Ok(resource.into()),
            (role::FLAGS, Body::RollbackRequest { flags, .. }) => Ok(flags),
            (role::STATE, Body::RollbackReply { state, .. }) => Ok(state.into()),
            _ => Err(Fault::NoField),
        }
    }

    /// A number of the message's xid.
    pub fn xid_number(&self, which: u64) -> Result<u64, Fault> {
        let xid = self.xid()?;
        match which {
            role::FORMAT_ID => Ok(xid.format),
            role::GTRID_LENGTH => Ok(xid.gtrid),
            role::BQUAL_LENGTH => Ok(xid.bqual),
            _ => Err(Fault::NoField),
        }
    }

    /// How many elements a list has.
    pub fn count(&self, list: u64) -> Result<u64, Fault> {
        match (list, self.body) {
            (role::PROTOCOL_VERSIONS, Body::ConnectRequest { versions, .. }) => Ok(versions.count),
            (role::SERVICES, Body::DiscoveryRequest { services, .. }) => Ok(services.count),
            (role::SERVICES, Body::DiscoveryReply { services, .. }) => Ok(services.count),
            (role::QUEUES, Body::DiscoveryRequest { queues, .. }) => Ok(queues.count),
            (role::QUEUES, Body::DiscoveryReply { queues, .. }) => Ok(queues.count),
            (role::DOMAINS, Body::TopologyUpdate { domains }) => Ok(domains.count),
            (role::MESSAGES, Body::DequeueReply { messages }) => Ok(messages.count),
            _ => Err(Fault::NoElement),
        }
    }

    /// Element `n` of a list. Elements have no fixed length, so the earlier ones are walked over.
    pub fn element(&self, list: u64, n: u64) -> Result<Element, Fault> {
        match (list, self.body) {
            (role::PROTOCOL_VERSIONS, Body::ConnectRequest { versions, .. }) => {
                self.nth(versions, n, Cursor::u64).map(Element::Version)
            }
            (role::SERVICES, Body::DiscoveryRequest { services, .. }) => {
                self.nth(services, n, Cursor::string).map(Element::Name)
            }
            (role::QUEUES, Body::DiscoveryRequest { queues, .. }) => {
                self.nth(queues, n, Cursor::string).map(Element::Name)
            }
            (role::SERVICES, Body::DiscoveryReply { services, .. }) => {
                self.nth(services, n, Cursor::service).map(Element::Service)
            }
            (role::QUEUES, Body::DiscoveryReply { queues, .. }) => {
                self.nth(queues, n, Cursor::queue).map(Element::Queue)
            }
            (role::DOMAINS, Body::TopologyUpdate { domains }) => {
                self.nth(domains, n, Cursor::domain).map(Element::Domain)
            }
            (role::MESSAGES, Body::DequeueReply { messages }) => {
                self.nth(messages, n, Cursor::dequeued).map(Element::Dequeued)
            }
            _ => Err(Fault::NoElement),
        }
    }

    /// The versions that a 7200 offers; none for another type.
    pub fn offers(&self) -> impl Iterator<Item = u64> + 'a {
        let offers = match self.body {
            Body::ConnectRequest { versions, .. } => &self.bytes[versions.at..],
            _ => &[],
        };
        offers.chunks_exact(8).map(|offer| {
            let mut bytes = [0; 8];
            bytes.copy_from_slice(offer);
            u64::from_be_bytes(bytes)
        })
    }

    fn domain(&self) -> Result<Domain, Fault> {
        match self.body {
            Body::ConnectRequest { domain, .. }
            | Body::ConnectReply { domain, .. }
            | Body::DiscoveryRequest { domain, .. }
            | Body::DiscoveryReply { domain, .. } => Ok(domain),
            _ => Err(Fault::NoField),
        }
    }

    fn xid(&self) -> Result<Xid, Fault> {
        match self.body {
            Body::RollbackRequest { xid, .. } | Body::RollbackReply { xid, .. } => Ok(xid),
            _ => Err(Fault::NoField),
        }
    }

    /// Steps past `n` elements and reads the next one. The whole list was accepted before, so no step is refused.
    fn nth<T>(&self, list: List, n: u64, element: impl Reader<'a, T>) -> Result<T, Fault> {
        if n >= list.count {
            return Err(Fault::NoElement);
        }
        let mut cursor = Cursor {
            bytes: self.bytes,
            at: list.at,
        };
        for _ in 0..n {
            element(&mut cursor).map_err(|refusal| refusal.fault)?;
        }
        element(&mut cursor).map_err(|refusal| refusal.fault)
    }
}

impl Element {
    /// The bytes of an element's field.
    pub fn part(&self, role: u64) -> Result<Part, Fault> {
        match (role, self) {
            (role::NAME, Element::Name(name)) => Ok(*name),
            (role::ID, Element::Domain(domain)) => Ok(domain.id),
            (role::NAME, Element::Domain(domain)) => Ok(domain.name),
            (role::NAME, Element::Service(service)) => Ok(service.name),
            (role::CATEGORY, Element::Service(service)) => Ok(service.category),
            (role::NAME, Element::Queue(queue)) => Ok(queue.name),
            (role::ID, Element::Dequeued(message)) => Ok(message.id),
            (role::PROPERTIES, Element::Dequeued(message)) => Ok(message.properties),
            (role::REPLY_QUEUE, Element::Dequeued(message)) => Ok(message.reply_queue),
            (role::DATA_TYPE, Element::Dequeued(message)) => Ok(message.data_type),
            (role::DATA, Element::Dequeued(message)) => Ok(message.data),
            _ => Err(Fault::NoField),
        }
    }

    /// The number of an element's field.
    pub fn number(&self, role: u64) -> Result<u64, Fault> {
        match (role, self) {
            (role::OFFERED, Element::Version(version)) => Ok(*version),
            (role::TRANSACTION, Element::Service(service)) => Ok(service.transaction.into()),
            (role::TIMEOUT, Element::Service(service)) => Ok(service.timeout),
            (role::HOPS, Element::Service(service)) => Ok(service.hops),
            (role::RETRY_COUNT, Element::Queue(queue)) => Ok(queue.retry_count),
            (role::RETRY_DELAY, Element::Queue(queue)) => Ok(queue.retry_delay),
            (role::ENQUEUE, Element::Queue(queue)) => Ok(queue.enqueue.into()),
            (role::DEQUEUE, Element::Queue(queue)) => Ok(queue.dequeue.into()),
            (role::AVAILABLE, Element::Dequeued(message)) => Ok(message.available),
            (role::REDELIVERED, Element::Dequeued(message)) => Ok(message.redelivered),
            (role::TIMESTAMP, Element::Dequeued(message)) => Ok(message.timestamp),
            _ => Err(Fault::NoField),
        }
    }
}

/// A position in a message. It never stands past the end.
struct Cursor<'a> {
    bytes: &'a [u8],
    at: usize,
}

/// How one element is read from the cursor's position.
trait Reader<'a, T>: Fn(&mut Cursor<'a>) -> Result<T, Refusal> {}
impl<'a, T, F: Fn(&mut Cursor<'a>) -> Result<T, Refusal>> Reader<'a, T> for F {}

impl<'a> Cursor<'a> {
    /// A refusal that names the field starting at `at`.
    fn refuse(at: usize, fault: Fault) -> Refusal {
        Refusal {
            fault,
            place: at - HEADER,
        }
    }

    /// Steps past `size` bytes and hands them back as a part.
    fn take(&mut self, size: u64) -> Result<Part, Refusal> {
        let at = self.at;
        if size > (self.bytes.len() - at) as u64 {
            return Err(Self::refuse(at, Fault::PastPayload));
        }
        let size = size as usize;
        self.at += size;
        Ok(Part { at, size })
    }

    fn array<const N: usize>(&mut self) -> Result<[u8; N], Refusal> {
        let Some(array) = self.bytes[self.at..].first_chunk::<N>() else {
            return Err(Self::refuse(self.at, Fault::PastPayload));
        };
        self.at += N;
        Ok(*array)
    }

    fn u64(&mut self) -> Result<u64, Refusal> {
        self.array().map(u64::from_be_bytes)
    }

    fn u32(&mut self) -> Result<u32, Refusal> {
        self.array().map(u32::from_be_bytes)
    }

    /// A number of two bytes that must be at most `most`.
    fn u16_to(&mut self, most: u16) -> Result<u16, Refusal> {
        let at = self.at;
        let value = self.array().map(u16::from_be_bytes)?;
        if value > most {
            return Err(Self::refuse(at, Fault::BadValue));
        }
        Ok(value)
    }

    /// A byte that must be at most `most`.
    fn u8_to(&mut self, most: u8) -> Result<u8, Refusal> {
        let at = self.at;
        let value = self.array().map(u8::from_be_bytes)?;
        if value > most {
            return Err(Self::refuse(at, Fault::BadValue));
        }
        Ok(value)
    }

    fn id(&mut self) -> Result<Part, Refusal> {
        self.take(ID as u64)
    }

    /// A size and as many bytes. Where the bytes run past the end, the refusal has the place of the size, which said
    /// too much (02's T-02).
    fn string(&mut self) -> Result<Part, Refusal> {
        let size_at = self.at;
        let size = self.u64()?;
        self.take(size).map_err(|refusal| Self::refuse(size_at, refusal.fault))
    }

    /// Reads a list, judging every element. Each has at least eight bytes, so an absurd count soon runs past the end.
    fn list<T>(&mut self, element: impl Reader<'a, T>) -> Result<List, Refusal> {
        let count = self.u64()?;
        let at = self.at;
        for _ in 0..count {
            element(self)?;
        }
        Ok(List { count, at })
    }

    /// The version that a 7201 names.
    fn chosen_version(&mut self) -> Result<u64, Refusal> {
        let at = self.at;
        let version = self.u64()?;
        if version != 0 && !VERSIONS.contains(&version) {
            return Err(Self::refuse(at, Fault::BadValue));
        }
        Ok(version)
    }

    /// Each length is bounded before the two are added.
    fn xid(&mut self) -> Result<Xid, Refusal> {
        let format = self.u64()?;
        let (mut gtrid, mut bqual) = (0, 0);
        if format != 0 {
            let gtrid_at = self.at;
            gtrid = self.u64()?;
            if gtrid > MOST_GTRID {
                return Err(Self::refuse(gtrid_at, Fault::BadValue));
            }
            let bqual_at = self.at;
            bqual = self.u64()?;
            if bqual > MOST_BQUAL {
                return Err(Self::refuse(bqual_at, Fault::BadValue));
            }
        }
        let data = self.take(gtrid + bqual)?;
        Ok(Xid {
            format,
            gtrid,
            bqual,
            data,
        })
    }

    fn domain(&mut self) -> Result<Domain, Refusal> {
        Ok(Domain {
            id: self.id()?,
            name: self.string()?,
        })
    }

    fn service(&mut self) -> Result<Service, Refusal> {
        Ok(Service {
            name: self.string()?,
            category: self.string()?,
            transaction: self.u16_to(3)?,
            timeout: self.u64()?,
            hops: self.u64()?,
        })
    }

    fn queue(&mut self) -> Result<Queue, Refusal> {
        Ok(Queue {
            name: self.string()?,
            retry_count: self.u64()?,
            retry_delay: self.u64()?,
            enqueue: self.u8_to(1)?,
            dequeue: self.u8_to(1)?,
        })
    }

    fn dequeued(&mut self) -> Result<Dequeued, Refusal> {
        Ok(Dequeued {
            id: self.id()?,
            properties: self.string()?,
            reply_queue: self.string()?,
            available: self.u64()?,
            data_type: self.string()?,
            data: self.string()?,
            redelivered: self.u64()?,
            timestamp: self.u64()?,
        })
    }

    /// The fields after the execution, in their order on the wire. Inlined, so that a body is made in its place and
    /// not moved there.
    #[inline(always)]
    fn body(&mut self, kind: Kind) -> Result<Body, Refusal> {
        Ok(match kind {
            Kind::ConnectRequest => Body::ConnectRequest {
                domain: self.domain()?,
                versions: self.list(Cursor::u64)?,
            },
            Kind::ConnectReply => Body::ConnectReply {
                domain: self.domain()?,
                version: self.chosen_version()?,
            },
            Kind::DisconnectRequest => Body::DisconnectRequest,
            Kind::DisconnectReply => Body::DisconnectReply,
            Kind::DiscoveryRequest => Body::DiscoveryRequest {
                domain: self.domain()?,
                services: self.list(Cursor::string)?,
                queues: self.list(Cursor::string)?,
            },
            Kind::TopologyUpdate => Body::TopologyUpdate {
                domains: self.list(Cursor::domain)?,
            },
            Kind::DiscoveryReply => Body::DiscoveryReply {
                domain: self.domain()?,
                services: self.list(Cursor::service)?,
                queues: self.list(Cursor::queue)?,
            },
            Kind::ServiceReply => Body::ServiceReply {
                result: self.u32()?,
                user: self.u64()?,
                state: self.u8_to(3)?,
                buffer_type: self.string()?,
                buffer_data: self.string()?,
            },
            Kind::RollbackRequest => Body::RollbackRequest {
                xid: self.xid()?,
                resource: self.u32()?,
                flags: self.u64()?,
            },
            Kind::RollbackReply => Body::RollbackReply {
                xid: self.xid()?,
                resource: self.u32()?,
                state: self.u32()?,
            },
            Kind::DequeueReply => Body::DequeueReply {
                messages: self.list(Cursor::dequeued)?,
            },
        })
    }

    /// Nothing may be left after the last field.
    fn end(&self) -> Result<(), Refusal> {
        if self.at != self.bytes.len() {
            return Err(Self::refuse(self.at, Fault::BytesLeft));
        }
        Ok(())
    }
}
