//! Reading: what a message is, its fields and its lists.

use crate::answers::{Error, Fault, MessageKind};
use crate::write::Xid;
use crate::{call, Id};
use core::fmt;

/// The roles of fields, with the header's numbers: those of a message, then those of a list's elements.
#[derive(Clone, Copy, Debug, PartialEq, Eq, Hash)]
#[repr(u64)]
pub enum Role {
    /// Bytes of every type.
    Execution = 0,
    /// Bytes of 7200, 7201, 7300 and 7311.
    DomainId = 1,
    /// Bytes of 7200, 7201, 7300 and 7311.
    DomainName = 2,
    /// Number of 7201.
    ProtocolVersion = 4,
    /// Number of 3103.
    CodeResult = 8,
    /// Number of 3103.
    CodeUser = 9,
    /// Number of 3103.
    TransactionState = 10,
    /// Bytes of 3103.
    BufferType = 11,
    /// Bytes of 3103.
    BufferData = 12,
    /// Bytes of 5205 and 5206: the xid's data.
    Xid = 13,
    /// Number of 5205 and 5206.
    Resource = 14,
    /// Number of 5205.
    Flags = 15,
    /// Number of 5206.
    State = 16,
    /// Number of an offered version of 7200.
    Offered = 18,
    /// Bytes of services and queues of 7300 and 7311, and of domains of 7302.
    Name = 19,
    /// Bytes of services of 7311.
    Category = 20,
    /// Number of services of 7311.
    Transaction = 21,
    /// Number of services of 7311.
    Timeout = 22,
    /// Number of services of 7311.
    Hops = 23,
    /// Number of queues of 7311.
    RetryCount = 24,
    /// Number of queues of 7311.
    RetryDelay = 25,
    /// Number of queues of 7311.
    Enqueue = 26,
    /// Number of queues of 7311.
    Dequeue = 27,
    /// Bytes of domains of 7302 and of messages of 6201.
    Id = 28,
    /// Bytes of messages of 6201.
    Properties = 29,
    /// Bytes of messages of 6201.
    ReplyQueue = 30,
    /// Number of messages of 6201.
    Available = 31,
    /// Bytes of messages of 6201.
    DataType = 32,
    /// Bytes of messages of 6201.
    Data = 33,
    /// Number of messages of 6201.
    Redelivered = 34,
    /// Number of messages of 6201.
    Timestamp = 35,
}

impl Role {
    /// The header's number.
    pub const fn number(self) -> u64 {
        self as u64
    }
}

/// The lists of messages, with the header's numbers.
#[derive(Clone, Copy, Debug, PartialEq, Eq, Hash)]
#[repr(u64)]
pub enum List {
    /// The offers of 7200.
    ProtocolVersions = 3,
    /// The services of 7300 and 7311.
    Services = 5,
    /// The queues of 7300 and 7311.
    Queues = 6,
    /// The domains of 7302.
    Domains = 7,
    /// The messages of 6201.
    Messages = 17,
}

impl List {
    /// The header's number.
    pub const fn number(self) -> u64 {
        self as u64
    }
}

/// The version to choose: the greatest of the offers among 1000 to 1004, if there is one.
pub fn choose_version(offers: &[u64]) -> Option<u64> {
    Some(call::choose(offers)).filter(|&version| version != 0)
}

/// A message that was read and accepted. Everything that it hands back is a part of the caller's bytes.
#[derive(Clone, Copy, PartialEq, Eq)]
pub struct Message<'a> {
    bytes: &'a [u8],
    version: u64,
    kind: MessageKind,
}

impl<'a> Message<'a> {
    /// Reads the message at the front of the bytes, at the agreed version. Bytes after it are not looked at. The error of one
    /// that is refused has its [reason](Error::reason), for which the bytes are gone through once more.
    pub fn read(bytes: &'a [u8], version: u64) -> Result<Message<'a>, Error> {
        let (number, kind, used, place) = call::read(bytes, version);
        Error::check(number, place).map_err(|error| error.explained(bytes, version))?;
        let bytes = bytes.get(..used).ok_or(Error::of(Fault::Unknown(number)))?;
        Ok(Message { bytes, version, kind: MessageKind::from_number(kind) })
    }

    /// The type.
    pub fn kind(&self) -> MessageKind {
        self.kind
    }

    /// The agreed version that the message was read at.
    pub fn version(&self) -> u64 {
        self.version
    }

    /// How many bytes the message has, header included.
    pub fn used(&self) -> usize {
        self.bytes.len()
    }

    /// The message's bytes.
    pub fn bytes(&self) -> &'a [u8] {
        self.bytes
    }

    /// The correlation id.
    pub fn correlation(&self) -> Result<&'a Id, Error> {
        id(self.lent(call::correlation(self.bytes, self.version))?)
    }

    /// The bytes of a field. 50: the message has no bytes of that role.
    pub fn part(&self, role: Role) -> Result<&'a [u8], Error> {
        self.lent(call::part(self.bytes, self.version, role.number()))
    }

    /// The number of a field. 50: the message has no number of that role.
    pub fn number(&self, role: Role) -> Result<u64, Error> {
        value(call::field(self.bytes, self.version, role.number()))
    }

    /// How many elements a list has. 49: the message does not have that list.
    pub fn count(&self, list: List) -> Result<u64, Error> {
        value(call::count(self.bytes, self.version, list.number()))
    }

    /// The bytes of a field of element `n`. 49: no such element; 50: it has no bytes of that role.
    ///
    /// Stepping past an element takes 32 bytes of stack: see [`ELEMENT_STACK`](crate::ELEMENT_STACK).
    pub fn element_part(&self, list: List, n: u64, role: Role) -> Result<&'a [u8], Error> {
        self.lent(call::element_part(self.bytes, self.version, list.number(), n, role.number()))
    }

    /// The number of a field of element `n`. 49: no such element; 50: it has no number of that role.
    ///
    /// Stepping past an element takes 32 bytes of stack: see [`ELEMENT_STACK`](crate::ELEMENT_STACK).
    pub fn element_number(&self, list: List, n: u64, role: Role) -> Result<u64, Error> {
        value(call::element_field(self.bytes, self.version, list.number(), n, role.number()))
    }

    /// The elements of a list. 49: the message does not have that list.
    pub fn elements(&self, list: List) -> Result<Elements<'a>, Error> {
        Ok(Elements { message: *self, list, next: 0, count: self.count(list)? })
    }

    /// The version to choose of a 7200's offers; none for any other message.
    pub fn choose_version(&self) -> Option<u64> {
        Some(call::choose_version(self.bytes, self.version)).filter(|&version| version != 0)
    }

    /// The execution id.
    pub fn execution(&self) -> Result<&'a Id, Error> {
        id(self.part(Role::Execution)?)
    }

    /// The domain's id: 7200, 7201, 7300 and 7311.
    pub fn domain_id(&self) -> Result<&'a Id, Error> {
        id(self.part(Role::DomainId)?)
    }

    /// The domain's name: 7200, 7201, 7300 and 7311.
    pub fn domain_name(&self) -> Result<&'a [u8], Error> {
        self.part(Role::DomainName)
    }

    /// The chosen version, or 0: 7201.
    pub fn protocol_version(&self) -> Result<u64, Error> {
        self.number(Role::ProtocolVersion)
    }

    /// The result code: 3103.
    pub fn code_result(&self) -> Result<u32, Error> {
        narrow(self.number(Role::CodeResult)?)
    }

    /// The user's code: 3103.
    pub fn code_user(&self) -> Result<u64, Error> {
        self.number(Role::CodeUser)
    }

    /// The transaction state, 0 to 3: 3103.
    pub fn transaction_state(&self) -> Result<u8, Error> {
        narrow(self.number(Role::TransactionState)?)
    }

    /// The type of the buffer: 3103.
    pub fn buffer_type(&self) -> Result<&'a [u8], Error> {
        self.part(Role::BufferType)
    }

    /// What the service answered: 3103.
    pub fn buffer_data(&self) -> Result<&'a [u8], Error> {
        self.part(Role::BufferData)
    }

    /// The xid: 5205 and 5206.
    pub fn xid(&self) -> Result<Xid<'a>, Error> {
        Ok(Xid {
            format: value(call::xid(self.bytes, self.version, 0))?,
            gtrid_length: value(call::xid(self.bytes, self.version, 1))?,
            bqual_length: value(call::xid(self.bytes, self.version, 2))?,
            data: self.part(Role::Xid)?,
        })
    }

    /// The resource's number: 5205 and 5206.
    pub fn resource(&self) -> Result<u32, Error> {
        narrow(self.number(Role::Resource)?)
    }

    /// XA's flags: 5205.
    pub fn flags(&self) -> Result<u64, Error> {
        self.number(Role::Flags)
    }

    /// What came of a rollback: 5206.
    pub fn state(&self) -> Result<u32, Error> {
        narrow(self.number(Role::State)?)
    }

    /// The part of the message that the library found.
    fn lent(&self, (number, at, size, place): (u64, usize, usize, usize)) -> Result<&'a [u8], Error> {
        Error::check(number, place)?;
        at.checked_add(size).and_then(|end| self.bytes.get(at..end)).ok_or(Error::of(Fault::Unknown(number)))
    }
}

/// Shows what the message is, and none of its bytes: they are patients' data.
impl fmt::Debug for Message<'_> {
    fn fmt(&self, to: &mut fmt::Formatter) -> fmt::Result {
        let mut shown = to.debug_struct("Message");
        shown.field("kind", &self.kind).field("version", &self.version).field("used", &self.used());
        shown.finish_non_exhaustive()
    }
}

/// The elements of a list, from the front.
#[derive(Clone, Debug, PartialEq, Eq)]
pub struct Elements<'a> {
    message: Message<'a>,
    list: List,
    next: u64,
    count: u64,
}

impl<'a> Iterator for Elements<'a> {
    type Item = Element<'a>;

    fn next(&mut self) -> Option<Element<'a>> {
        if self.next >= self.count {
            return None;
        }
        let element = Element { message: self.message, list: self.list, n: self.next };
        self.next += 1;
        Some(element)
    }
}

/// One element of a list.
///
/// Each of its fields is found by stepping past the elements before it, which takes 32 bytes of stack each: see
/// [`ELEMENT_STACK`](crate::ELEMENT_STACK).
#[derive(Clone, Copy, Debug, PartialEq, Eq)]
pub struct Element<'a> {
    message: Message<'a>,
    list: List,
    n: u64,
}

impl<'a> Element<'a> {
    /// The bytes of a field. 50: the element has no bytes of that role.
    pub fn part(&self, role: Role) -> Result<&'a [u8], Error> {
        self.message.element_part(self.list, self.n, role)
    }

    /// The number of a field. 50: the element has no number of that role.
    pub fn number(&self, role: Role) -> Result<u64, Error> {
        self.message.element_number(self.list, self.n, role)
    }

    /// The offered version: 7200.
    pub fn offered(&self) -> Result<u64, Error> {
        self.number(Role::Offered)
    }

    /// The name: services and queues of 7300 and 7311, domains of 7302.
    pub fn name(&self) -> Result<&'a [u8], Error> {
        self.part(Role::Name)
    }

    /// The category: services of 7311.
    pub fn category(&self) -> Result<&'a [u8], Error> {
        self.part(Role::Category)
    }

    /// The transaction mode, 0 to 3: services of 7311.
    pub fn transaction(&self) -> Result<u16, Error> {
        narrow(self.number(Role::Transaction)?)
    }

    /// The timeout, in nanoseconds: services of 7311.
    pub fn timeout(&self) -> Result<u64, Error> {
        self.number(Role::Timeout)
    }

    /// How many domains away the service is: services of 7311.
    pub fn hops(&self) -> Result<u64, Error> {
        self.number(Role::Hops)
    }

    /// How often the queue retries: queues of 7311.
    pub fn retry_count(&self) -> Result<u64, Error> {
        self.number(Role::RetryCount)
    }

    /// The delay before a retry: queues of 7311.
    pub fn retry_delay(&self) -> Result<u64, Error> {
        self.number(Role::RetryDelay)
    }

    /// Whether enqueue is enabled: queues of 7311.
    pub fn enqueue(&self) -> Result<bool, Error> {
        Ok(self.number(Role::Enqueue)? != 0)
    }

    /// Whether dequeue is enabled: queues of 7311.
    pub fn dequeue(&self) -> Result<bool, Error> {
        Ok(self.number(Role::Dequeue)? != 0)
    }

    /// The id: domains of 7302, messages of 6201.
    pub fn id(&self) -> Result<&'a Id, Error> {
        id(self.part(Role::Id)?)
    }

    /// The properties: messages of 6201.
    pub fn properties(&self) -> Result<&'a [u8], Error> {
        self.part(Role::Properties)
    }

    /// The name of the reply queue: messages of 6201.
    pub fn reply_queue(&self) -> Result<&'a [u8], Error> {
        self.part(Role::ReplyQueue)
    }

    /// When the message is available: messages of 6201.
    pub fn available(&self) -> Result<u64, Error> {
        self.number(Role::Available)
    }

    /// The type of the data: messages of 6201.
    pub fn data_type(&self) -> Result<&'a [u8], Error> {
        self.part(Role::DataType)
    }

    /// The data: messages of 6201.
    pub fn data(&self) -> Result<&'a [u8], Error> {
        self.part(Role::Data)
    }

    /// How often the message was delivered again: messages of 6201.
    pub fn redelivered(&self) -> Result<u64, Error> {
        self.number(Role::Redelivered)
    }

    /// When the message was enqueued: messages of 6201.
    pub fn timestamp(&self) -> Result<u64, Error> {
        self.number(Role::Timestamp)
    }
}

/// The value that the library found.
fn value((number, value, place): (u64, u64, usize)) -> Result<u64, Error> {
    Error::check(number, place)?;
    Ok(value)
}

/// A value of a field that is narrower on the wire, so that it fits.
fn narrow<N: TryFrom<u64>>(value: u64) -> Result<N, Error> {
    N::try_from(value).map_err(|_| Error::of(Fault::Unknown(0)))
}

/// The part of a field that has 16 bytes on the wire, so that it fits.
fn id(part: &[u8]) -> Result<&Id, Error> {
    part.try_into().map_err(|_| Error::of(Fault::Unknown(0)))
}
