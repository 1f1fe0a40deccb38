//! Writing messages: the eleven types, from lent bytes and lists.

use super::message::{Fault, Kind, HEADER, ID, MOST_BQUAL, MOST_GTRID, MOST_PAYLOAD, VERSIONS};

/// What stands before every body.
#[derive(Clone, Copy, Debug)]
pub struct Head<'a> {
    pub correlation: &'a [u8],
    pub execution: &'a [u8],
}

/// Strings of a list: their lengths, and their bytes joined in one run.
#[derive(Clone, Copy, Debug)]
pub struct Strings<'a> {
    pub lengths: &'a [u64],
    pub bytes: &'a [u8],
}

#[derive(Clone, Copy, Debug)]
pub struct Domain<'a> {
    pub id: &'a [u8],
    pub name: &'a [u8],
}

#[derive(Clone, Copy, Debug)]
pub struct Xid<'a> {
    pub format: u64,
    pub gtrid: u64,
    pub bqual: u64,
    pub data: &'a [u8],
}

/// The services of a 7311, a list for each field.
#[derive(Clone, Copy, Debug)]
pub struct Services<'a> {
    pub names: Strings<'a>,
    pub categories: Strings<'a>,
    pub transactions: &'a [u64],
    pub timeouts: &'a [u64],
    pub hops: &'a [u64],
}

/// The queues of a 7311, a list for each field.
#[derive(Clone, Copy, Debug)]
pub struct Queues<'a> {
    pub names: Strings<'a>,
    pub retry_counts: &'a [u64],
    pub retry_delays: &'a [u64],
    pub enqueues: &'a [u64],
    pub dequeues: &'a [u64],
}

/// The messages of a 6201, a list for each field; the ids stand in one run.
#[derive(Clone, Copy, Debug)]
pub struct Dequeued<'a> {
    pub ids: &'a [u8],
    pub properties: Strings<'a>,
    pub reply_queues: Strings<'a>,
    pub availables: &'a [u64],
    pub data_types: Strings<'a>,
    pub data: Strings<'a>,
    pub redelivereds: &'a [u64],
    pub timestamps: &'a [u64],
}

/// What a message has after its execution.
#[derive(Clone, Copy, Debug)]
pub enum Body<'a> {
    ConnectRequest {
        domain: Domain<'a>,
        versions: &'a [u64],
    },
    ConnectReply {
        domain: Domain<'a>,
        version: u64,
    },
    DisconnectRequest,
    DisconnectReply,
    DiscoveryRequest {
        domain: Domain<'a>,
        services: Strings<'a>,
        queues: Strings<'a>,
    },
    TopologyUpdate {
        ids: &'a [u8],
        names: Strings<'a>,
    },
    DiscoveryReply {
        domain: Domain<'a>,
        services: Services<'a>,
        queues: Queues<'a>,
    },
    ServiceReply {
        result: u32,
        user: u64,
        state: u64,
        buffer_type: &'a [u8],
        buffer_data: &'a [u8],
    },
    RollbackRequest {
        xid: Xid<'a>,
        resource: u32,
        flags: u64,
    },
    RollbackReply {
        xid: Xid<'a>,
        resource: u32,
        state: u32,
    },
    DequeueReply(Dequeued<'a>),
}

/// Writes a message to the front of `out` and hands back its length. A refusal writes nothing.
pub fn write(out: &mut [u8], version: u64, head: Head, body: &Body) -> Result<usize, Fault> {
    if !VERSIONS.contains(&version) {
        return Err(Fault::NoSuchVersion);
    }
    if !body.kind().versions().contains(&version) {
        return Err(Fault::TypeNotInVersion);
    }
    if !head.is_whole() || !body.lists_agree() {
        return Err(Fault::ListsDisagree);
    }
    if !body.values_allowed() {
        return Err(Fault::BadValue);
    }
    let size = ID + body.size();
    if size > MOST_PAYLOAD {
        return Err(Fault::TooLarge);
    }
    let Some(out) = out.get_mut(..HEADER + size) else {
        return Err(Fault::OutputShort);
    };
    let mut pen = Pen { rest: out };
    pen.u64(body.kind().number());
    pen.put(head.correlation);
    pen.u64(size as u64);
    pen.put(head.execution);
    pen.body(body);
    Ok(HEADER + size)
}

impl Head<'_> {
    fn is_whole(&self) -> bool {
        self.correlation.len() == ID && self.execution.len() == ID
    }
}

impl<'a> Strings<'a> {
    /// Whether there are `count` strings whose lengths sum to the bytes.
    fn agree(&self, count: usize) -> bool {
        let mut lengths = self.lengths.iter();
        let sum = lengths.try_fold(0u64, |sum, &length| sum.checked_add(length));
        self.lengths.len() == count && sum == Some(self.bytes.len() as u64)
    }

    /// The size on the wire, without the list's count.
    fn size(&self) -> usize {
        8 * self.lengths.len() + self.bytes.len()
    }

    fn iter(&self) -> impl Iterator<Item = &'a [u8]> {
        let mut rest = self.bytes;
        self.lengths.iter().map(move |&length| {
            let (string, after) = rest.split_at(rest.len().min(length as usize));
            rest = after;
            string
        })
    }
}

impl Domain<'_> {
    fn size(&self) -> usize {
        ID + 8 + self.name.len()
    }
}

impl Xid<'_> {
    /// Whether the lengths sum to the data; with formatID 0 there are none.
    fn agrees(&self) -> bool {
        if self.format == 0 {
            return self.gtrid == 0 && self.bqual == 0 && self.data.is_empty();
        }
        self.gtrid.checked_add(self.bqual) == Some(self.data.len() as u64)
    }

    /// Whether each length is within its limit.
    fn allowed(&self) -> bool {
        self.gtrid <= MOST_GTRID && self.bqual <= MOST_BQUAL
    }

    fn size(&self) -> usize {
        match self.format {
            0 => 8,
            _ => 24 + self.data.len(),
        }
    }
}

impl Services<'_> {
    fn agree(&self) -> bool {
        let count = self.names.lengths.len();
        self.names.agree(count)
            && self.categories.agree(count)
            && self.transactions.len() == count
            && self.timeouts.len() == count
            && self.hops.len() == count
    }

    fn size(&self) -> usize {
        self.names.size() + self.categories.size() + (2 + 8 + 8) * self.hops.len()
    }
}

impl Queues<'_> {
    fn agree(&self) -> bool {
        let count = self.names.lengths.len();
        self.names.agree(count)
            && self.retry_counts.len() == count
            && self.retry_delays.len() == count
            && self.enqueues.len() == count
            && self.dequeues.len() == count
    }

    fn size(&self) -> usize {
        self.names.size() + (8 + 8 + 1 + 1) * self.dequeues.len()
    }
}

impl Dequeued<'_> {
    fn agree(&self) -> bool {
        let count = self.timestamps.len();
        self.ids.len() == ID * count
            && self.properties.agree(count)
            && self.reply_queues.agree(count)
            && self.availables.len() == count
            && self.data_types.agree(count)
            && self.data.agree(count)
            && self.redelivereds.len() == count
    }

    fn size(&self) -> usize {
        let strings = self.properties.size() + self.reply_queues.size() + self.data_types.size() + self.data.size();
        strings + self.ids.len() + (8 + 8 + 8) * self.timestamps.len()
    }
}

/// Whether no number of the list is above `most`.
fn all_to(numbers: &[u64], most: u64) -> bool {
    numbers.iter().all(|&number| number <= most)
}

impl Body<'_> {
    pub fn kind(&self) -> Kind {
        match self {
            Body::ConnectRequest { .. } => Kind::ConnectRequest,
            Body::ConnectReply { .. } => Kind::ConnectReply,
            Body::DisconnectRequest => Kind::DisconnectRequest,
            Body::DisconnectReply => Kind::DisconnectReply,
            Body::DiscoveryRequest { .. } => Kind::DiscoveryRequest,
            Body::TopologyUpdate { .. } => Kind::TopologyUpdate,
            Body::DiscoveryReply { .. } => Kind::DiscoveryReply,
            Body::ServiceReply { .. } => Kind::ServiceReply,
            Body::RollbackRequest { .. } => Kind::RollbackRequest,
            Body::RollbackReply { .. } => Kind::RollbackReply,
            Body::DequeueReply(_) => Kind::DequeueReply,
        }
    }

    /// The test of 48, but for correlation and execution.
    fn lists_agree(&self) -> bool {
        match self {
            Body::DisconnectRequest | Body::DisconnectReply | Body::ServiceReply { .. } => true,
            Body::ConnectRequest { domain, .. } | Body::ConnectReply { domain, .. } => domain.id.len() == ID,
            Body::DiscoveryRequest {
                domain,
                services,
                queues,
            } => domain.id.len() == ID && services.agree(services.lengths.len()) && queues.agree(queues.lengths.len()),
            Body::TopologyUpdate { ids, names } => {
                names.agree(names.lengths.len()) && ids.len() == ID * names.lengths.len()
            }
            Body::DiscoveryReply {
                domain,
                services,
                queues,
            } => domain.id.len() == ID && services.agree() && queues.agree(),
            Body::RollbackRequest { xid, .. } | Body::RollbackReply { xid, .. } => xid.agrees(),
            Body::DequeueReply(messages) => messages.agree(),
        }
    }

    /// The test of 45. Numbers are judged before they are narrowed to their width on the wire.
    fn values_allowed(&self) -> bool {
        match self {
            Body::ConnectReply { version, .. } => *version == 0 || VERSIONS.contains(version),
            Body::DiscoveryReply { services, queues, .. } => {
                all_to(services.transactions, 3) && all_to(queues.enqueues, 1) && all_to(queues.dequeues, 1)
            }
            Body::ServiceReply { state, .. } => *state <= 3,
            Body::RollbackRequest { xid, .. } | Body::RollbackReply { xid, .. } => xid.allowed(),
            _ => true,
        }
    }

    /// The payload's size without the execution.
    fn size(&self) -> usize {
        match self {
            Body::ConnectRequest { domain, versions } => domain.size() + 8 + 8 * versions.len(),
            Body::ConnectReply { domain, .. } => domain.size() + 8,
            Body::DisconnectRequest | Body::DisconnectReply => 0,
            Body::DiscoveryRequest {
                domain,
                services,
                queues,
            } => domain.size() + 8 + services.size() + 8 + queues.size(),
            Body::TopologyUpdate { ids, names } => 8 + ids.len() + names.size(),
            Body::DiscoveryReply {
                domain,
                services,
                queues,
            } => domain.size() + 8 + services.size() + 8 + queues.size(),
            Body::ServiceReply {
                buffer_type,
                buffer_data,
                ..
            } => 4 + 8 + 1 + 8 + buffer_type.len() + 8 + buffer_data.len(),
            Body::RollbackRequest { xid, .. } => xid.size() + 4 + 8,
            Body::RollbackReply { xid, .. } => xid.size() + 4 + 4,
            Body::DequeueReply(messages) => 8 + messages.size(),
        }
    }
}

/// Writes to the front of what is left of the output. The output was cut to the message's size before.
struct Pen<'a> {
    rest: &'a mut [u8],
}

impl Pen<'_> {
    fn put(&mut self, bytes: &[u8]) {
        let (front, rest) = std::mem::take(&mut self.rest).split_at_mut(bytes.len());
        front.copy_from_slice(bytes);
        self.rest = rest;
    }

    fn u64(&mut self, number: u64) {
        self.put(&number.to_be_bytes());
    }

    fn u32(&mut self, number: u32) {
        self.put(&number.to_be_bytes());
    }

    fn string(&mut self, string: &[u8]) {
        self.u64(string.len() as u64);
        self.put(string);
    }

    fn count<T>(&mut self, elements: &[T]) {
        self.u64(elements.len() as u64);
    }

    fn domain(&mut self, domain: &Domain) {
        self.put(domain.id);
        self.string(domain.name);
    }

    fn xid(&mut self, xid: &Xid) {
        self.u64(xid.format);
        if xid.format != 0 {
            self.u64(xid.gtrid);
            self.u64(xid.bqual);
            self.put(xid.data);
        }
    }

    fn strings(&mut self, strings: &Strings) {
        self.count(strings.lengths);
        for string in strings.iter() {
            self.string(string);
        }
    }

    fn domains(&mut self, ids: &[u8], names: &Strings) {
        self.count(names.lengths);
        for (id, name) in ids.chunks_exact(ID).zip(names.iter()) {
            self.put(id);
            self.string(name);
        }
    }

    fn services(&mut self, services: &Services) {
        self.count(services.hops);
        let strings = services.names.iter().zip(services.categories.iter());
        for (n, (name, category)) in strings.enumerate() {
            self.string(name);
            self.string(category);
            self.put(&(services.transactions[n] as u16).to_be_bytes());
            self.u64(services.timeouts[n]);
            self.u64(services.hops[n]);
        }
    }

    fn queues(&mut self, queues: &Queues) {
        self.count(queues.dequeues);
        for (n, name) in queues.names.iter().enumerate() {
            self.string(name);
            self.u64(queues.retry_counts[n]);
            self.u64(queues.retry_delays[n]);
            self.put(&[queues.enqueues[n] as u8, queues.dequeues[n] as u8]);
        }
    }

    fn messages(&mut self, messages: &Dequeued) {
        self.count(messages.timestamps);
        let attributes = messages.properties.iter().zip(messages.reply_queues.iter());
        let payloads = messages.data_types.iter().zip(messages.data.iter());
        let strings = attributes.zip(payloads);
        for (n, ((properties, reply_queue), (data_type, data))) in strings.enumerate() {
            self.put(&messages.ids[ID * n..ID * (n + 1)]);
            self.string(properties);
            self.string(reply_queue);
            self.u64(messages.availables[n]);
            self.string(data_type);
            self.string(data);
            self.u64(messages.redelivereds[n]);
            self.u64(messages.timestamps[n]);
        }
    }

    /// The fields after the execution, in their order on the wire.
    fn body(&mut self, body: &Body) {
        match body {
            Body::DisconnectRequest | Body::DisconnectReply => {}
            Body::ConnectRequest { domain, versions } => {
                self.domain(domain);
                self.count(versions);
                versions.iter().for_each(|&version| self.u64(version));
            }
            Body::ConnectReply { domain, version } => {
                self.domain(domain);
                self.u64(*version);
            }
            Body::DiscoveryRequest {
                domain,
                services,
                queues,
            } => {
                self.domain(domain);
                self.strings(services);
                self.strings(queues);
            }
            Body::TopologyUpdate { ids, names } => self.domains(ids, names),
            Body::DiscoveryReply {
                domain,
                services,
                queues,
            } => {
                self.domain(domain);
                self.services(services);
                self.queues(queues);
            }
            Body::ServiceReply {
                result,
                user,
                state,
                buffer_type,
                buffer_data,
            } => {
                self.u32(*result);
                self.u64(*user);
                self.put(&[*state as u8]);
                self.string(buffer_type);
                self.string(buffer_data);
            }
            Body::RollbackRequest { xid, resource, flags } => {
                self.xid(xid);
                self.u32(*resource);
                self.u64(*flags);
            }
            Body::RollbackReply { xid, resource, state } => {
                self.xid(xid);
                self.u32(*resource);
                self.u32(*state);
            }
            Body::DequeueReply(messages) => self.messages(messages),
        }
    }
}
