//! Writing: a struct for each message type, over borrowed slices.
//!
//! `write` puts the message at the front of `out` and hands that part back; no byte after it is touched. A refusal
//! writes nothing. Lists are lent as columns, one entry for each element; columns of one list that differ in length
//! are answered 48.

use crate::answers::{Error, Fault};
use crate::{call, Id};

/// What every message begins with, and the agreed version that it is written for.
#[derive(Clone, Copy, Debug, PartialEq, Eq)]
pub struct Head<'a> {
    /// The agreed version, 1000 to 1004.
    pub version: u64,
    /// The correlation id, of the header.
    pub correlation: &'a Id,
    /// The execution id.
    pub execution: &'a Id,
}

/// The strings of a list: their lengths, and all of them joined into one run of bytes.
#[derive(Clone, Copy, Debug, Default, PartialEq, Eq)]
pub struct Strings<'a> {
    /// The length of each string.
    pub lengths: &'a [u64],
    /// The strings, one after another.
    pub joined: &'a [u8],
}

/// The id of a transaction branch, as it is read and written.
#[derive(Clone, Copy, Debug, Default, PartialEq, Eq)]
pub struct Xid<'a> {
    /// formatID; 0 for no xid, whose lengths are 0 and which has no data.
    pub format: u64,
    /// How many bytes of the data are the gtrid, at most 64.
    pub gtrid_length: u64,
    /// How many bytes of the data, after the gtrid, are the bqual, at most 64.
    pub bqual_length: u64,
    /// The gtrid and the bqual.
    pub data: &'a [u8],
}

/// A 7200.
#[derive(Clone, Copy, Debug, PartialEq, Eq)]
pub struct ConnectRequest<'a> {
    /// The id of the domain that wants to connect.
    pub domain_id: &'a Id,
    /// Its name.
    pub domain_name: &'a [u8],
    /// The versions that it offers.
    pub versions: &'a [u64],
}

/// A 7201.
#[derive(Clone, Copy, Debug, PartialEq, Eq)]
pub struct ConnectReply<'a> {
    /// The id of the domain that answers.
    pub domain_id: &'a Id,
    /// Its name.
    pub domain_name: &'a [u8],
    /// The chosen version, or 0 for none.
    pub version: u64,
}

/// A 7202.
#[derive(Clone, Copy, Debug, PartialEq, Eq)]
pub struct DisconnectRequest;

/// A 7203.
#[derive(Clone, Copy, Debug, PartialEq, Eq)]
pub struct DisconnectReply;

/// A 7300.
#[derive(Clone, Copy, Debug, PartialEq, Eq)]
pub struct DiscoveryRequest<'a> {
    /// The id of the domain that asks.
    pub domain_id: &'a Id,
    /// Its name.
    pub domain_name: &'a [u8],
    /// The names of the services asked for.
    pub services: Strings<'a>,
    /// The names of the queues asked for.
    pub queues: Strings<'a>,
}

/// A 7302.
#[derive(Clone, Copy, Debug, Default, PartialEq, Eq)]
pub struct TopologyUpdate<'a> {
    /// The ids of the domains that saw the message.
    pub ids: &'a [Id],
    /// Their names.
    pub names: Strings<'a>,
}

/// The services of a 7311.
#[derive(Clone, Copy, Debug, Default, PartialEq, Eq)]
pub struct Services<'a> {
    /// Names.
    pub names: Strings<'a>,
    /// Categories.
    pub categories: Strings<'a>,
    /// Transaction modes, 0 to 3.
    pub transactions: &'a [u64],
    /// Timeouts, in nanoseconds.
    pub timeouts: &'a [u64],
    /// How many domains away each service is.
    pub hops: &'a [u64],
}

/// The queues of a 7311.
#[derive(Clone, Copy, Debug, Default, PartialEq, Eq)]
pub struct Queues<'a> {
    /// Names.
    pub names: Strings<'a>,
    /// How often each queue retries.
    pub retry_counts: &'a [u64],
    /// The delays before a retry.
    pub retry_delays: &'a [u64],
    /// 1 where enqueue is enabled, else 0.
    pub enqueues: &'a [u64],
    /// 1 where dequeue is enabled, else 0.
    pub dequeues: &'a [u64],
}

/// A 7311.
#[derive(Clone, Copy, Debug, PartialEq, Eq)]
pub struct DiscoveryReply<'a> {
    /// The id of the domain that asked.
    pub domain_id: &'a Id,
    /// Its name.
    pub domain_name: &'a [u8],
    /// The services found.
    pub services: Services<'a>,
    /// The queues found.
    pub queues: Queues<'a>,
}

/// A 3103.
#[derive(Clone, Copy, Debug, Default, PartialEq, Eq)]
pub struct ServiceReply<'a> {
    /// The result code.
    pub result: u32,
    /// The user's code.
    pub user: u64,
    /// The transaction state, 0 to 3.
    pub state: u64,
    /// The type of the buffer, in the form `type/subtype`.
    pub buffer_type: &'a [u8],
    /// What the service answered.
    pub buffer_data: &'a [u8],
}

/// A 5205.
#[derive(Clone, Copy, Debug, Default, PartialEq, Eq)]
pub struct RollbackRequest<'a> {
    /// The branch to roll back.
    pub xid: Xid<'a>,
    /// The resource's number.
    pub resource: u32,
    /// XA's flags.
    pub flags: u64,
}

/// A 5206.
#[derive(Clone, Copy, Debug, Default, PartialEq, Eq)]
pub struct RollbackReply<'a> {
    /// The branch that was to be rolled back.
    pub xid: Xid<'a>,
    /// The resource's number.
    pub resource: u32,
    /// What came of it.
    pub state: u32,
}

/// A 6201: messages taken from a queue, as columns.
#[derive(Clone, Copy, Debug, Default, PartialEq, Eq)]
pub struct DequeueReply<'a> {
    /// Ids.
    pub ids: &'a [Id],
    /// Properties.
    pub properties: Strings<'a>,
    /// The names of the reply queues.
    pub reply_queues: Strings<'a>,
    /// When each message is available.
    pub availables: &'a [u64],
    /// The types of the data.
    pub types: Strings<'a>,
    /// The data.
    pub data: Strings<'a>,
    /// How often each message was delivered again.
    pub redelivereds: &'a [u64],
    /// When each message was enqueued.
    pub timestamps: &'a [u64],
}

/// The message that a writer put at the front of `out`.
fn written((number, used): (u64, usize), out: &mut [u8]) -> Result<&mut [u8], Error> {
    Error::check(number, 0)?;
    out.get_mut(..used).ok_or(Error::of(Fault::Unknown(number)))
}

impl DisconnectRequest {
    /// Writes the message at the front of `out` and hands it back.
    pub fn write<'o>(&self, head: &Head, out: &'o mut [u8]) -> Result<&'o mut [u8], Error> {
        written(call::write_disconnect_request(out, head), out)
    }
}

impl DisconnectReply {
    /// Writes the message at the front of `out` and hands it back.
    pub fn write<'o>(&self, head: &Head, out: &'o mut [u8]) -> Result<&'o mut [u8], Error> {
        written(call::write_disconnect_reply(out, head), out)
    }
}

/// `write` of each message that has fields of its own.
macro_rules! writes {
    ($($message:ident: $function:ident),* $(,)?) => {$(
        impl $message<'_> {
            /// Writes the message at the front of `out` and hands it back.
            pub fn write<'o>(&self, head: &Head, out: &'o mut [u8]) -> Result<&'o mut [u8], Error> {
                written(call::$function(out, head, self), out)
            }
        }
    )*};
}

writes! {
    ConnectRequest: write_connect_request,
    ConnectReply: write_connect_reply,
    DiscoveryRequest: write_discovery_request,
    TopologyUpdate: write_topology_update,
    DiscoveryReply: write_discovery_reply,
    ServiceReply: write_service_reply,
    RollbackRequest: write_rollback_request,
    RollbackReply: write_rollback_reply,
    DequeueReply: write_dequeue_reply,
}
