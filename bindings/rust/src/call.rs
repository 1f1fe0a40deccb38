//! The calls of the boundary with slices in the place of pointers and lengths. All `unsafe` of this crate is here.
//!
//! Each function gives the answer's number first and then the results, in the header's order.

use crate::link::{NUMBERS, STORE_LENGTH};
use crate::raw;
use crate::write::{
    ConnectReply, ConnectRequest, DequeueReply, DiscoveryReply, DiscoveryRequest, Head, RollbackReply, RollbackRequest,
    ServiceReply, TopologyUpdate,
};

type Numbers = [u32; NUMBERS];
type Store = [u8; STORE_LENGTH];

/// Calls a function of the boundary. `lend(slice)` passes a slice's pointer and its length, `fill(slice)` those of a
/// slice that may be written, `give(number)` a number, and `back(name)` the place of a result.
macro_rules! call {
    ($function:ident: $(
        $(lend($lent:expr))? $(fill($filled:expr))? $(give($number:expr))? $(back($result:ident))?
    ),*) => {{
        $($(let mut $result = Default::default();)?)*
        // SAFETY: a pointer beside a length is a slice's own, so that many elements can be read, and written where the
        // slice is `&mut`; it is not null, for a slice's never is. Results point to a local variable each. Every function
        // of this module lends each of its parameters once, and while one of them is `&mut` Rust's borrow rules let no
        // other reach the same bytes, so nothing that may be written overlaps anything else.
        let answer = unsafe {
            raw::$function($(
                $($lent.as_ptr(), $lent.len(),)?
                $($filled.as_mut_ptr(), $filled.len(),)?
                $($number,)?
                $(&mut $result,)?
            )*)
        };
        (answer $($(, $result)?)*)
    }};
}

/// Calls a writer: the output and the head, then what is the message's own, then the used length.
macro_rules! call_writer {
    ($function:ident: $out:ident, $head:ident $(, $how:ident($argument:expr))*) => {
        call!($function: fill($out), give($head.version), lend($head.correlation), lend($head.execution)
            $(, $how($argument))*, back(used))
    };
}

/// Number, type, used length and place.
pub fn read(message: &[u8], version: u64) -> (u64, u64, usize, usize) {
    call!(sootlark_read: lend(message), give(version), back(type_), back(used), back(place))
}

/// Number, the length of the field's name, which parts apply, element, needed, had, value and left.
pub fn explain(message: &[u8], version: u64, field: &mut [u8]) -> (u64, usize, u64, u64, u64, u64, u64, u64) {
    call!(sootlark_explain:
        lend(message), give(version), fill(field), back(field_size), back(parts), back(element), back(needed), back(had),
        back(value), back(left))
}

/// Number, offset, length and place, as of every part.
pub fn correlation(message: &[u8], version: u64) -> (u64, usize, usize, usize) {
    call!(sootlark_correlation: lend(message), give(version), back(at), back(size), back(place))
}

pub fn part(message: &[u8], version: u64, role: u64) -> (u64, usize, usize, usize) {
    call!(sootlark_part: lend(message), give(version), give(role), back(at), back(size), back(place))
}

/// Number, value and place, as of every value.
pub fn field(message: &[u8], version: u64, role: u64) -> (u64, u64, usize) {
    call!(sootlark_field: lend(message), give(version), give(role), back(value), back(place))
}

pub fn xid(message: &[u8], version: u64, which: u64) -> (u64, u64, usize) {
    call!(sootlark_xid: lend(message), give(version), give(which), back(value), back(place))
}

pub fn count(message: &[u8], version: u64, list: u64) -> (u64, u64, usize) {
    call!(sootlark_count: lend(message), give(version), give(list), back(value), back(place))
}

pub fn element_part(message: &[u8], version: u64, list: u64, n: u64, role: u64) -> (u64, usize, usize, usize) {
    call!(sootlark_element_part:
        lend(message), give(version), give(list), give(n), give(role), back(at), back(size), back(place))
}

pub fn element_field(message: &[u8], version: u64, list: u64, n: u64, role: u64) -> (u64, u64, usize) {
    call!(sootlark_element_field:
        lend(message), give(version), give(list), give(n), give(role), back(value), back(place))
}

/// The version, and no answer.
pub fn choose(offers: &[u64]) -> u64 {
    call!(sootlark_choose: lend(offers))
}

/// The version, and no answer.
pub fn choose_version(message: &[u8], version: u64) -> u64 {
    call!(sootlark_choose_version: lend(message), give(version))
}

/// Number and used length, as of every writer.
pub fn write_disconnect_request(out: &mut [u8], head: &Head) -> (u64, usize) {
    call_writer!(sootlark_write_disconnect_request: out, head)
}

pub fn write_disconnect_reply(out: &mut [u8], head: &Head) -> (u64, usize) {
    call_writer!(sootlark_write_disconnect_reply: out, head)
}

pub fn write_connect_request(out: &mut [u8], head: &Head, message: &ConnectRequest) -> (u64, usize) {
    call_writer!(sootlark_write_connect_request:
        out, head, lend(message.domain_id), lend(message.domain_name), lend(message.versions))
}

pub fn write_connect_reply(out: &mut [u8], head: &Head, message: &ConnectReply) -> (u64, usize) {
    call_writer!(sootlark_write_connect_reply:
        out, head, lend(message.domain_id), lend(message.domain_name), give(message.version))
}

pub fn write_discovery_request(out: &mut [u8], head: &Head, message: &DiscoveryRequest) -> (u64, usize) {
    call_writer!(sootlark_write_discovery_request:
        out, head, lend(message.domain_id), lend(message.domain_name),
        lend(message.services.lengths), lend(message.services.joined),
        lend(message.queues.lengths), lend(message.queues.joined))
}

pub fn write_topology_update(out: &mut [u8], head: &Head, message: &TopologyUpdate) -> (u64, usize) {
    call_writer!(sootlark_write_topology_update:
        out, head, lend(message.ids.as_flattened()), lend(message.names.lengths), lend(message.names.joined))
}

pub fn write_discovery_reply(out: &mut [u8], head: &Head, message: &DiscoveryReply) -> (u64, usize) {
    let (services, queues) = (&message.services, &message.queues);
    call_writer!(sootlark_write_discovery_reply:
        out, head, lend(message.domain_id), lend(message.domain_name),
        lend(services.names.lengths), lend(services.names.joined),
        lend(services.categories.lengths), lend(services.categories.joined),
        lend(services.transactions), lend(services.timeouts), lend(services.hops),
        lend(queues.names.lengths), lend(queues.names.joined),
        lend(queues.retry_counts), lend(queues.retry_delays), lend(queues.enqueues), lend(queues.dequeues))
}

pub fn write_service_reply(out: &mut [u8], head: &Head, message: &ServiceReply) -> (u64, usize) {
    call_writer!(sootlark_write_service_reply:
        out, head, give(message.result), give(message.user), give(message.state),
        lend(message.buffer_type), lend(message.buffer_data))
}

pub fn write_rollback_request(out: &mut [u8], head: &Head, message: &RollbackRequest) -> (u64, usize) {
    let xid = &message.xid;
    call_writer!(sootlark_write_rollback_request:
        out, head, give(xid.format), give(xid.gtrid_length), give(xid.bqual_length), lend(xid.data),
        give(message.resource), give(message.flags))
}

pub fn write_rollback_reply(out: &mut [u8], head: &Head, message: &RollbackReply) -> (u64, usize) {
    let xid = &message.xid;
    call_writer!(sootlark_write_rollback_reply:
        out, head, give(xid.format), give(xid.gtrid_length), give(xid.bqual_length), lend(xid.data),
        give(message.resource), give(message.state))
}

pub fn write_dequeue_reply(out: &mut [u8], head: &Head, message: &DequeueReply) -> (u64, usize) {
    call_writer!(sootlark_write_dequeue_reply:
        out, head, lend(message.ids.as_flattened()),
        lend(message.properties.lengths), lend(message.properties.joined),
        lend(message.reply_queues.lengths), lend(message.reply_queues.joined), lend(message.availables),
        lend(message.types.lengths), lend(message.types.joined),
        lend(message.data.lengths), lend(message.data.joined),
        lend(message.redelivereds), lend(message.timestamps))
}

/// Number alone.
pub fn make(began: bool, numbers: &mut Numbers, store: &mut Store) -> u64 {
    call!(sootlark_make: give(began), fill(numbers), fill(store))
}

/// Number, session and written bytes.
pub fn open(numbers: &mut Numbers, store: &mut Store, id: u16, out: &mut [u8]) -> (u64, u32, usize) {
    call!(sootlark_open: fill(numbers), fill(store), give(id), fill(out), back(session), back(written))
}

/// Number and written bytes, as of the calls up to `link_read`.
pub fn close(numbers: &mut Numbers, store: &mut Store, id: u16, session: u32, out: &mut [u8]) -> (u64, usize) {
    call!(sootlark_close: fill(numbers), fill(store), give(id), give(session), fill(out), back(written))
}

pub fn request(
    numbers: &mut Numbers,
    store: &mut Store,
    id: u16,
    session: u32,
    amount: u32,
    out: &mut [u8],
) -> (u64, usize) {
    call!(sootlark_request:
        fill(numbers), fill(store), give(id), give(session), give(amount), fill(out), back(written))
}

pub fn transmit(
    numbers: &mut Numbers,
    store: &mut Store,
    id: u16,
    session: u32,
    data: &[u8],
    out: &mut [u8],
) -> (u64, usize) {
    call!(sootlark_transmit:
        fill(numbers), fill(store), give(id), give(session), lend(data), fill(out), back(written))
}

pub fn link_read(numbers: &mut Numbers, store: &mut Store, id: u16, session: u32, out: &mut [u8]) -> (u64, usize) {
    call!(sootlark_link_read: fill(numbers), fill(store), give(id), give(session), fill(out), back(written))
}

/// Number, session, used bytes and written bytes.
pub fn receive(numbers: &mut Numbers, store: &mut Store, bytes: &[u8], out: &mut [u8]) -> (u64, u32, usize, usize) {
    call!(sootlark_receive:
        fill(numbers), fill(store), lend(bytes), fill(out), back(session), back(used), back(written))
}

/// Number, accepted records, used bytes and written bytes.
pub fn run(
    numbers: &mut Numbers,
    store: &mut Store,
    n: usize,
    bytes: &[u8],
    out: &mut [u8],
) -> (u64, usize, usize, usize) {
    call!(sootlark_run:
        fill(numbers), fill(store), give(n), lend(bytes), fill(out), back(accepted), back(used), back(written))
}
