//! The proved library, through its C boundary.
//!
//! Each result is set to a value that no call reports before the call, so that one which is not written shows.

use crate::library::{Ask, Explained, Lend, Library, LinkCall, Reply};
use crate::second::write::{Body, Head};
use sootlark::raw;

/// What a result holds before a call.
const UNSET: u64 = 0xDEAD_BEEF_DEAD_BEEF;
const UNSET_SIZE: usize = UNSET as usize;
const UNSET_SESSION: u32 = UNSET as u32;

pub struct Proved;

/// Calls a writer: output and version, then slices (each a pointer and a length), numbers, slices and numbers again.
macro_rules! write_with {
    ($writer:ident, $out:ident, $version:ident, $used:ident,
     [$($slice:expr),*], [$($number:expr),*], [$($later:expr),*], [$($last:expr),*]) => {
        // Safety: every pointer and length is that of a slice, and the output is lent exclusively.
        unsafe {
            raw::$writer(
                $out.as_mut_ptr(),
                $out.len(),
                $version,
                $($slice.as_ptr(), $slice.len(),)*
                $($number,)*
                $($later.as_ptr(), $later.len(),)*
                $($last,)*
                $used,
            )
        }
    };
}

impl Library for Proved {
    /// Always inlined, as `explain` is, so that the benchmark measures the call that is made and not the choice of it.
    #[inline(always)]
    fn ask(&self, message: &[u8], version: u64, ask: Ask) -> Reply {
        let (bytes, length) = (message.as_ptr(), message.len());
        let mut number = UNSET;
        let (mut at, mut size, mut place) = (UNSET_SIZE, UNSET_SIZE, UNSET_SIZE);
        // Safety: the pointer and the length are those of a slice, and the results are variables of our own.
        unsafe {
            match ask {
                Ask::Read => {
                    let reply = raw::sootlark_read(bytes, length, version, &mut number, &mut size, &mut place);
                    reply_of(reply, [number, size as u64, place as u64])
                }
                Ask::Correlation => {
                    let reply = raw::sootlark_correlation(bytes, length, version, &mut at, &mut size, &mut place);
                    reply_of(reply, [at as u64, size as u64, place as u64])
                }
                Ask::Part(role) => {
                    let reply = raw::sootlark_part(bytes, length, version, role, &mut at, &mut size, &mut place);
                    reply_of(reply, [at as u64, size as u64, place as u64])
                }
                Ask::Field(role) => {
                    let reply = raw::sootlark_field(bytes, length, version, role, &mut number, &mut place);
                    reply_of(reply, [number, place as u64, 0])
                }
                Ask::Xid(which) => {
                    let reply = raw::sootlark_xid(bytes, length, version, which, &mut number, &mut place);
                    reply_of(reply, [number, place as u64, 0])
                }
                Ask::Count(list) => {
                    let reply = raw::sootlark_count(bytes, length, version, list, &mut number, &mut place);
                    reply_of(reply, [number, place as u64, 0])
                }
                Ask::ElementPart { list, n, role } => {
                    let reply = raw::sootlark_element_part(
                        bytes, length, version, list, n, role, &mut at, &mut size, &mut place,
                    );
                    reply_of(reply, [at as u64, size as u64, place as u64])
                }
                Ask::ElementField { list, n, role } => {
                    let reply =
                        raw::sootlark_element_field(bytes, length, version, list, n, role, &mut number, &mut place);
                    reply_of(reply, [number, place as u64, 0])
                }
                Ask::ChooseVersion => reply_of(0, [raw::sootlark_choose_version(bytes, length, version), 0, 0]),
            }
        }
    }

    #[inline(always)]
    fn explain(&self, message: &[u8], version: u64, field: &mut [u8]) -> Explained {
        let mut field_size = UNSET_SIZE;
        let (mut parts, mut element, mut needed, mut had) = (UNSET, UNSET, UNSET, UNSET);
        let (mut value, mut left) = (UNSET, UNSET);
        // Safety: the pointers and the lengths are those of slices, of which one is lent exclusively, and the results
        // are variables of our own.
        let number = unsafe {
            raw::sootlark_explain(
                message.as_ptr(),
                message.len(),
                version,
                field.as_mut_ptr(),
                field.len(),
                &mut field_size,
                &mut parts,
                &mut element,
                &mut needed,
                &mut had,
                &mut value,
                &mut left,
            )
        };
        let field_size = field_size as u64;
        Explained {
            number,
            field_size,
            parts,
            element,
            needed,
            had,
            value,
            left,
        }
    }

    #[inline]
    fn choose(&self, offers: &[u64]) -> u64 {
        // Safety: the pointer and the count are those of a slice.
        unsafe { raw::sootlark_choose(offers.as_ptr(), offers.len()) }
    }

    #[inline]
    fn write(&self, out: &mut [u8], version: u64, head: Head, body: &Body) -> Reply {
        let mut used = UNSET_SIZE;
        let number = write(out, version, head, body, &mut used);
        reply_of(number, [used as u64, 0, 0])
    }

    #[inline]
    fn link(&self, call: &LinkCall, lend: Lend) -> Reply {
        let (numbers, count) = (lend.numbers.as_mut_ptr(), lend.numbers.len());
        let (store, store_length) = (lend.store.as_mut_ptr(), lend.store.len());
        let (out, out_length) = (lend.out.as_mut_ptr(), lend.out.len());
        let mut session = UNSET_SESSION;
        let (mut accepted, mut used, mut written) = (UNSET_SIZE, UNSET_SIZE, UNSET_SIZE);
        // Safety: the pointers and the lengths are those of slices that do not overlap, as they are lent exclusively,
        // and the results are variables of our own.
        unsafe {
            match *call {
                LinkCall::Make { began } => {
                    let reply = raw::sootlark_make(began, numbers, count, store, store_length);
                    reply_of(reply, [0; 3])
                }
                LinkCall::Open { id } => {
                    let reply = raw::sootlark_open(
                        numbers,
                        count,
                        store,
                        store_length,
                        id,
                        out,
                        out_length,
                        &mut session,
                        &mut written,
                    );
                    reply_of(reply, [session.into(), written as u64, 0])
                }
                LinkCall::Close { id, session } => {
                    let reply = raw::sootlark_close(
                        numbers,
                        count,
                        store,
                        store_length,
                        id,
                        session,
                        out,
                        out_length,
                        &mut written,
                    );
                    reply_of(reply, [written as u64, 0, 0])
                }
                LinkCall::Request { id, session, amount } => {
                    let reply = raw::sootlark_request(
                        numbers,
                        count,
                        store,
                        store_length,
                        id,
                        session,
                        amount,
                        out,
                        out_length,
                        &mut written,
                    );
                    reply_of(reply, [written as u64, 0, 0])
                }
                LinkCall::Transmit { id, session, data } => {
                    let reply = raw::sootlark_transmit(
                        numbers,
                        count,
                        store,
                        store_length,
                        id,
                        session,
                        data.as_ptr(),
                        data.len(),
                        out,
                        out_length,
                        &mut written,
                    );
                    reply_of(reply, [written as u64, 0, 0])
                }
                LinkCall::Read { id, session } => {
                    let reply = raw::sootlark_link_read(
                        numbers,
                        count,
                        store,
                        store_length,
                        id,
                        session,
                        out,
                        out_length,
                        &mut written,
                    );
                    reply_of(reply, [written as u64, 0, 0])
                }
                LinkCall::Receive { bytes } => {
                    let reply = raw::sootlark_receive(
                        numbers,
                        count,
                        store,
                        store_length,
                        bytes.as_ptr(),
                        bytes.len(),
                        out,
                        out_length,
                        &mut session,
                        &mut used,
                        &mut written,
                    );
                    reply_of(reply, [session.into(), used as u64, written as u64])
                }
                LinkCall::Run { n, bytes } => {
                    let reply = raw::sootlark_run(
                        numbers,
                        count,
                        store,
                        store_length,
                        n,
                        bytes.as_ptr(),
                        bytes.len(),
                        out,
                        out_length,
                        &mut accepted,
                        &mut used,
                        &mut written,
                    );
                    reply_of(reply, [accepted as u64, used as u64, written as u64])
                }
            }
        }
    }
}

#[inline]
fn reply_of(number: u64, values: [u64; 3]) -> Reply {
    Reply { number, values }
}

/// The writer of each type. Runs and lists stand in the order of the header's parameters.
#[inline]
#[rustfmt::skip]
fn write(out: &mut [u8], version: u64, head: Head, body: &Body, used: &mut usize) -> u64 {
    let (correlation, execution) = (head.correlation, head.execution);
    match *body {
        Body::DisconnectRequest => write_with!(
            sootlark_write_disconnect_request, out, version, used, [correlation, execution], [], [], []
        ),
        Body::DisconnectReply => write_with!(
            sootlark_write_disconnect_reply, out, version, used, [correlation, execution], [], [], []
        ),
        Body::ConnectRequest { domain, versions } => write_with!(
            sootlark_write_connect_request, out, version, used,
            [correlation, execution, domain.id, domain.name, versions], [], [], []
        ),
        Body::ConnectReply { domain, version: chosen } => write_with!(
            sootlark_write_connect_reply, out, version, used,
            [correlation, execution, domain.id, domain.name], [chosen], [], []
        ),
        Body::DiscoveryRequest { domain, services, queues } => write_with!(
            sootlark_write_discovery_request, out, version, used,
            [correlation, execution, domain.id, domain.name, services.lengths, services.bytes, queues.lengths,
             queues.bytes], [], [], []
        ),
        Body::TopologyUpdate { ids, names } => write_with!(
            sootlark_write_topology_update, out, version, used,
            [correlation, execution, ids, names.lengths, names.bytes], [], [], []
        ),
        Body::DiscoveryReply { domain, services, queues } => write_with!(
            sootlark_write_discovery_reply, out, version, used,
            [correlation, execution, domain.id, domain.name, services.names.lengths, services.names.bytes,
             services.categories.lengths, services.categories.bytes, services.transactions, services.timeouts,
             services.hops, queues.names.lengths, queues.names.bytes, queues.retry_counts, queues.retry_delays,
             queues.enqueues, queues.dequeues], [], [], []
        ),
        Body::ServiceReply { result, user, state, buffer_type, buffer_data } => write_with!(
            sootlark_write_service_reply, out, version, used,
            [correlation, execution], [result, user, state], [buffer_type, buffer_data], []
        ),
        Body::RollbackRequest { xid, resource, flags } => write_with!(
            sootlark_write_rollback_request, out, version, used,
            [correlation, execution], [xid.format, xid.gtrid, xid.bqual], [xid.data], [resource, flags]
        ),
        Body::RollbackReply { xid, resource, state } => write_with!(
            sootlark_write_rollback_reply, out, version, used,
            [correlation, execution], [xid.format, xid.gtrid, xid.bqual], [xid.data], [resource, state]
        ),
        Body::DequeueReply(messages) => write_with!(
            sootlark_write_dequeue_reply, out, version, used,
            [correlation, execution, messages.ids, messages.properties.lengths, messages.properties.bytes,
             messages.reply_queues.lengths, messages.reply_queues.bytes, messages.availables,
             messages.data_types.lengths, messages.data_types.bytes, messages.data.lengths, messages.data.bytes,
             messages.redelivereds, messages.timestamps], [], [], []
        ),
    }
}
