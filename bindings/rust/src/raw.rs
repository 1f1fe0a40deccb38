//! The C boundary as it is: one declaration for each of include/sootlark.h, in its order. What each function does
//! and what its caller owes is said there; the safe calls of this crate are made of these.

/// One row of an endpoint: an identifier's connection.
#[repr(C)]
#[derive(Clone, Copy, Debug, Default, PartialEq, Eq)]
pub struct Row {
    /// 0 closed, 1 open, 2 pending close.
    pub status: u32,
    /// The latest session number, 0 before the first.
    pub session: u32,
    /// The input request count: granted to the other end and not yet used.
    pub input: u32,
    /// The output request count: granted by the other end and not yet used.
    pub output: u32,
    /// Unread bytes.
    pub unread: u32,
}

/// An endpoint: 163 numbers.
#[repr(C)]
#[derive(Clone, Copy, Debug, Default, PartialEq, Eq)]
pub struct Endpoint {
    /// 1: this end began the link.
    pub began: u32,
    /// 1: the endpoint is down.
    pub down: u32,
    /// The last session number given.
    pub last: u32,
    /// The rows: identifiers 0 to 15, then 0x8000 to 0x800F.
    pub rows: [Row; 32],
}

/// The field of a reason applies: [`sootlark_explain`].
pub const HAS_FIELD: u64 = 1;
/// Its element applies.
pub const HAS_ELEMENT: u64 = 2;
/// What it needed and had applies.
pub const HAS_ROOM: u64 = 4;
/// Its value applies.
pub const HAS_VALUE: u64 = 8;
/// What is left over applies.
pub const HAS_LEFT: u64 = 16;
/// Room that is enough for every field's name.
pub const FIELD_NAME: usize = 64;

extern "C" {
    /// The message at the front of the bytes: its type and length, or the place of the fault.
    pub fn sootlark_read(
        message: *const u8,
        length: usize,
        version: u64,
        type_: *mut u64,
        used: *mut usize,
        place: *mut usize,
    ) -> u64;
    /// Why the message is refused: the field at fault, and what is wrong with it.
    pub fn sootlark_explain(
        message: *const u8,
        length: usize,
        version: u64,
        field: *mut u8,
        field_length: usize,
        field_size: *mut usize,
        parts: *mut u64,
        element: *mut u64,
        needed: *mut u64,
        had: *mut u64,
        value: *mut u64,
        left: *mut u64,
    ) -> u64;
    /// The correlation id, as a part of the message.
    pub fn sootlark_correlation(
        message: *const u8,
        length: usize,
        version: u64,
        at: *mut usize,
        size: *mut usize,
        place: *mut usize,
    ) -> u64;
    /// The bytes of a field, as a part of the message.
    pub fn sootlark_part(
        message: *const u8,
        length: usize,
        version: u64,
        role: u64,
        at: *mut usize,
        size: *mut usize,
        place: *mut usize,
    ) -> u64;
    /// The number of a field.
    pub fn sootlark_field(
        message: *const u8,
        length: usize,
        version: u64,
        role: u64,
        value: *mut u64,
        place: *mut usize,
    ) -> u64;
    /// A number of the message's xid: 0 formatID, 1 gtrid_length, 2 bqual_length.
    pub fn sootlark_xid(
        message: *const u8,
        length: usize,
        version: u64,
        which: u64,
        value: *mut u64,
        place: *mut usize,
    ) -> u64;
    /// How many elements a list has.
    pub fn sootlark_count(
        message: *const u8,
        length: usize,
        version: u64,
        list: u64,
        value: *mut u64,
        place: *mut usize,
    ) -> u64;
    /// The bytes of a field of element n, as a part of the message.
    pub fn sootlark_element_part(
        message: *const u8,
        length: usize,
        version: u64,
        list: u64,
        n: u64,
        role: u64,
        at: *mut usize,
        size: *mut usize,
        place: *mut usize,
    ) -> u64;
    /// The number of a field of element n.
    pub fn sootlark_element_field(
        message: *const u8,
        length: usize,
        version: u64,
        list: u64,
        n: u64,
        role: u64,
        value: *mut u64,
        place: *mut usize,
    ) -> u64;
    /// The version to choose of the offers, or 0.
    pub fn sootlark_choose(offers: *const u64, count: usize) -> u64;
    /// The version to choose of a 7200's own offers, or 0.
    pub fn sootlark_choose_version(message: *const u8, length: usize, version: u64) -> u64;
    /// Writes a 7202.
    pub fn sootlark_write_disconnect_request(
        out: *mut u8,
        out_length: usize,
        version: u64,
        correlation: *const u8,
        correlation_length: usize,
        execution: *const u8,
        execution_length: usize,
        used: *mut usize,
    ) -> u64;
    /// Writes a 7203.
    pub fn sootlark_write_disconnect_reply(
        out: *mut u8,
        out_length: usize,
        version: u64,
        correlation: *const u8,
        correlation_length: usize,
        execution: *const u8,
        execution_length: usize,
        used: *mut usize,
    ) -> u64;
    /// Writes a 7200.
    pub fn sootlark_write_connect_request(
        out: *mut u8,
        out_length: usize,
        version: u64,
        correlation: *const u8,
        correlation_length: usize,
        execution: *const u8,
        execution_length: usize,
        id: *const u8,
        id_length: usize,
        name: *const u8,
        name_length: usize,
        versions: *const u64,
        versions_count: usize,
        used: *mut usize,
    ) -> u64;
    /// Writes a 7201.
    pub fn sootlark_write_connect_reply(
        out: *mut u8,
        out_length: usize,
        version: u64,
        correlation: *const u8,
        correlation_length: usize,
        execution: *const u8,
        execution_length: usize,
        id: *const u8,
        id_length: usize,
        name: *const u8,
        name_length: usize,
        chosen: u64,
        used: *mut usize,
    ) -> u64;
    /// Writes a 7300.
    pub fn sootlark_write_discovery_request(
        out: *mut u8,
        out_length: usize,
        version: u64,
        correlation: *const u8,
        correlation_length: usize,
        execution: *const u8,
        execution_length: usize,
        id: *const u8,
        id_length: usize,
        name: *const u8,
        name_length: usize,
        service_lengths: *const u64,
        service_lengths_count: usize,
        services: *const u8,
        services_length: usize,
        queue_lengths: *const u64,
        queue_lengths_count: usize,
        queues: *const u8,
        queues_length: usize,
        used: *mut usize,
    ) -> u64;
    /// Writes a 7302.
    pub fn sootlark_write_topology_update(
        out: *mut u8,
        out_length: usize,
        version: u64,
        correlation: *const u8,
        correlation_length: usize,
        execution: *const u8,
        execution_length: usize,
        ids: *const u8,
        ids_length: usize,
        lengths: *const u64,
        lengths_count: usize,
        names: *const u8,
        names_length: usize,
        used: *mut usize,
    ) -> u64;
    /// Writes a 7311.
    pub fn sootlark_write_discovery_reply(
        out: *mut u8,
        out_length: usize,
        version: u64,
        correlation: *const u8,
        correlation_length: usize,
        execution: *const u8,
        execution_length: usize,
        id: *const u8,
        id_length: usize,
        name: *const u8,
        name_length: usize,
        service_lengths: *const u64,
        service_lengths_count: usize,
        services: *const u8,
        services_length: usize,
        category_lengths: *const u64,
        category_lengths_count: usize,
        categories: *const u8,
        categories_length: usize,
        modes: *const u64,
        modes_count: usize,
        timeouts: *const u64,
        timeouts_count: usize,
        hops: *const u64,
        hops_count: usize,
        queue_lengths: *const u64,
        queue_lengths_count: usize,
        queues: *const u8,
        queues_length: usize,
        counts: *const u64,
        counts_count: usize,
        delays: *const u64,
        delays_count: usize,
        enqueues: *const u64,
        enqueues_count: usize,
        dequeues: *const u64,
        dequeues_count: usize,
        used: *mut usize,
    ) -> u64;
    /// Writes a 3103.
    pub fn sootlark_write_service_reply(
        out: *mut u8,
        out_length: usize,
        version: u64,
        correlation: *const u8,
        correlation_length: usize,
        execution: *const u8,
        execution_length: usize,
        result: u32,
        user: u64,
        state: u64,
        type_: *const u8,
        type_length: usize,
        data: *const u8,
        data_length: usize,
        used: *mut usize,
    ) -> u64;
    /// Writes a 5205.
    pub fn sootlark_write_rollback_request(
        out: *mut u8,
        out_length: usize,
        version: u64,
        correlation: *const u8,
        correlation_length: usize,
        execution: *const u8,
        execution_length: usize,
        format: u64,
        gtrid: u64,
        bqual: u64,
        data: *const u8,
        data_length: usize,
        resource: u32,
        flags: u64,
        used: *mut usize,
    ) -> u64;
    /// Writes a 5206.
    pub fn sootlark_write_rollback_reply(
        out: *mut u8,
        out_length: usize,
        version: u64,
        correlation: *const u8,
        correlation_length: usize,
        execution: *const u8,
        execution_length: usize,
        format: u64,
        gtrid: u64,
        bqual: u64,
        data: *const u8,
        data_length: usize,
        resource: u32,
        state: u32,
        used: *mut usize,
    ) -> u64;
    /// Writes a 6201.
    pub fn sootlark_write_dequeue_reply(
        out: *mut u8,
        out_length: usize,
        version: u64,
        correlation: *const u8,
        correlation_length: usize,
        execution: *const u8,
        execution_length: usize,
        ids: *const u8,
        ids_length: usize,
        property_lengths: *const u64,
        property_lengths_count: usize,
        properties: *const u8,
        properties_length: usize,
        reply_lengths: *const u64,
        reply_lengths_count: usize,
        replies: *const u8,
        replies_length: usize,
        availables: *const u64,
        availables_count: usize,
        type_lengths: *const u64,
        type_lengths_count: usize,
        types: *const u8,
        types_length: usize,
        data_lengths: *const u64,
        data_lengths_count: usize,
        data: *const u8,
        data_length: usize,
        redelivereds: *const u64,
        redelivereds_count: usize,
        timestamps: *const u64,
        timestamps_count: usize,
        used: *mut usize,
    ) -> u64;
    /// A fresh endpoint, whose store is zeroed.
    pub fn sootlark_make(
        began: bool,
        endpoint: *mut u32,
        endpoint_numbers: usize,
        store: *mut u8,
        store_length: usize,
    ) -> u64;
    /// Opens an identifier, and writes its OPEN.
    pub fn sootlark_open(
        endpoint: *mut u32,
        endpoint_numbers: usize,
        store: *mut u8,
        store_length: usize,
        id: u16,
        out: *mut u8,
        out_length: usize,
        session: *mut u32,
        written: *mut usize,
    ) -> u64;
    /// Closes a session, and writes its CLOSE.
    pub fn sootlark_close(
        endpoint: *mut u32,
        endpoint_numbers: usize,
        store: *mut u8,
        store_length: usize,
        id: u16,
        session: u32,
        out: *mut u8,
        out_length: usize,
        written: *mut usize,
    ) -> u64;
    /// Grants credit to the other end, and writes the REQUEST.
    pub fn sootlark_request(
        endpoint: *mut u32,
        endpoint_numbers: usize,
        store: *mut u8,
        store_length: usize,
        id: u16,
        session: u32,
        amount: u32,
        out: *mut u8,
        out_length: usize,
        written: *mut usize,
    ) -> u64;
    /// Sends data, and writes the TRANSMIT.
    pub fn sootlark_transmit(
        endpoint: *mut u32,
        endpoint_numbers: usize,
        store: *mut u8,
        store_length: usize,
        id: u16,
        session: u32,
        data: *const u8,
        data_length: usize,
        out: *mut u8,
        out_length: usize,
        written: *mut usize,
    ) -> u64;
    /// Takes unread bytes of a session.
    pub fn sootlark_link_read(
        endpoint: *mut u32,
        endpoint_numbers: usize,
        store: *mut u8,
        store_length: usize,
        id: u16,
        session: u32,
        out: *mut u8,
        out_length: usize,
        written: *mut usize,
    ) -> u64;
    /// Receives one record.
    pub fn sootlark_receive(
        endpoint: *mut u32,
        endpoint_numbers: usize,
        store: *mut u8,
        store_length: usize,
        bytes: *const u8,
        length: usize,
        out: *mut u8,
        out_length: usize,
        session: *mut u32,
        used: *mut usize,
        written: *mut usize,
    ) -> u64;
    /// Receives at most n records.
    pub fn sootlark_run(
        endpoint: *mut u32,
        endpoint_numbers: usize,
        store: *mut u8,
        store_length: usize,
        n: usize,
        bytes: *const u8,
        length: usize,
        out: *mut u8,
        out_length: usize,
        accepted: *mut usize,
        used: *mut usize,
        written: *mut usize,
    ) -> u64;
}
