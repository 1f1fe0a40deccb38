/* Sootlark for C: casual messages and the link.
 *
 * Every function takes any numbers and any bytes and returns. The number that it returns is 0 for done, else why it was
 * refused: tables of the numbers, which are document 01's and one of ours, stand below, one for messages and one for
 * the link. (sootlark_choose and sootlark_choose_version return a version instead.) Every result is written in every
 * case. Beside a refusal each is 0, but for these: place names the fault of a message that was read and answered 44, 45
 * or 46; sootlark_explain says why a message is refused; and a run that was stopped reports what it accepted before. A
 * refusal changes nothing that was lent but where a comment says so. No function keeps a pointer, allocates, or has a state
 * of its own.
 *
 * Stack, measured on x86-64 by './sootlark footprint'. sootlark_element_part and sootlark_element_field find element n by
 * a call within a call for each element before it, 32 bytes each. A message holds at most 8,182 elements (the versions
 * of a 7200), so that they use up to 257 KiB, all in all. Every other call uses less than 8 KiB. A thread whose stack is
 * SOOTLARK_ELEMENT_STACK bytes can make every call, one of SOOTLARK_STACK every call but those two.
 *
 * What the caller owes, since C cannot check it: a pointer beside a length n points to n readable (and, where it
 * is not const, writable) elements; results point to one writable element each; and nothing that may be
 * written overlaps anything else that is lent to the same call. A pointer may be anything but null where the length is 0. */
#ifndef SOOTLARK_H
#define SOOTLARK_H

#include <stdbool.h>
#include <stddef.h>
#include <stdint.h>

#ifdef __cplusplus
extern "C" {
#endif

/* A thread's stack, in bytes, that is enough for every call but sootlark_element_part and sootlark_element_field; and one
 * that is enough for those two as well. */
enum { SOOTLARK_STACK = 16384, SOOTLARK_ELEMENT_STACK = 294912 };

/* ---- Messages ---- */

/* The roles of fields. Of a message: */
enum {
    SOOTLARK_EXECUTION = 0,         /* bytes, every type */
    SOOTLARK_DOMAIN_ID = 1,         /* bytes: 7200, 7201, 7300, 7311 */
    SOOTLARK_DOMAIN_NAME = 2,       /* bytes: 7200, 7201, 7300, 7311 */
    SOOTLARK_PROTOCOL_VERSIONS = 3, /* list: 7200 */
    SOOTLARK_PROTOCOL_VERSION = 4,  /* number: 7201 */
    SOOTLARK_SERVICES = 5,          /* list: 7300, 7311 */
    SOOTLARK_QUEUES = 6,            /* list: 7300, 7311 */
    SOOTLARK_DOMAINS = 7,           /* list: 7302 */
    SOOTLARK_CODE_RESULT = 8,       /* number: 3103 */
    SOOTLARK_CODE_USER = 9,         /* number: 3103 */
    SOOTLARK_TRANSACTION_STATE = 10, /* number: 3103 */
    SOOTLARK_BUFFER_TYPE = 11,      /* bytes: 3103 */
    SOOTLARK_BUFFER_DATA = 12,      /* bytes: 3103 */
    SOOTLARK_XID = 13,              /* bytes (the xid's data): 5205, 5206 */
    SOOTLARK_RESOURCE = 14,         /* number: 5205, 5206 */
    SOOTLARK_FLAGS = 15,            /* number: 5205 */
    SOOTLARK_STATE = 16,            /* number: 5206 */
    SOOTLARK_MESSAGES = 17,         /* list: 6201 */
    /* Of a list's elements: */
    SOOTLARK_OFFERED = 18,          /* number: versions of 7200 */
    SOOTLARK_NAME = 19,             /* bytes: services and queues of 7300 and 7311, domains of 7302 */
    SOOTLARK_CATEGORY = 20,         /* bytes: services of 7311 */
    SOOTLARK_TRANSACTION = 21,      /* number: services of 7311 */
    SOOTLARK_TIMEOUT = 22,          /* number: services of 7311 */
    SOOTLARK_HOPS = 23,             /* number: services of 7311 */
    SOOTLARK_RETRY_COUNT = 24,      /* number: queues of 7311 */
    SOOTLARK_RETRY_DELAY = 25,      /* number: queues of 7311 */
    SOOTLARK_ENQUEUE = 26,          /* number: queues of 7311 */
    SOOTLARK_DEQUEUE = 27,          /* number: queues of 7311 */
    SOOTLARK_ID = 28,               /* bytes: domains of 7302, messages of 6201 */
    SOOTLARK_PROPERTIES = 29,       /* bytes: messages of 6201 */
    SOOTLARK_REPLY_QUEUE = 30,      /* bytes: messages of 6201 */
    SOOTLARK_AVAILABLE = 31,        /* number: messages of 6201 */
    SOOTLARK_DATA_TYPE = 32,        /* bytes: messages of 6201 */
    SOOTLARK_DATA = 33,             /* bytes: messages of 6201 */
    SOOTLARK_REDELIVERED = 34,      /* number: messages of 6201 */
    SOOTLARK_TIMESTAMP = 35         /* number: messages of 6201 */
};

/* The numbers of an xid. */
enum { SOOTLARK_FORMAT_ID = 0, SOOTLARK_GTRID_LENGTH = 1, SOOTLARK_BQUAL_LENGTH = 2 };

/* The numbers of the message calls. A reading is judged by version (40), header (1), type (41, 42), size (43), payload (1),
 * then field by field (44, 45); bytes left over come last (46). After that comes what was asked for (49, 50). The order for
 * a writing is 40, 42, 48, 45, 43, 47.
 *
 *    0  done
 *    1  the bytes end before the message does: they are fewer than its header's 32, or than its header says
 *   40  the agreed version is none of 1000 to 1004
 *   41  there is no message of that type
 *   42  the agreed version does not have messages of that type
 *   43  the payload's size is above 65,504 bytes
 *   44  a field does not end within the payload
 *   45  a field has a value that it may not have
 *   46  the payload has bytes that belong to no field
 *   47  out is shorter than the message to be written
 *   48  what is lent to a writer does not agree: columns of one list with different counts, ids that are not 16 bytes
 *       each, lengths that do not sum to the bytes beside them, or lengths or data of an xid with formatID 0
 *   49  there is no such list, or no such element in it
 *   50  there is no field of that role, or it holds something else than the bytes or the number that is asked for; this
 *       number is ours, document 01 has none for it
 */

/* The message at the front of the bytes, at an agreed version: its type and its length, header included.
 * place is the payload offset that 44, 45 and 46 name: of the first byte of the field at fault, or of the first byte
 * after the last field. A string (a name, a category, properties, a reply queue, the type or data of a buffer or of a
 * dequeued message) has a size of eight bytes and then its data: if the data does not end within the payload, place is
 * that of the size, eight bytes before the data. An xid's data is no string. Beside all other numbers place is 0. */
uint64_t sootlark_read(const uint8_t *message, size_t length, uint64_t version, uint64_t *type, size_t *used,
                       size_t *place);

/* What sootlark_explain gives beside the number; parts is the sum of those that apply. */
enum {
    SOOTLARK_HAS_FIELD = 1,   /* field: 1, 41 to 45 */
    SOOTLARK_HAS_ELEMENT = 2, /* element: 44 and 45 in a list's element */
    SOOTLARK_HAS_ROOM = 4,    /* needed and had: 1 and 44 */
    SOOTLARK_HAS_VALUE = 8,   /* value: 40 to 43 and 45 */
    SOOTLARK_HAS_LEFT = 16    /* left: 46 */
};

/* Room that is enough for every field's name. */
enum { SOOTLARK_FIELD_NAME = 64 };

/* Why a message is refused. Returns the reading's number: 0 if the message is accepted, and then nothing applies. What does
 * not apply is 0; what applies is said of the first fault:
 * field    the role name in document 003 of the field at fault, such as "domain.name.data"; before the payload's fields it is
 *          "header" or "payload" (1), "header.type" (41, 42) or "header.size" (43). A size whose data runs past is not
 *          named, the data is, though the place that sootlark_read gives is the size's. The name is put into the lent
 *          bytes, as much of it as fits, without a 0 byte behind it; field_size is how many bytes were put, and no byte
 *          after them is touched
 * element  which element of its list the field belongs to, from 0
 * needed   how many bytes the field needs
 * had      how many bytes are there from the field's first byte on; fewer than needed
 * value    the value that is at fault; of 40 the agreed version
 * left     how many bytes stand behind the last field */
uint64_t sootlark_explain(const uint8_t *message, size_t length, uint64_t version, uint8_t *field, size_t field_length,
                          size_t *field_size, uint64_t *parts, uint64_t *element, uint64_t *needed, uint64_t *had,
                          uint64_t *value, uint64_t *left);

/* Each of the next seven calls reads the whole message first; one that is refused gives the reading's number and place.
 * Bytes are handed back as a part of the message: at is its offset from the message's first byte, size its length. */

/* The correlation id. */
uint64_t sootlark_correlation(const uint8_t *message, size_t length, uint64_t version, size_t *at, size_t *size,
                              size_t *place);

/* The bytes of a field. Of an xid with formatID 0, which has no data, at and size are 0. 50: the message has no
 * bytes of that role. */
uint64_t sootlark_part(const uint8_t *message, size_t length, uint64_t version, uint64_t role, size_t *at,
                       size_t *size, size_t *place);

/* The number of a field. 50: the message has no number of that role. */
uint64_t sootlark_field(const uint8_t *message, size_t length, uint64_t version, uint64_t role, uint64_t *value,
                        size_t *place);

/* A number of the message's xid; which is SOOTLARK_FORMAT_ID and so on. 50: there is no xid, or no such number. */
uint64_t sootlark_xid(const uint8_t *message, size_t length, uint64_t version, uint64_t which, uint64_t *value,
                      size_t *place);

/* How many elements a list has. 49: the message has no list of that role. */
uint64_t sootlark_count(const uint8_t *message, size_t length, uint64_t version, uint64_t list, uint64_t *value,
                        size_t *place);

/* The bytes of a field of element n. 49: no such element; 50: it has no bytes of that role. Uses up to
 * 257 KiB of stack (see above). */
uint64_t sootlark_element_part(const uint8_t *message, size_t length, uint64_t version, uint64_t list, uint64_t n,
                               uint64_t role, size_t *at, size_t *size, size_t *place);

/* The number of a field of element n. 49: no such element; 50: it has no number of that role. Uses up to
 * 257 KiB of stack (see above). */
uint64_t sootlark_element_field(const uint8_t *message, size_t length, uint64_t version, uint64_t list, uint64_t n,
                                uint64_t role, uint64_t *value, size_t *place);

/* The version to choose: the greatest of the offers among 1000 to 1004, or 0. Returns the version. */
uint64_t sootlark_choose(const uint64_t *offers, size_t count);

/* The same of a 7200's own offers; 0 for any other message, and for one that is refused. Returns the version. */
uint64_t sootlark_choose_version(const uint8_t *message, size_t length, uint64_t version);

/* Writing. Done: the message stands at the front of out, used is its length, and no byte after it is touched.
 * Refused: out is not written. The strings of a list are lent joined, with a list of how long each is, and its ids joined,
 * 16 bytes each; correlation, execution and id are 16 bytes each. */

/* 7202 and 7203. */
uint64_t sootlark_write_disconnect_request(uint8_t *out, size_t out_length, uint64_t version,
                                           const uint8_t *correlation, size_t correlation_length,
                                           const uint8_t *execution, size_t execution_length, size_t *used);
uint64_t sootlark_write_disconnect_reply(uint8_t *out, size_t out_length, uint64_t version,
                                         const uint8_t *correlation, size_t correlation_length,
                                         const uint8_t *execution, size_t execution_length, size_t *used);

/* 7200. */
uint64_t sootlark_write_connect_request(uint8_t *out, size_t out_length, uint64_t version,
                                        const uint8_t *correlation, size_t correlation_length,
                                        const uint8_t *execution, size_t execution_length, const uint8_t *id,
                                        size_t id_length, const uint8_t *name, size_t name_length,
                                        const uint64_t *versions, size_t versions_count, size_t *used);

/* 7201. */
uint64_t sootlark_write_connect_reply(uint8_t *out, size_t out_length, uint64_t version,
                                      const uint8_t *correlation, size_t correlation_length,
                                      const uint8_t *execution, size_t execution_length, const uint8_t *id,
                                      size_t id_length, const uint8_t *name, size_t name_length, uint64_t chosen,
                                      size_t *used);

/* 7300. */
uint64_t sootlark_write_discovery_request(uint8_t *out, size_t out_length, uint64_t version,
                                          const uint8_t *correlation, size_t correlation_length,
                                          const uint8_t *execution, size_t execution_length, const uint8_t *id,
                                          size_t id_length, const uint8_t *name, size_t name_length,
                                          const uint64_t *service_lengths, size_t service_lengths_count,
                                          const uint8_t *services, size_t services_length,
                                          const uint64_t *queue_lengths, size_t queue_lengths_count,
                                          const uint8_t *queues, size_t queues_length, size_t *used);

/* 7302. */
uint64_t sootlark_write_topology_update(uint8_t *out, size_t out_length, uint64_t version,
                                        const uint8_t *correlation, size_t correlation_length,
                                        const uint8_t *execution, size_t execution_length, const uint8_t *ids,
                                        size_t ids_length, const uint64_t *lengths, size_t lengths_count,
                                        const uint8_t *names, size_t names_length, size_t *used);

/* 7311. */
uint64_t sootlark_write_discovery_reply(
    uint8_t *out, size_t out_length, uint64_t version, const uint8_t *correlation, size_t correlation_length,
    const uint8_t *execution, size_t execution_length, const uint8_t *id, size_t id_length, const uint8_t *name,
    size_t name_length, const uint64_t *service_lengths, size_t service_lengths_count, const uint8_t *services,
    size_t services_length, const uint64_t *category_lengths, size_t category_lengths_count,
    const uint8_t *categories, size_t categories_length, const uint64_t *modes, size_t modes_count,
    const uint64_t *timeouts, size_t timeouts_count, const uint64_t *hops, size_t hops_count,
    const uint64_t *queue_lengths, size_t queue_lengths_count, const uint8_t *queues, size_t queues_length,
    const uint64_t *counts, size_t counts_count, const uint64_t *delays, size_t delays_count,
    const uint64_t *enqueues, size_t enqueues_count, const uint64_t *dequeues, size_t dequeues_count, size_t *used);

/* 3103. */
uint64_t sootlark_write_service_reply(uint8_t *out, size_t out_length, uint64_t version,
                                      const uint8_t *correlation, size_t correlation_length,
                                      const uint8_t *execution, size_t execution_length, uint32_t result,
                                      uint64_t user, uint64_t state, const uint8_t *type, size_t type_length,
                                      const uint8_t *data, size_t data_length, size_t *used);

/* 5205 and 5206: an xid is its formatID, gtrid_length, bqual_length and data. Each length is at most 64, else the number
 * is 45; but 48 comes first, where the two do not sum to the bytes of data. */
uint64_t sootlark_write_rollback_request(uint8_t *out, size_t out_length, uint64_t version,
                                         const uint8_t *correlation, size_t correlation_length,
                                         const uint8_t *execution, size_t execution_length, uint64_t format,
                                         uint64_t gtrid, uint64_t bqual, const uint8_t *data, size_t data_length,
                                         uint32_t resource, uint64_t flags, size_t *used);
uint64_t sootlark_write_rollback_reply(uint8_t *out, size_t out_length, uint64_t version,
                                       const uint8_t *correlation, size_t correlation_length,
                                       const uint8_t *execution, size_t execution_length, uint64_t format,
                                       uint64_t gtrid, uint64_t bqual, const uint8_t *data, size_t data_length,
                                       uint32_t resource, uint32_t state, size_t *used);

/* 6201. */
uint64_t sootlark_write_dequeue_reply(
    uint8_t *out, size_t out_length, uint64_t version, const uint8_t *correlation, size_t correlation_length,
    const uint8_t *execution, size_t execution_length, const uint8_t *ids, size_t ids_length,
    const uint64_t *property_lengths, size_t property_lengths_count, const uint8_t *properties,
    size_t properties_length, const uint64_t *reply_lengths, size_t reply_lengths_count, const uint8_t *replies,
    size_t replies_length, const uint64_t *availables, size_t availables_count, const uint64_t *type_lengths,
    size_t type_lengths_count, const uint8_t *types, size_t types_length, const uint64_t *data_lengths,
    size_t data_lengths_count, const uint8_t *data, size_t data_length, const uint64_t *redelivereds,
    size_t redelivereds_count, const uint64_t *timestamps, size_t timestamps_count, size_t *used);

/* ---- The link ---- */

/* The numbers of the link's calls. Our calls test 2 to 7, 14, then 8 to 13, as far as they apply; receiving tests 2, 3
 * and 4, then the record from the front. 1 to 14 change nothing (but see sootlark_make, and what a run accepted before).
 *
 *    0  done
 *    1  the bytes end before the record does
 *    2  the store is not 32,768 bytes long
 *    3  the endpoint's numbers are no endpoint, or break the rules of its rows
 *    4  the endpoint is down, so that its unread bytes can be read and nothing else
 *    5  the identifier is none of 0 to 15 and 0x8000 to 0x800F
 *    6  the identifier is for the other end to open
 *    7  the identifier is in use: it is open, or our close of it is not yet answered
 *    8  the session is not the identifier's latest one, or is 0
 *    9  the session is not open, so there is nothing to close, to request for or to transmit on
 *   10  nothing was requested, or nothing is to be transmitted
 *   11  the request is for more bytes than the queue has room for, beside those unread and those granted before
 *   12  the data is longer than the credit that the other end granted and that is not used yet
 *   13  out is too short for the record to be written
 *   14  all 4,294,967,295 session numbers were given
 *
 * A received record at fault takes the endpoint down: every row is closed and has no counts, unread bytes stay, nothing
 * is written, and from then on no call but sootlark_link_read and sootlark_make is answered 0.
 *
 *   20  there is no such opcode
 *   21  the record's identifier is none of 0 to 15 and 0x8000 to 0x800F
 *   22  the record's count is 0 or negative
 *   23  an OPEN for an identifier that is ours to open
 *   24  an OPEN for an identifier that is in use
 *   25  a CLOSE, REQUEST or TRANSMIT for an identifier that is closed
 *   26  a CLOSEACK where no close of ours waits for one
 *   27  a TRANSMIT of more bytes than the credit that we granted and that is not used yet
 *   28  a REQUEST that takes the credit above 2,147,483,647
 *   29  a TRANSMIT of more bytes than the queue has room for; it is never answered, since 3 and 27 are tested before
 *   30  an OPEN after all session numbers were given
 *
 * What is proved of the link over a whole history of calls, that what a session reads is what was transmitted to it and
 * never another session's bytes, assumes that each call is lent the endpoint and the store as the last call left them,
 * from sootlark_make on, and that nobody else writes either in between. An older copy of an endpoint lent beside a newer
 * store, or the other way round, is outside the guarantee. What a single call answers and changes is proved for any
 * numbers and any bytes. */

enum { SOOTLARK_CLOSED = 0, SOOTLARK_OPEN = 1, SOOTLARK_PENDING = 2 };

typedef struct {
    uint32_t status;  /* SOOTLARK_CLOSED, SOOTLARK_OPEN or SOOTLARK_PENDING */
    uint32_t session; /* the latest session number, 0 before the first */
    uint32_t input;   /* the input request count */
    uint32_t output;  /* the output request count */
    uint32_t unread;  /* unread bytes */
} sootlark_row;

/* An endpoint: 163 numbers of 32 bits. Any numbers may stand here: those that are no endpoint (began or down above
 * 1, a status above 2) are refused as those that break the row rules are, and left as they stand, by every call but
 * sootlark_make: 2 where the store's length is wrong, else 3. */
typedef struct {
    uint32_t began; /* 1: this end began the link */
    uint32_t down;  /* 1: the endpoint is down */
    uint32_t last;  /* the last session number given */
    sootlark_row rows[32];
} sootlark_endpoint;

enum { SOOTLARK_ENDPOINT_NUMBERS = 163, SOOTLARK_STORE_LENGTH = 32768 };

/* How an endpoint is lent: its numbers and how many there are. Another count than 163 is no endpoint: every call answers
 * 2 where the store's length is wrong, else 3. */
#define SOOTLARK_LEND(endpoint) ((uint32_t *)(endpoint)), ((size_t)SOOTLARK_ENDPOINT_NUMBERS)

/* A fresh endpoint, whose store is zeroed. 2 (the store is not 32,768 bytes): the store is not written, and the
 * endpoint is a fresh one that is down. With another count than 163 nothing is written: 2 where the store's length
 * is wrong, else 3. */
uint64_t sootlark_make(bool began, uint32_t *endpoint, size_t endpoint_numbers, uint8_t *store, size_t store_length);

/* Our calls. written: the bytes of the record, at the front of out. */
uint64_t sootlark_open(uint32_t *endpoint, size_t endpoint_numbers, uint8_t *store, size_t store_length, uint16_t id,
                       uint8_t *out, size_t out_length, uint32_t *session, size_t *written);
uint64_t sootlark_close(uint32_t *endpoint, size_t endpoint_numbers, uint8_t *store, size_t store_length, uint16_t id,
                        uint32_t session, uint8_t *out, size_t out_length, size_t *written);
uint64_t sootlark_request(uint32_t *endpoint, size_t endpoint_numbers, uint8_t *store, size_t store_length,
                          uint16_t id, uint32_t session, uint32_t amount, uint8_t *out, size_t out_length,
                          size_t *written);
uint64_t sootlark_transmit(uint32_t *endpoint, size_t endpoint_numbers, uint8_t *store, size_t store_length,
                           uint16_t id, uint32_t session, const uint8_t *data, size_t data_length, uint8_t *out,
                           size_t out_length, size_t *written);

/* Unread bytes of a session, to the front of out; written is how many. */
uint64_t sootlark_link_read(uint32_t *endpoint, size_t endpoint_numbers, uint8_t *store, size_t store_length,
                            uint16_t id, uint32_t session, uint8_t *out, size_t out_length, size_t *written);

/* One record from the front of the bytes. session: of an OPEN, else 0. used: the record's bytes. written: a CLOSEACK's
 * bytes. A number from 20 to 30 takes the endpoint down. */
uint64_t sootlark_receive(uint32_t *endpoint, size_t endpoint_numbers, uint8_t *store, size_t store_length,
                          const uint8_t *bytes, size_t length, uint8_t *out, size_t out_length, uint32_t *session,
                          size_t *used, size_t *written);

/* At most n records from the front of the bytes, as sootlark_receive takes them. Returns the number that stopped it, else
 * 0; what was accepted before stands and is reported: how many records, their bytes, and the bytes of their CLOSEACKs.
 * A record that stops it with a number from 20 to 30 takes the endpoint down; one with another number changes nothing. */
uint64_t sootlark_run(uint32_t *endpoint, size_t endpoint_numbers, uint8_t *store, size_t store_length, size_t n,
                      const uint8_t *bytes, size_t length, uint8_t *out, size_t out_length, size_t *accepted,
                      size_t *used, size_t *written);

#ifdef __cplusplus
}
#endif

#endif
