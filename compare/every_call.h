/* Every function of include/sootlark.h, called with what takes it deepest: every type of message, written and read, the last element of
 * every list that fills a message, and the link's calls on one session. compare/footprint.c measures the stack of each call, and
 * compare/threads.c makes each on a thread that has no more stack than the header says. */
#ifndef EVERY_CALL_H
#define EVERY_CALL_H

#include <sootlark.h>
#include <stdbool.h>
#include <stdio.h>
#include <string.h>

/* What the calls work on. */
static sootlark_endpoint endpoint;
static uint8_t store[SOOTLARK_STORE_LENGTH], message[65536], out[65536], bytes[65536], id[16];
static size_t length, count, a, b, c;
static uint64_t answer, value, version = 1004, role, list, element;
static uint8_t name[SOOTLARK_FIELD_NAME];
static uint64_t parts, faulty, needed, had, left;
static uint32_t session, opened;

#define LEND SOOTLARK_LEND(&endpoint), store, sizeof store

static void number(uint8_t *at, uint64_t n, int width) {
    for (int i = 0; i < width; i++)
        at[i] = (uint8_t)(n >> (8 * (width - 1 - i)));
}

/* ---- reading ---- */

static void read_message(void) { answer = sootlark_read(message, length, version, &value, &a, &b); }
static void explain(void) {
    answer = sootlark_explain(message, length, version, name, sizeof name, &a, &parts, &faulty, &needed, &had, &value, &left);
}
static void correlation(void) { answer = sootlark_correlation(message, length, version, &a, &b, &c); }
static void part(void) { answer = sootlark_part(message, length, version, role, &a, &b, &c); }
static void field(void) { answer = sootlark_field(message, length, version, role, &value, &a); }
static void xid(void) { answer = sootlark_xid(message, length, version, SOOTLARK_BQUAL_LENGTH, &value, &a); }
static void elements(void) { answer = sootlark_count(message, length, version, list, &value, &a); }
static void element_part(void) { answer = sootlark_element_part(message, length, version, list, element, role, &a, &b, &c); }
static void element_field(void) { answer = sootlark_element_field(message, length, version, list, element, role, &value, &a); }
static void choose_version(void) { answer = sootlark_choose_version(message, length, version); }

/* ---- writing: strings of four bytes, lists of one element ---- */

static const uint64_t four[1] = {4}, one[1] = {1};
static const uint64_t offers[3] = {1002, 1004, 7};

#define HEAD out, sizeof out, version, id, 16, id, 16
#define STRING bytes, 4
#define STRINGS four, 1, bytes, 4
#define NUMBERS one, 1
#define XID 42, 2, 2, bytes, 4

static void choose(void) { answer = sootlark_choose(offers, 3); }
static void write_7202(void) { answer = sootlark_write_disconnect_request(HEAD, &length); }
static void write_7203(void) { answer = sootlark_write_disconnect_reply(HEAD, &length); }
static void write_7200(void) { answer = sootlark_write_connect_request(HEAD, id, 16, STRING, offers, 3, &length); }
static void write_7201(void) { answer = sootlark_write_connect_reply(HEAD, id, 16, STRING, 1003, &length); }
static void write_7300(void) { answer = sootlark_write_discovery_request(HEAD, id, 16, STRING, STRINGS, STRINGS, &length); }
static void write_7302(void) { answer = sootlark_write_topology_update(HEAD, id, 16, STRINGS, &length); }
static void write_7311(void) {
    answer = sootlark_write_discovery_reply(HEAD, id, 16, STRING, STRINGS, STRINGS, NUMBERS, NUMBERS, NUMBERS, STRINGS, NUMBERS, NUMBERS,
                                            NUMBERS, NUMBERS, &length);
}
static void write_3103(void) { answer = sootlark_write_service_reply(HEAD, 1, 2, 3, STRING, bytes, 60000, &length); }
static void write_5205(void) { answer = sootlark_write_rollback_request(HEAD, XID, 1, 2, &length); }
static void write_5206(void) { answer = sootlark_write_rollback_reply(HEAD, XID, 1, 2, &length); }
static void write_6201(void) {
    answer = sootlark_write_dequeue_reply(HEAD, id, 16, STRINGS, STRINGS, NUMBERS, STRINGS, STRINGS, NUMBERS, NUMBERS, &length);
}

/* ---- the link ---- */

static void make(void) { answer = sootlark_make(false, LEND); }
static void open_row(void) { answer = sootlark_open(LEND, 0, out, sizeof out, &session, &a); }
static void request(void) { answer = sootlark_request(LEND, 0, opened, 1024, out, sizeof out, &a); }
static void transmit(void) { answer = sootlark_transmit(LEND, 0, opened, bytes, 1000, out, sizeof out, &a); }
static void read_queue(void) { answer = sootlark_link_read(LEND, 0, opened, out, sizeof out, &a); }
static void close_row(void) { answer = sootlark_close(LEND, 0, opened, out, sizeof out, &a); }
static void receive(void) { answer = sootlark_receive(LEND, bytes, length, out, sizeof out, &session, &a, &b); }
static void run(void) { answer = sootlark_run(LEND, 65536, bytes, length, out, sizeof out, &a, &b, &c); }

/* ---- all of them ---- */

/* What is done with each call: its name, the number that it must be answered with, and whether it steps past elements. */
typedef void visit(const char *name, void (*call)(void), uint64_t expected, bool steps);

/* The types, each with the writer that writes one, a field that holds bytes and one that holds a number (0, which holds bytes, for none), and a
 * list with a field of its elements. */
static const struct {
    const char *writer;
    void (*write)(void);
    uint64_t version, bytes, number, list, element;
} TYPES[] = {
    {"sootlark_write_disconnect_request", write_7202, 1004, SOOTLARK_EXECUTION, 0, 0, 0},
    {"sootlark_write_disconnect_reply", write_7203, 1004, SOOTLARK_EXECUTION, 0, 0, 0},
    {"sootlark_write_connect_request", write_7200, 1004, SOOTLARK_DOMAIN_NAME, 0, SOOTLARK_PROTOCOL_VERSIONS, SOOTLARK_OFFERED},
    {"sootlark_write_connect_reply", write_7201, 1004, SOOTLARK_DOMAIN_NAME, SOOTLARK_PROTOCOL_VERSION, 0, 0},
    {"sootlark_write_discovery_request", write_7300, 1004, SOOTLARK_DOMAIN_NAME, 0, SOOTLARK_QUEUES, SOOTLARK_NAME},
    {"sootlark_write_topology_update", write_7302, 1004, SOOTLARK_EXECUTION, 0, SOOTLARK_DOMAINS, SOOTLARK_NAME},
    {"sootlark_write_discovery_reply", write_7311, 1004, SOOTLARK_DOMAIN_NAME, 0, SOOTLARK_QUEUES, SOOTLARK_DEQUEUE},
    {"sootlark_write_service_reply", write_3103, 1004, SOOTLARK_BUFFER_DATA, SOOTLARK_TRANSACTION_STATE, 0, 0},
    {"sootlark_write_rollback_request", write_5205, 1004, SOOTLARK_XID, SOOTLARK_FLAGS, 0, 0},
    {"sootlark_write_rollback_reply", write_5206, 1004, SOOTLARK_XID, SOOTLARK_STATE, 0, 0},
    {"sootlark_write_dequeue_reply", write_6201, 1002, SOOTLARK_EXECUTION, 0, SOOTLARK_MESSAGES, SOOTLARK_TIMESTAMP},
};

/* Why the message at hand is refused: it is not; it is cut short; its last field runs past; a byte is left over; its version is none. */
static void every_reason(visit *visit) {
    size_t whole = length;
    visit("sootlark_explain", explain, 0, false);
    length = whole - 1;
    visit("sootlark_explain", explain, 1, false);
    number(message + 24, whole - 33, 8);
    visit("sootlark_explain", explain, 44, false);
    message[whole] = 0, length = whole + 1;
    number(message + 24, whole - 31, 8);
    visit("sootlark_explain", explain, 46, false);
    version += 1000;
    visit("sootlark_explain", explain, 40, false);
    version -= 1000, length = whole;
    number(message + 24, whole - 32, 8);
}

/* A message of each type is written and read. */
static void every_type(visit *visit) {
    for (size_t i = 0; i < sizeof TYPES / sizeof *TYPES; i++) {
        version = TYPES[i].version;
        visit(TYPES[i].writer, TYPES[i].write, 0, false);
        memcpy(message, out, length);
        visit("sootlark_read", read_message, 0, false);
        visit("sootlark_correlation", correlation, 0, false);
        visit("sootlark_choose_version", choose_version, TYPES[i].list == SOOTLARK_PROTOCOL_VERSIONS ? 1004 : 0, false);
        role = TYPES[i].bytes;
        visit("sootlark_part", part, 0, false);
        visit("sootlark_xid", xid, role == SOOTLARK_XID ? 0 : 50, false);
        role = TYPES[i].number;
        visit("sootlark_field", field, role == 0 ? 50 : 0, false);
        list = TYPES[i].list, element = 0, role = TYPES[i].element;
        bool is_bytes = role == SOOTLARK_NAME;
        visit("sootlark_count", elements, list == 0 ? 49 : 0, false);
        visit("sootlark_element_part, the first", element_part, list == 0 ? 49 : is_bytes ? 0 : 50, true);
        visit("sootlark_element_field, the first", element_field, list == 0 ? 49 : is_bytes ? 50 : 0, true);
        every_reason(visit);
    }
    visit("sootlark_choose", choose, 1004, false);
}

/* The lists: where the count stands in the payload, the payload's bytes without elements, those of an element whose bytes are all 0, and
 * a field that holds bytes or a number. */
static const struct {
    const char *name;
    uint64_t type, version, list;
    size_t at, empty, size;
    uint64_t role;
    bool is_bytes;
} LISTS[] = {
    {"versions of a 7200", 7200, 1004, SOOTLARK_PROTOCOL_VERSIONS, 40, 48, 8, SOOTLARK_OFFERED, false},
    {"services of a 7300", 7300, 1004, SOOTLARK_SERVICES, 40, 56, 8, SOOTLARK_NAME, true},
    {"queues of a 7300", 7300, 1004, SOOTLARK_QUEUES, 48, 56, 8, SOOTLARK_NAME, true},
    {"domains of a 7302", 7302, 1004, SOOTLARK_DOMAINS, 16, 24, 24, SOOTLARK_NAME, true},
    {"services of a 7311", 7311, 1004, SOOTLARK_SERVICES, 40, 56, 34, SOOTLARK_HOPS, false},
    {"queues of a 7311", 7311, 1004, SOOTLARK_QUEUES, 48, 56, 26, SOOTLARK_DEQUEUE, false},
    {"messages of a 6201", 6201, 1002, SOOTLARK_MESSAGES, 16, 24, 72, SOOTLARK_TIMESTAMP, false},
};

/* Each list with as many elements as a message holds, asked for the last one, and refused for a count that is one too large. */
static void every_list(visit *visit) {
    for (size_t i = 0; i < sizeof LISTS / sizeof *LISTS; i++) {
        static char names[2][96];
        count = (sizeof message - 32 - LISTS[i].empty) / LISTS[i].size;
        length = 32 + LISTS[i].empty + count * LISTS[i].size;
        memset(message, 0, sizeof message);
        number(message, LISTS[i].type, 8);
        number(message + 24, length - 32, 8);
        number(message + 32 + LISTS[i].at, count, 8);
        version = LISTS[i].version, list = LISTS[i].list, role = LISTS[i].role, element = count - 1;
        visit("sootlark_read", read_message, 0, false);
        visit("sootlark_count", elements, 0, false);
        visit("sootlark_choose_version", choose_version, 0, false);
        snprintf(names[0], sizeof names[0], "sootlark_element_part, the last of %zu %s", count, LISTS[i].name);
        visit(names[0], element_part, LISTS[i].is_bytes ? 0 : 50, true);
        snprintf(names[1], sizeof names[1], "sootlark_element_field, the last of %zu %s", count, LISTS[i].name);
        visit(names[1], element_field, LISTS[i].is_bytes ? 50 : 0, true);
        visit("sootlark_explain", explain, 0, false);
        number(message + 32 + LISTS[i].at, count + 1, 8);
        visit("sootlark_explain", explain, 44, false);
    }
}

/* A record of an opcode and a count for identifier 0; returns the bytes after it. */
static uint8_t *record(uint8_t *at, uint8_t opcode, uint32_t n) {
    number(at, opcode, 1), number(at + 1, 0, 2), number(at + 3, n, 4);
    return at + 7;
}

/* A session that is opened, filled, read and closed. */
static void every_link_call(visit *visit) {
    visit("sootlark_make", make, 0, false);
    visit("sootlark_open", open_row, 0, false);
    opened = session;
    visit("sootlark_request", request, 0, false);
    memset(bytes, 0, sizeof bytes);
    record(bytes, 0xE5, 1024), length = 7 + 1024;
    visit("sootlark_receive", receive, 0, false);
    visit("sootlark_link_read", read_queue, 0, false);
    length = 0;
    for (size_t i = 0; i < 1000; i++)
        length = (size_t)(record(bytes + length, 0xE4, 1) - bytes);
    visit("sootlark_run", run, 0, false);
    visit("sootlark_transmit", transmit, 0, false);
    number(bytes, 0xE2, 1), number(bytes + 1, 0, 2), length = 3;
    visit("sootlark_receive", receive, 0, false);
    visit("sootlark_open", open_row, 0, false);
    opened = session;
    visit("sootlark_close", close_row, 0, false);
    visit("sootlark_run", run, 0, false);
    number(bytes, 0, 1), length = 1;
    visit("sootlark_run", run, 20, false);
    visit("sootlark_make", make, 0, false);
    visit("sootlark_receive", receive, 20, false);
}

static void every_call(visit *visit) {
    memset(id, 0x11, sizeof id);
    every_type(visit);
    every_list(visit);
    every_link_call(visit);
}

#endif
