/* The main story in C. Its output is kept in clinic.expected; bindings/rust/examples/clinic.rs has the same steps.
 *
 * A fitting program and a record server are joined by a link, here in memory. The first patient's audiogram is
 * fetched; a second copy of it is left unread; then the same identifier is opened for the next patient, who must see
 * none of it.
 *
 *     cc clinic.c $(pkg-config --cflags --libs sootlark)      after ./sootlark install PREFIX
 *
 * Unless pkg-config looks into PREFIX by itself, PKG_CONFIG_PATH=PREFIX/lib/pkgconfig must be set for it. */
#include <inttypes.h>
#include <sootlark.h>
#include <stdio.h>
#include <stdlib.h>
#include <string.h>

/* The identifier that serves the file of whoever is in the room. It has the high bit, since the fitting program began
 * the link. */
#define FILE_ID 0x8000

/* The version that both ends agreed on. */
#define VERSION 1004

/* One end of the link: the endpoint's numbers, and the store that is lent beside them. */
struct end {
    sootlark_endpoint endpoint;
    uint8_t store[SOOTLARK_STORE_LENGTH];
};

/* The first arguments of every call of the link. */
#define LEND(end) SOOTLARK_LEND(&(end)->endpoint), (end)->store, sizeof (end)->store

/* The row of FILE_ID: the rows are identifiers 0 to 15, then 0x8000 to 0x800F. */
static const sootlark_row *file_row(const struct end *end) {
    return &end->endpoint.rows[16 + (FILE_ID & 0x000F)];
}

/* Ends the program unless the answer is 0. */
static void must(uint64_t answer, const char *what) {
    if (answer != 0) {
        fprintf(stderr, "clinic: %s is refused, number %" PRIu64 "\n", what, answer);
        exit(1);
    }
}

/* What came over the wire is given to an endpoint. Returns how many bytes it has to say to it, at the front of out. */
static size_t deliver(const uint8_t *bytes, size_t length, struct end *to, uint8_t *out, size_t out_length) {
    size_t accepted, used, written;
    must(sootlark_run(LEND(to), SIZE_MAX, bytes, length, out, out_length, &accepted, &used, &written), "what came");
    return written;
}

int main(void) {
    static struct end fitting, server;
    uint8_t wire[512], answer[16];
    size_t written;

    /* The fitting program began the link. */
    must(sootlark_make(true, LEND(&fitting)), "the fitting program's endpoint");
    must(sootlark_make(false, LEND(&server)), "the server's endpoint");

    /* The fitting program opens the first patient's file. The server learns its own session from its row. */
    uint32_t first;
    must(sootlark_open(LEND(&fitting), FILE_ID, wire, sizeof wire, &first, &written), "opening");
    deliver(wire, written, &server, answer, sizeof answer);
    uint32_t serving = file_row(&server)->session;
    printf("first patient: session %" PRIu32 "\n", first);

    /* It grants the server credit. Without that the server may send nothing. */
    must(sootlark_request(LEND(&fitting), FILE_ID, first, 256, wire, sizeof wire, &written), "the request");
    deliver(wire, written, &server, answer, sizeof answer);
    printf("first patient: granted %" PRIu32 " bytes\n", file_row(&server)->output);

    /* The server answers with a casual message, type 3103, and sends it twice. */
    static const char type[] = ".binary/", data[] = "audiogram of the first patient";
    uint8_t correlation[16], execution[16], message[256];
    size_t length;
    memset(correlation, 0x11, sizeof correlation);
    memset(execution, 0x22, sizeof execution);
    must(sootlark_write_service_reply(message, sizeof message, VERSION, correlation, sizeof correlation, execution,
                                      sizeof execution, 0, 0, 0, (const uint8_t *)type, strlen(type),
                                      (const uint8_t *)data, strlen(data), &length),
         "writing");
    for (int n = 0; n < 2; n++) {
        must(sootlark_transmit(LEND(&server), FILE_ID, serving, message, length, wire, sizeof wire, &written),
             "the transmit");
        deliver(wire, written, &fitting, answer, sizeof answer);
        printf("first patient: sent %zu bytes\n", length);
    }

    /* The fitting program reads one message and decodes it. The data is a part of the bytes that it read. */
    uint8_t bytes[256];
    size_t got, used, place, at, size;
    uint64_t kind;
    must(sootlark_link_read(LEND(&fitting), FILE_ID, first, bytes, length, &got), "reading");
    must(sootlark_read(bytes, got, VERSION, &kind, &used, &place), "the message");
    must(sootlark_part(bytes, got, VERSION, SOOTLARK_BUFFER_DATA, &at, &size, &place), "its data");
    printf("first patient: read %zu bytes, type %" PRIu64 ": %.*s\n", used, kind, (int)size, (const char *)bytes + at);
    printf("first patient: %" PRIu32 " bytes are unread\n", file_row(&fitting)->unread);

    /* The server closes the file. The fitting program acknowledges it, and the identifier is free again at both ends. */
    must(sootlark_close(LEND(&server), FILE_ID, serving, wire, sizeof wire, &written), "closing");
    written = deliver(wire, written, &fitting, answer, sizeof answer);
    deliver(answer, written, &server, wire, sizeof wire);
    printf("first patient: closed\n");

    /* The next patient's file is opened on the same identifier. */
    uint32_t next;
    must(sootlark_open(LEND(&fitting), FILE_ID, wire, sizeof wire, &next, &written), "opening again");
    deliver(wire, written, &server, answer, sizeof answer);
    printf("next patient: session %" PRIu32 "\n", next);

    /* The old session is refused from now on, and the new one has nothing of what was left unread. */
    uint64_t refusal = sootlark_link_read(LEND(&fitting), FILE_ID, first, bytes, sizeof bytes, &got);
    if (refusal == 0) {
        fprintf(stderr, "clinic: the old session read %zu bytes\n", got);
        return 1;
    }
    printf("first patient: refused, number %" PRIu64 "\n", refusal);
    must(sootlark_link_read(LEND(&fitting), FILE_ID, next, bytes, sizeof bytes, &got), "reading again");
    printf("next patient: read %zu bytes\n", got);
    return 0;
}
