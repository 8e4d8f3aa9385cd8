// Qpid Proton's own sender without Python: proton_speed SIZE COUNT BATCH, with what the peer writes to open on standard input.
// Prints the processor's seconds of sending, those of sending and taking the answers, and the bytes on the wire.
#include <proton/connection.h>
#include <proton/delivery.h>
#include <proton/link.h>
#include <proton/session.h>
#include <proton/transport.h>
#include <stdint.h>
#include <stdio.h>
#include <stdlib.h>
#include <string.h>
#include <time.h>

static void must(int holds, const char *what) {
    if (!holds) {
        fprintf(stderr, "proton_speed: %s\n", what);
        exit(1);
    }
}

static double seconds(void) {
    struct timespec now;
    clock_gettime(CLOCK_PROCESS_CPUTIME_ID, &now);
    return now.tv_sec + now.tv_nsec / 1e9;
}

static void put_u32(unsigned char *at, uint32_t n) {
    for (int i = 0; i < 4; i++) at[i] = n >> (24 - 8 * i);
}

// Takes what the transport has to say, and answers how many bytes that was.
static size_t drained(pn_transport_t *transport) {
    size_t taken = 0;
    for (ssize_t size; (size = pn_transport_pending(transport)) > 0; taken += size) pn_transport_pop(transport, size);
    return taken;
}

static void push(pn_transport_t *transport, const unsigned char *raw, size_t size) {
    must(pn_transport_push(transport, (const char *)raw, size) == (ssize_t)size, "the peer's bytes are not taken");
}

static pn_link_t *opened(pn_connection_t *connection, pn_transport_t *transport) {
    static unsigned char opening[4096];
    pn_connection_set_container(connection, "dabberblue");
    pn_transport_bind(transport, connection);
    pn_connection_open(connection);
    pn_session_t *session = pn_session(connection);
    pn_session_open(session);
    pn_link_t *link = pn_sender(session, "shelf");
    pn_link_open(link);
    drained(transport);
    push(transport, opening, fread(opening, 1, sizeof opening, stdin));
    must(pn_link_credit(link) > 0, "the peer grants no credit");
    return link;
}

static pn_delivery_t *send(pn_link_t *link, uint32_t n, const char *message, size_t size) {
    unsigned char tag[4];
    put_u32(tag, n);
    pn_delivery_t *delivery = pn_delivery(link, pn_dtag((const char *)tag, sizeof tag));
    must(pn_link_send(link, message, size) == (ssize_t)size, "the message is not taken whole");
    pn_link_advance(link);
    return delivery;
}

// One disposition of the receiver accepts and settles a batch (Part 2, 2.7.6), and then each is settled here.
static void answer(pn_transport_t *transport, uint32_t first, pn_delivery_t **batch, uint32_t count) {
    unsigned char frame[] = {0, 0, 0, 30, 2, 0, 0, 0, 0, 0x53, 0x15, 0xc0, 17, 5, 0x41, 0x70, 0, 0, 0, 0, 0x70, 0, 0, 0, 0, 0x41, 0, 0x53, 0x24, 0x45};
    put_u32(frame + 16, first);
    put_u32(frame + 21, first + count - 1);
    push(transport, frame, sizeof frame);
    for (uint32_t i = 0; i < count; i++) {
        must(pn_delivery_settled(batch[i]), "a delivery is not settled");
        pn_delivery_settle(batch[i]);
    }
    drained(transport);
}

int main(int argc, char **argv) {
    must(argc == 4, "SIZE COUNT BATCH");
    size_t size = strtoul(argv[1], NULL, 10) + 8;
    uint32_t count = strtoul(argv[2], NULL, 10), batch = strtoul(argv[3], NULL, 10);
    must(batch > 0 && count % batch == 0, "COUNT is no multiple of BATCH");
    pn_connection_t *connection = pn_connection();
    pn_transport_t *transport = pn_transport();
    pn_link_t *link = opened(connection, transport);
    // A data section (Part 3, 3.2.6).
    char *message = calloc(size, 1);
    pn_delivery_t **deliveries = calloc(batch, sizeof *deliveries);
    must(message && deliveries, "no memory");
    memcpy(message, "\x00\x53\x75\xb0", 4);
    put_u32((unsigned char *)message + 4, size - 8);
    double sending = 0, begun = seconds();
    size_t wire = 0;
    for (uint32_t first = 0; first < count; first += batch) {
        double start = seconds();
        for (uint32_t i = 0; i < batch; i++) {
            deliveries[i] = send(link, first + i, message, size);
            wire += drained(transport);
        }
        sending += seconds() - start;
        answer(transport, first, deliveries, batch);
    }
    printf("%.9f %.9f %zu\n", sending, seconds() - begun, wire);
    return 0;
}
