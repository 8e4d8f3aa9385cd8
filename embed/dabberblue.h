/*
 * What the library offers to C. docs/EMBEDDING.md says how to link it, and what no compiler checks here: a pointer goes with the
 * length after it and is not null, what is written overlaps nothing else that is handed in, and all of it stays as it is
 * while the call runs.
 */
#ifndef DABBERBLUE_H
#define DABBERBLUE_H

#include <stdbool.h>
#include <stddef.h>
#include <stdint.h>

#ifdef __cplusplus
extern "C" {
#endif

/* The status of an answer. */
#define DABBERBLUE_DONE 0
/* The bytes are no header from the place on that `value` tells. */
#define DABBERBLUE_NOT_ENCODED 18
/* There are fewer bytes to write to than `value` tells. */
#define DABBERBLUE_TOO_SHORT 20
/* The fields hold no transfer, or the form is none, or the header is a disposition's. */
#define DABBERBLUE_NO_TRANSFER 64
/* The message has no such place. */
#define DABBERBLUE_NO_PLACE 65

struct dabberblue_answer {
    uint32_t status;
    size_t value;
};

/* Forms of headers (Part 1, 1.6). */
#define DABBERBLUE_COMPACT 0
#define DABBERBLUE_WIDE 1

/* A truth value that may be absent. */
#define DABBERBLUE_ABSENT 0
#define DABBERBLUE_FALSE 1
#define DABBERBLUE_TRUE 2

/* The codes of delivery states (Part 3, 3.4). */
#define DABBERBLUE_NO_STATE 0x00
#define DABBERBLUE_RECEIVED 0x23
#define DABBERBLUE_ACCEPTED 0x24
#define DABBERBLUE_REJECTED 0x25
#define DABBERBLUE_RELEASED 0x26
#define DABBERBLUE_MODIFIED 0x27

/* A delivery state: the code says which of the other fields count. */
struct dabberblue_state {
    uint8_t code;
    /* Its place in Part 2, 2.8.15, from 1 on, or 0 for none. */
    uint8_t condition;
    uint8_t delivery_failed;
    uint8_t undeliverable_here;
    uint32_t section_number;
    uint64_t section_offset;
};

/*
 * A transfer (Part 2, 2.7.5). `settled` may be absent; any other field of one byte is a truth value, no for 0, but for the tag's
 * length, which is at most 32. What may be absent counts where its `has_` is yes.
 */
struct dabberblue_transfer {
    uint32_t handle;
    uint32_t delivery_id;
    uint32_t message_format;
    uint8_t has_delivery_id;
    uint8_t has_tag;
    uint8_t has_message_format;
    uint8_t settled;
    uint8_t more;
    uint8_t resume;
    uint8_t aborted;
    uint8_t batchable;
    uint8_t tag_len;
    uint8_t tag[32];
    struct dabberblue_state state;
};

/* How many bytes the transfer's header has. */
struct dabberblue_answer dabberblue_transfer_size(uint8_t form, const struct dabberblue_transfer *transfer);

/* Writes the header to the front of `out`, and answers how many bytes it has. A refusal writes nothing. */
struct dabberblue_answer dabberblue_transfer_write(uint8_t form, const struct dabberblue_transfer *transfer, uint8_t *out, size_t out_len);

/* The transfer whose header these bytes are, all of them. A refusal leaves `transfer` as it was. */
struct dabberblue_answer dabberblue_transfer_read(uint8_t form, const uint8_t *bytes, size_t bytes_len, struct dabberblue_transfer *transfer);

/* The position in a message that lies in a section, so many bytes past its first (Part 3, 3.4.1). */
struct dabberblue_answer dabberblue_place(const uint8_t *message, size_t message_len, uint32_t section, uint64_t offset);

/* How many deliveries went out, and how many more the peer takes (Part 2, 2.6.7). */
struct dabberblue_credit {
    uint32_t initial_delivery_count;
    uint32_t delivery_count;
    uint32_t link_credit;
};

/* A flow of the peer's: a count or a credit counts where its `has_` is not 0, and a truth value is no for 0. */
struct dabberblue_flow {
    uint32_t delivery_count;
    uint32_t link_credit;
    uint8_t has_delivery_count;
    uint8_t has_link_credit;
    uint8_t drain;
    uint8_t echo;
};

/* Takes the flow in, and answers whether the peer is to be told how the credit stands then. */
bool dabberblue_flow(struct dabberblue_credit *credit, const struct dabberblue_flow *flow);

/* Why the playing of a scenario ended early, besides DABBERBLUE_TOO_SHORT: a line that is no command, or no memory. */
#define DABBERBLUE_NO_COMMAND 66
#define DABBERBLUE_NO_MEMORY 67

/* How many bytes of answers there are, whyever it ended, and the line at which it ended early. */
struct dabberblue_played {
    uint32_t status;
    size_t written;
    uint64_t line;
};

/*
 * Plays a scenario, in the language of the program `scenario`, without files: a line of answer for each of its lines goes to the
 * front of `out`. It is in the library `embed_scenario`, and takes memory from the heap.
 */
struct dabberblue_played dabberblue_play(const uint8_t *scenario, size_t scenario_len, uint8_t *out, size_t out_len);

#ifdef __cplusplus
}
#endif

#endif
