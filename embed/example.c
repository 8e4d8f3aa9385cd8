/* A transfer's header written and read, a place in a message, and credit after a flow. */
#include <stdio.h>
#include <string.h>

#include "dabberblue.h"

static void print_bytes(const uint8_t *bytes, size_t size)
{
    for (size_t i = 0; i < size; i++)
        printf("%02x", bytes[i]);
    printf("\n");
}

static void show_answer(const char *what, struct dabberblue_answer answer)
{
    printf("%s: status %u, value %zu\n", what, (unsigned)answer.status, answer.value);
}

static void headers(void)
{
    struct dabberblue_transfer transfer = {.has_tag = 1, .tag_len = 4, .tag = {0, 0, 0, 7}, .has_message_format = 1};
    transfer.settled = DABBERBLUE_FALSE;
    uint8_t out[64] = {0};
    show_answer("size", dabberblue_transfer_size(DABBERBLUE_COMPACT, &transfer));
    show_answer("short", dabberblue_transfer_write(DABBERBLUE_COMPACT, &transfer, out, 8));
    struct dabberblue_answer written = dabberblue_transfer_write(DABBERBLUE_COMPACT, &transfer, out, sizeof out);
    print_bytes(out, written.value);
    struct dabberblue_transfer back;
    memset(&back, 0xff, sizeof back);
    show_answer("read", dabberblue_transfer_read(DABBERBLUE_COMPACT, out, written.value, &back));
    printf("tag of %u bytes, settled %u, state 0x%02x\n", back.tag_len, back.settled, back.state.code);
    out[5]++;
    show_answer("damaged", dabberblue_transfer_read(DABBERBLUE_COMPACT, out, written.value, &back));
    transfer.tag_len = 33;
    show_answer("long tag", dabberblue_transfer_size(DABBERBLUE_COMPACT, &transfer));
}

static void places(void)
{
    static const uint8_t message[] = {0x00, 0x53, 0x70, 0x45, 0x00, 0x53, 0x75, 0xa0, 0x03, 0x41, 0x42, 0x43};
    show_answer("place (1, 5)", dabberblue_place(message, sizeof message, 1, 5));
    show_answer("place (2, 0)", dabberblue_place(message, sizeof message, 2, 0));
}

static void credit(void)
{
    struct dabberblue_credit credit = {.initial_delivery_count = 0, .delivery_count = 20, .link_credit = 0};
    struct dabberblue_flow flow = {.has_delivery_count = 1, .delivery_count = 10, .has_link_credit = 1, .link_credit = 11, .echo = 1};
    bool is_answered = dabberblue_flow(&credit, &flow);
    printf("credit %u, answered: %s\n", (unsigned)credit.link_credit, is_answered ? "yes" : "no");
}

static void play(const char *scenario, size_t room)
{
    static uint8_t out[1024];
    struct dabberblue_played played = dabberblue_play((const uint8_t *)scenario, strlen(scenario), out, room);
    fwrite(out, 1, played.written, stdout);
    printf("[played: status %u, line %u]\n", (unsigned)played.status, (unsigned)played.line);
}

static void scenarios(void)
{
    static const char opened[] = "link table=4 resume=4 resend=4 seats=4 sender=unsettled receiver=first limit=0 frame=512 count=0\n"
                                 "queue places=4 widest=512 memory=2048\n"
                                 "pool 005375a003414243\n"
                                 "open handle=7 incomplete=no\n"
                                 "attach handle=9 incomplete=no receiver=first sender=unsettled target=yes limit=0 unsettled=none\n"
                                 "flow count=0 credit=2 drain=no echo=no\n"
                                 "send start=0 length=8 format=0 settled=none state=none batchable=no\n"
                                 "take\n"
                                 "disposition tag=00000000 settled=yes state=accepted\n"
                                 "collect 0\n";
    play(opened, 1024);
    play(opened, 16);
    play("nothing of the kind\n", 1024);
}

int main(void)
{
    headers();
    places();
    credit();
    scenarios();
    return 0;
}
