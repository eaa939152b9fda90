/* The form of a stream that memberlist merges, and bytes in memory of the library. The expected bytes are those
 * of docs/messages.md. */
#include "streams.h"

/* The details in packets and records: an address, metadata, a port and versions. */
#define VSN "a6010502000000"
#define ADDR_A "a47f000001"
#define ADDR_B "a40a000002"
#define ADDR_D "b0fd000000000000000000000000000004"

static const uint8_t versions[6] = {1, 5, 2, 0, 0, 0};

/* What a heard: b was alive at 4 and is suspected at 5; c is suspected, without an Alive; d was alive at 2 and is
 * dead; e was alive at 3, left, and came back at 6. */
static const char *const heard[] = {
    "0486a441646472" ADDR_B "ab496e6361726e6174696f6e04a44d657461a3776562a44e6f6465a162a4506f727450a356736e" VSN,
    "0383a446726f6da164ab496e6361726e6174696f6e05a44e6f6465a162",
    "0383a446726f6da164ab496e6361726e6174696f6e01a44e6f6465a163",
    "0486a441646472" ADDR_D "ab496e6361726e6174696f6e02a44d657461a0a44e6f6465a164a4506f7274cd1f0aa356736e" VSN,
    "0583a446726f6da162ab496e6361726e6174696f6e02a44e6f6465a164",
    "0486a441646472" ADDR_B "ab496e6361726e6174696f6e06a44d657461a0a44e6f6465a165a4506f7274cd1f0aa356736e" VSN,
    "0583a446726f6da165ab496e6361726e6174696f6e03a44e6f6465a165",
};

#define RECORD_A RECORD(ADDR_A, "01", "a16d", "a161", "cd1f0a", "00", VSN)
#define ALIVE_B RECORD(ADDR_B, "04", "a3776562", "a162", "50", "00", VSN)
#define ALIVE_D RECORD(ADDR_D, "02", "a0", "a164", "cd1f0a", "00", VSN)
#define ALIVE_E RECORD(ADDR_B, "06", "a0", "a165", "cd1f0a", "00", VSN)

#define CANONICAL_RECORDS \
    RECORD_A ALIVE_B RECORD("a0", "05", "a0", "a162", "00", "01", "a0") \
    RECORD("a0", "01", "a0", "a163", "00", "01", "a0") \
    ALIVE_D RECORD("a0", "02", "a0", "a164", "00", "02", "a0") \
    ALIVE_E RECORD("a0", "03", "a0", "a165", "00", "03", "a0")
#define MEMBERLIST_RECORDS \
    RECORD_A RECORD(ADDR_B, "05", "a3776562", "a162", "50", "01", VSN) \
    RECORD(ADDR_D, "02", "a0", "a164", "cd1f0a", "02", VSN) ALIVE_E

#define LIST_A "a alive 1 1/7f000001/7946/6d/010502000000\n"
#define LIST_B "b suspect 5 4/0a000002/80/776562/010502000000\n"
#define LIST_D "d confirm 2 2/fd000000000000000000000000000004/7946//010502000000\n"
#define LIST_E "e leave 3 6/0a000002/7946//010502000000\n"

static swimtab_node with_all_heard(void) {
    swimtab_node node = SWIMTAB_NODE_INIT;
    WANT(open_with(&node, "a", 1, local_addr, 4, 7946, "m", 1, versions, 6, 1) == SWIMTAB_DONE);
    for (size_t i = 0; i < sizeof heard / sizeof *heard; i++) WANT(has_news(&node, heard[i]));
    WANT(lists(&node, LIST_A LIST_B "c suspect 1 -\n" LIST_D LIST_E));
    return node;
}

static swimtab_written write_canonical(swimtab_node *node, uint8_t *out, size_t out_len) {
    return swimtab_offer(node, true, SWIMTAB_CANONICAL, NULL, 0, out, out_len);
}
static swimtab_written write_memberlist(swimtab_node *node, uint8_t *out, size_t out_len) {
    return swimtab_offer(node, true, SWIMTAB_MEMBERLIST, NULL, 0, out, out_len);
}
static swimtab_written write_unjoined(swimtab_node *node, uint8_t *out, size_t out_len) {
    return swimtab_offer(node, false, SWIMTAB_MEMBERLIST, NULL, 0, out, out_len);
}

static void both_forms_are_written(void) {
    swimtab_node node = with_all_heard();
    writes(&node, write_canonical, HEADER("c3", "08") CANONICAL_RECORDS);
    writes(&node, write_memberlist, HEADER("c3", "04") MEMBERLIST_RECORDS);
    writes(&node, write_unjoined, HEADER("c2", "04") MEMBERLIST_RECORDS);
    WANT(swimtab_close(&node) == 0);
}

/* c has no Alive, f no versions, and those of g are out of order. */
static void who_has_no_sound_versions_is_left_out(void) {
    swimtab_node node = with_all_heard();
    WANT(swimtab_left_out(&node) == 1);
    WANT(has_news(&node, "0486a441646472" ADDR_B "ab496e6361726e6174696f6e01a44d657461a0a44e6f6465a166a4506f727450a356736ea0"));
    WANT(has_news(&node, "0486a441646472" ADDR_B
                         "ab496e6361726e6174696f6e01a44d657461a0a44e6f6465a167a4506f727450a356736ea6010506000000"));
    writes(&node, write_memberlist, HEADER("c3", "04") MEMBERLIST_RECORDS);
    WANT(swimtab_count(&node) == 7 && swimtab_left_out(&node) == 3 && swimtab_left_out(NULL) == 0);
    WANT(swimtab_close(&node) == 0);
}

static swimtab_written write_user_state(swimtab_node *node, uint8_t *out, size_t out_len) {
    return swimtab_offer(node, true, SWIMTAB_MEMBERLIST, "xyz", 3, out, out_len);
}

/* The user state is at the end, and only the form for memberlist has some. */
static void user_state_is_sent(void) {
    swimtab_node node = with_all_heard();
    swimtab_buffer buffer = SWIMTAB_BUFFER_INIT;
    uint8_t out[8];
    writes(&node, write_user_state,
           "0683a44a6f696ec3a54e6f64657304ac557365725374617465" "4c656e03" MEMBERLIST_RECORDS "78797a");
    WANT(swimtab_offer_new(&node, true, SWIMTAB_MEMBERLIST, "xyz", 3, &buffer) == SWIMTAB_DONE);
    swimtab_progress progress = SWIMTAB_PROGRESS_INIT;
    WANT(swimtab_whole(&progress, buffer.at, buffer.len) == SWIMTAB_DONE && progress.user_len == 3);
    WANT(progress.at + 3 == buffer.len && memcmp(buffer.at + progress.at, "xyz", 3) == 0);
    struct bytes long_state = bytes_of_size(20971521, 1), fits = hex(HEADER("c2", "00"));
    WANT(swimtab_offer(&node, false, SWIMTAB_CANONICAL, "x", 1, out, 8).status == SWIMTAB_BAD_FORM);
    WANT(swimtab_offer_new(&node, false, SWIMTAB_CANONICAL, "x", 1, &buffer) == SWIMTAB_BAD_FORM);
    WANT(swimtab_offer(&node, false, SWIMTAB_MEMBERLIST, long_state.at, long_state.len, out, 8).status ==
         SWIMTAB_USER_TOO_LONG);
    WANT(swimtab_offer(&node, false, SWIMTAB_MEMBERLIST, long_state.at, long_state.len - 1, out, 8).status ==
         SWIMTAB_TOO_SMALL);
    swimtab_exchanged made =
        swimtab_answer_new(&node, fits.at, fits.len, SWIMTAB_MEMBERLIST, "xyz", 3, &buffer);
    WANT(made.status == SWIMTAB_DONE && made.len == buffer.len && memcmp(buffer.at + buffer.len - 3, "xyz", 3) == 0);
    WANT(swimtab_answer(&node, fits.at, fits.len, SWIMTAB_CANONICAL, "x", 1, out, 8).status == SWIMTAB_BAD_FORM);
    free(long_state.at), free(fits.at);
    swimtab_free(&buffer);
    WANT(swimtab_close(&node) == 0);
}

/* A member without versions offers to memberlist nothing but the user state. */
static void user_state_needs_no_member(void) {
    swimtab_node node = opened("a", 7946, 0);
    uint8_t out[86];
    swimtab_written written = swimtab_offer(&node, false, SWIMTAB_CANONICAL, NULL, 0, out, sizeof out);
    WANT(written.status == SWIMTAB_DONE && is_hex(out, written.len, DUMP_A_0));
    written = swimtab_offer(&node, false, SWIMTAB_MEMBERLIST, "me", 2, out, sizeof out);
    WANT(written.status == SWIMTAB_DONE);
    WANT(is_hex(out, written.len, "0683a44a6f696ec2a54e6f64657300ac5573657253746174654c656e02" "6d65"));
    WANT(swimtab_left_out(&node) == 1);
    WANT(swimtab_close(&node) == 0);
}

static void the_form_for_memberlist_is_read_back(void) {
    swimtab_node node = with_all_heard(), other = opened("z", 1, 0);
    swimtab_buffer buffer = SWIMTAB_BUFFER_INIT;
    WANT(swimtab_offer_new(&node, true, SWIMTAB_MEMBERLIST, NULL, 0, &buffer) == SWIMTAB_DONE);
    swimtab_exchanged made = swimtab_finish(&other, buffer.at, buffer.len);
    WANT(made.status == SWIMTAB_DONE && made.join && made.news && made.used == buffer.len);
    WANT(lists(&other, LIST_A "b suspect 5 -\nd confirm 2 -\n"
                              "e alive 6 6/0a000002/7946//010502000000\nz alive 0 0/7f000001/1//\n"));
    /* it has nothing that the table does not have */
    made = swimtab_finish(&node, buffer.at, buffer.len);
    WANT(made.status == SWIMTAB_DONE && !made.news);
    swimtab_free(&buffer);
    WANT(swimtab_close(&node) == 0 && swimtab_close(&other) == 0);
}

static void a_reply_is_in_the_form_that_is_asked_for(void) {
    static const uint32_t forms[] = {SWIMTAB_CANONICAL, SWIMTAB_MEMBERLIST};
    static const char *const wanted[] = {HEADER("c2", "08") CANONICAL_RECORDS, HEADER("c2", "04") MEMBERLIST_RECORDS};
    struct bytes stream = hex(HEADER("c2", "01") RECORD("a0", "01", "a0", "a178", "00", "01", "a0"));
    for (size_t i = 0; i < 2; i++) {
        swimtab_node node = with_all_heard();
        struct bytes room = bytes_of_size(1024, 7);
        swimtab_exchanged asked = swimtab_answer(&node, stream.at, stream.len, forms[i], NULL, 0, NULL, 0);
        WANT(asked.status == SWIMTAB_TOO_SMALL && asked.used == stream.len && !asked.news);
        WANT(swimtab_find(&node, "x", 1, NULL) == SWIMTAB_NO_MEMBER);
        swimtab_exchanged made = swimtab_answer(&node, stream.at, stream.len, forms[i], NULL, 0, room.at, room.len);
        WANT(made.status == SWIMTAB_DONE && made.len == asked.len && made.news && !made.join);
        WANT(is_hex(room.at, made.len, wanted[i]) && room.at[made.len] == 7);
        WANT(swimtab_find(&node, "x", 1, NULL) == SWIMTAB_DONE);
        free(room.at);
        WANT(swimtab_close(&node) == 0);
    }
    free(stream.at);
}

static bool holds(const swimtab_buffer *buffer, const char *wanted) {
    return buffer->kept.held && is_hex(buffer->at, buffer->len, wanted);
}

static bool is_empty(const swimtab_buffer *buffer) {
    return !buffer->kept.held && buffer->len == 0;
}

static void a_buffer_is_filled_again_and_again(void) {
    swimtab_node node = with_all_heard();
    swimtab_buffer buffer = SWIMTAB_BUFFER_INIT;
    struct bytes stream = hex(DUMP_A_0);
    WANT(swimtab_offer_new(&node, true, SWIMTAB_CANONICAL, NULL, 0, &buffer) == SWIMTAB_DONE);
    WANT(holds(&buffer, HEADER("c3", "08") CANONICAL_RECORDS));
    WANT(swimtab_offer_new(&node, true, SWIMTAB_MEMBERLIST, NULL, 0, &buffer) == SWIMTAB_DONE);
    WANT(holds(&buffer, HEADER("c3", "04") MEMBERLIST_RECORDS));
    swimtab_exchanged made = swimtab_answer_new(&node, stream.at, stream.len, SWIMTAB_MEMBERLIST, NULL, 0, &buffer);
    WANT(made.status == SWIMTAB_DONE && !made.join && !made.news && made.used == stream.len);
    WANT(made.len == buffer.len && holds(&buffer, HEADER("c2", "04") MEMBERLIST_RECORDS));
    WANT(swimtab_list_new(&node, &buffer) == SWIMTAB_DONE);
    static const char list[] = LIST_A LIST_B "c suspect 1 -\n" LIST_D LIST_E;
    WANT(buffer.len == sizeof list - 1 && memcmp(buffer.at, list, buffer.len) == 0);
    /* it may be moved in memory */
    swimtab_buffer moved = buffer;
    memset(&buffer, 0, sizeof buffer);
    WANT(swimtab_list_new(&node, &moved) == SWIMTAB_DONE && moved.len == sizeof list - 1);
    swimtab_free(&moved);
    WANT(is_empty(&moved));
    swimtab_free(&moved);
    swimtab_free(&buffer);
    swimtab_free(NULL);
    WANT(is_empty(&moved) && is_empty(&buffer));
    WANT(swimtab_offer_new(&node, false, SWIMTAB_MEMBERLIST, NULL, 0, &moved) == SWIMTAB_DONE);
    WANT(holds(&moved, HEADER("c2", "04") MEMBERLIST_RECORDS));
    /* the bytes outlive the node */
    WANT(swimtab_close(&node) == 0);
    WANT(holds(&moved, HEADER("c2", "04") MEMBERLIST_RECORDS));
    swimtab_free(&moved);
    free(stream.at);
}

static void an_answer_fills_a_buffer_with_the_table_of_before(void) {
    swimtab_node node = opened("a", 7946, 0);
    swimtab_buffer buffer = SWIMTAB_BUFFER_INIT;
    struct bytes stream = hex(DUMP_B_1 "ffff");
    swimtab_exchanged made = swimtab_answer_new(&node, stream.at, stream.len, SWIMTAB_CANONICAL, NULL, 0, &buffer);
    WANT(made.status == SWIMTAB_DONE && made.used == stream.len - 2 && !made.join && made.news);
    WANT(made.len == buffer.len && holds(&buffer, DUMP_A_0) && lists(&node, LIST_A_0 "b suspect 1 -\n"));
    free(stream.at);
    swimtab_free(&buffer);
    WANT(swimtab_close(&node) == 0);
}

static void a_call_that_is_refused_leaves_a_buffer(void) {
    swimtab_node node = opened("a", 7946, 0), none = SWIMTAB_NODE_INIT;
    swimtab_buffer buffer = SWIMTAB_BUFFER_INIT;
    struct bytes stream = hex(DUMP_B_1);
    for (size_t round = 0; round < 2; round++) {
        const swimtab_buffer before = buffer;
        WANT(swimtab_offer_new(&node, false, 2, NULL, 0, &buffer) == SWIMTAB_BAD_FORM);
        WANT(swimtab_offer_new(&none, false, SWIMTAB_CANONICAL, NULL, 0, &buffer) == SWIMTAB_NO_NODE);
        WANT(swimtab_answer_new(&node, stream.at, stream.len, 2, NULL, 0, &buffer).status == SWIMTAB_BAD_FORM);
        WANT(swimtab_answer_new(&node, stream.at, 9, SWIMTAB_CANONICAL, NULL, 0, &buffer).status == SWIMTAB_ENDED);
        WANT(swimtab_answer_new(&node, NULL, 9, SWIMTAB_CANONICAL, NULL, 0, &buffer).status == SWIMTAB_ENDED);
        WANT(swimtab_answer_new(&node, "\x03", 1, SWIMTAB_CANONICAL, NULL, 0, &buffer).status == SWIMTAB_WRONG_TYPE);
        WANT(swimtab_list_new(&none, &buffer) == SWIMTAB_NO_NODE);
        WANT(buffer.at == before.at && buffer.len == before.len && buffer.kept.held == before.kept.held);
        WANT(round == 0 || holds(&buffer, DUMP_A_0));
        WANT(lists(&node, LIST_A_0));
        WANT(swimtab_offer_new(&node, false, SWIMTAB_CANONICAL, NULL, 0, &buffer) == SWIMTAB_DONE);
    }
    WANT(swimtab_offer_new(&node, false, SWIMTAB_CANONICAL, NULL, 0, NULL) == SWIMTAB_TOO_SMALL);
    WANT(swimtab_answer_new(&node, stream.at, stream.len, 0, NULL, 0, NULL).status == SWIMTAB_TOO_SMALL);
    WANT(swimtab_list_new(&node, NULL) == SWIMTAB_TOO_SMALL && lists(&node, LIST_A_0));
    swimtab_free(&buffer);
    free(stream.at);
    WANT(swimtab_close(&node) == 0);
}

int main(void) {
    static const struct test tests[] = {
        {"both forms are written", both_forms_are_written},
        {"who has no sound versions is left out", who_has_no_sound_versions_is_left_out},
        {"user state is sent", user_state_is_sent},
        {"user state needs no member", user_state_needs_no_member},
        {"the form for memberlist is read back", the_form_for_memberlist_is_read_back},
        {"a reply is in the form that is asked for", a_reply_is_in_the_form_that_is_asked_for},
        {"a buffer is filled again and again", a_buffer_is_filled_again_and_again},
        {"an answer fills a buffer with the table of before", an_answer_fills_a_buffer_with_the_table_of_before},
        {"a call that is refused leaves a buffer", a_call_that_is_refused_leaves_a_buffer},
    };
    return run_tests(tests, sizeof tests / sizeof *tests);
}
