/* What changed in a table: names that are noted and returned in order, and names that are forgotten. */
#include "streams.h"

#define LIST_B_1 "b suspect 1 -\n"
#define CONFIRM_B_2 "0583a446726f6da178ab496e6361726e6174696f6e02a44e6f6465a162"

/* The next change is about this name of one letter, in this state at this incarnation. */
static bool tells(swimtab_node *node, char name, uint32_t state, uint32_t inc) {
    swimtab_member_data member, found;
    memset(&member, 9, sizeof member);
    memset(&found, 9, sizeof found);
    if (swimtab_next_change(node, &member) != SWIMTAB_DONE) return false;
    /* it is the same as in the table */
    WANT(swimtab_find(node, &name, 1, &found) == SWIMTAB_DONE && memcmp(&member, &found, sizeof member) == 0);
    return member.name_len == 1 && member.name[0] == (uint8_t)name && member.state == state && member.inc == inc;
}

static bool tells_nothing(swimtab_node *node) {
    swimtab_member_data member, before;
    memset(&member, 9, sizeof member);
    memset(&before, 9, sizeof before);
    return swimtab_next_change(node, &member) == SWIMTAB_NO_MEMBER && memcmp(&member, &before, sizeof member) == 0 &&
           swimtab_next_change(node, NULL) == SWIMTAB_NO_MEMBER;
}

static swimtab_node watched(void) {
    swimtab_node node = opened("m", 7946, 0);
    WANT(swimtab_watch(&node, true) == SWIMTAB_DONE);
    return node;
}

static void nothing_is_noted_without_a_watch(void) {
    swimtab_node node = opened("a", 7946, 0);
    WANT(tells_nothing(&node));
    WANT(has_news(&node, SUSPECT_B_1) && tells_nothing(&node));
    /* earlier changes are not returned */
    WANT(swimtab_watch(&node, true) == SWIMTAB_DONE && tells_nothing(&node));
    WANT(has_news(&node, ALIVE_A_4) && swimtab_watch(&node, false) == SWIMTAB_DONE && tells_nothing(&node));
    WANT(has_news(&node, ALIVE_A_6) && tells_nothing(&node));
    WANT(swimtab_watch(&node, true) == SWIMTAB_DONE && tells_nothing(&node));
    /* a watch that starts again starts with no names */
    WANT(has_news(&node, CONFIRM_A_5) && swimtab_watch(&node, true) == SWIMTAB_DONE && tells_nothing(&node));
    WANT(!has_news(&node, LEAVE_A_0) && tells_nothing(&node));
    WANT(swimtab_close(&node) == SWIMTAB_DONE);
    /* and so does a handle that is opened again */
    node = opened("a", 7946, 0);
    WANT(has_news(&node, SUSPECT_B_1) && tells_nothing(&node));
    WANT(swimtab_close(&node) == SWIMTAB_DONE);
}

static void changes_come_in_the_order_of_names(void) {
    swimtab_node node = watched();
    WANT(has_news(&node, SUSPECT_B_1) && has_news(&node, SUSPECT_A_5));
    WANT(tells(&node, 'a', SWIMTAB_SUSPECT, 5));
    /* a change after those that were returned comes in its turn */
    WANT(has_news(&node, "0583a446726f6da162ab496e6361726e6174696f6e03a44e6f6465a163"));
    WANT(tells(&node, 'b', SWIMTAB_SUSPECT, 1) && tells(&node, 'c', SWIMTAB_CONFIRM, 3) && tells_nothing(&node));
    WANT(has_news(&node, CONFIRM_A_0) && tells(&node, 'a', SWIMTAB_CONFIRM, 0) && tells_nothing(&node));
    WANT(swimtab_close(&node) == SWIMTAB_DONE);
}

static void a_name_that_changed_twice_is_told_once(void) {
    swimtab_node node = watched();
    WANT(has_news(&node, ALIVE_A_4) && has_news(&node, SUSPECT_A_5) && has_news(&node, ALIVE_A_6));
    WANT(tells(&node, 'a', SWIMTAB_ALIVE, 6) && tells_nothing(&node));
    /* a newer address alone is a change too */
    WANT(has_news(&node, CONFIRM_A_0) && tells(&node, 'a', SWIMTAB_CONFIRM, 0));
    WANT(has_news(&node, "0486a441646472a47f000001ab496e6361726e6174696f6e07a44d657461a0a44e6f6465a161a4506f7274"
                         "cd1f0ba356736ea0"));
    WANT(tells(&node, 'a', SWIMTAB_CONFIRM, 0) && tells_nothing(&node));
    WANT(swimtab_close(&node) == SWIMTAB_DONE);
}

static void what_changes_nothing_is_not_noted(void) {
    swimtab_node node = watched();
    struct bytes stream = hex(DUMP_A_4_5);
    WANT(has_news(&node, ALIVE_A_4) && has_news(&node, SUSPECT_A_5) && tells(&node, 'a', SWIMTAB_SUSPECT, 5));
    WANT(!has_news(&node, ALIVE_A_4) && !has_news(&node, SUSPECT_A_5) && !has_news(&node, "0700"));
    WANT(!has_news(&node, "0702001d0003" SUSPECT_A_5 "008080"));
    WANT(has_news(&node, SUSPECT_B_1) && tells(&node, 'b', SWIMTAB_SUSPECT, 1));
    WANT(!has_news(&node, "0702001d001d" SUSPECT_A_5 SUSPECT_B_1));
    WANT(!swimtab_finish(&node, stream.at, stream.len).news && !swimtab_refute(&node).due);
    swimtab_buffer buffer = SWIMTAB_BUFFER_INIT;
    swimtab_exchanged made = swimtab_answer_new(&node, stream.at, stream.len, SWIMTAB_CANONICAL, NULL, 0, &buffer);
    WANT(made.status == SWIMTAB_DONE && !made.news);
    swimtab_free(&buffer);
    WANT(tells_nothing(&node));
    free(stream.at);
    WANT(swimtab_close(&node) == SWIMTAB_DONE);
}

static void refused_calls_note_nothing(void) {
    swimtab_node node = watched();
    struct bytes stream = hex(DUMP_B_1);
    uint8_t out[8];
    swimtab_buffer buffer = SWIMTAB_BUFFER_INIT;
    WANT(has_news(&node, SUSPECT_A_5));
    /* the second part of the compound packet is not a packet, and the last record of the stream lacks its last byte */
    WANT(take_hex(&node, "0702001d0002" SUSPECT_B_1 "0380") == SWIMTAB_NAME_EMPTY);
    WANT(swimtab_finish(&node, stream.at, stream.len - 1).status == SWIMTAB_ENDED);
    WANT(swimtab_answer(&node, stream.at, stream.len, SWIMTAB_CANONICAL, NULL, 0, out, 8).status == SWIMTAB_TOO_SMALL);
    WANT(swimtab_answer(&node, stream.at, stream.len, 2, NULL, 0, out, 8).status == SWIMTAB_BAD_FORM);
    WANT(swimtab_answer_new(&node, stream.at, stream.len - 1, 0, NULL, 0, &buffer).status == SWIMTAB_ENDED);
    WANT(swimtab_answer_new(&node, stream.at, stream.len, 0, NULL, 0, NULL).status == SWIMTAB_TOO_SMALL);
    WANT(tells(&node, 'a', SWIMTAB_SUSPECT, 5) && tells_nothing(&node));
    free(stream.at);
    WANT(swimtab_close(&node) == SWIMTAB_DONE);
}

static void streams_and_refutations_are_noted(void) {
    swimtab_node node = watched();
    struct bytes first = hex(DUMP_B_1), second = hex(DUMP_A_4_5);
    uint8_t out[512];
    WANT(swimtab_finish(&node, first.at, first.len).news && tells(&node, 'b', SWIMTAB_SUSPECT, 1));
    WANT(swimtab_answer(&node, second.at, second.len, SWIMTAB_CANONICAL, NULL, 0, out, sizeof out).news);
    WANT(tells(&node, 'a', SWIMTAB_SUSPECT, 5) && tells_nothing(&node));
    WANT(swimtab_close(&node) == SWIMTAB_DONE);
    node = opened("b", 1, 0);
    swimtab_buffer buffer = SWIMTAB_BUFFER_INIT;
    WANT(swimtab_watch(&node, true) == SWIMTAB_DONE);
    WANT(swimtab_answer_new(&node, first.at, first.len, SWIMTAB_CANONICAL, NULL, 0, &buffer).news);
    WANT(tells(&node, 'b', SWIMTAB_SUSPECT, 1) && tells_nothing(&node));
    WANT(swimtab_refute(&node).inc == 2 && tells(&node, 'b', SWIMTAB_ALIVE, 2) && tells_nothing(&node));
    /* there is nothing to refute, and nothing is noted */
    WANT(!swimtab_refute(&node).due && tells_nothing(&node));
    /* a suspicion that is refuted before it is returned: the member is returned as it is now */
    WANT(has_news(&node, "0383a446726f6da178ab496e6361726e6174696f6e09a44e6f6465a162"));
    WANT(swimtab_refute(&node).inc == 10 && tells(&node, 'b', SWIMTAB_ALIVE, 10) && tells_nothing(&node));
    WANT(has_news(&node, "0583a446726f6da178ab496e6361726e6174696f6e09a44e6f6465a162"));
    WANT(tells(&node, 'b', SWIMTAB_CONFIRM, 9) && swimtab_refute(&node).status == SWIMTAB_GONE);
    WANT(tells_nothing(&node));
    swimtab_free(&buffer);
    free(first.at), free(second.at);
    WANT(swimtab_close(&node) == SWIMTAB_DONE);
}

/* A packet or a stream notes all names that it changes, and only these. */
static void several_names_come_in_byte_order(void) {
    swimtab_node node = opened("c", 7946, 0), other = opened("d", 7946, 0);
    swimtab_buffer offer = SWIMTAB_BUFFER_INIT;
    uint8_t out[500];
    WANT(swimtab_offer_new(&other, true, SWIMTAB_CANONICAL, NULL, 0, &offer) == SWIMTAB_DONE);
    WANT(swimtab_watch(&node, true) == SWIMTAB_DONE);
    WANT(swimtab_finish(&node, offer.at, offer.len).news && tells(&node, 'd', SWIMTAB_ALIVE, 0));
    WANT(tells_nothing(&node));
    WANT(!swimtab_finish(&node, offer.at, offer.len).news && tells_nothing(&node));
    WANT(has_news(&node, "0702001d001d" SUSPECT_B_1 SUSPECT_A_5));
    WANT(tells(&node, 'a', SWIMTAB_SUSPECT, 5) && tells(&node, 'b', SWIMTAB_SUSPECT, 1) && tells_nothing(&node));
    WANT(swimtab_watch(&other, true) == SWIMTAB_DONE);
    WANT(swimtab_offer_new(&node, false, SWIMTAB_CANONICAL, NULL, 0, &offer) == SWIMTAB_DONE);
    WANT(swimtab_answer(&other, offer.at, offer.len, SWIMTAB_CANONICAL, NULL, 0, out, sizeof out).news);
    WANT(tells(&other, 'a', SWIMTAB_SUSPECT, 5) && tells(&other, 'b', SWIMTAB_SUSPECT, 1));
    /* it knew itself */
    WANT(tells(&other, 'c', SWIMTAB_ALIVE, 0) && tells_nothing(&other));
    /* names that are still noted when the watch ends are dropped */
    WANT(has_news(&node, ALIVE_A_6) && swimtab_watch(&node, false) == SWIMTAB_DONE && tells_nothing(&node));
    swimtab_free(&offer);
    WANT(swimtab_close(&node) == SWIMTAB_DONE && swimtab_close(&other) == SWIMTAB_DONE);
}

static void a_change_may_be_let_go(void) {
    swimtab_node node = watched();
    WANT(has_news(&node, SUSPECT_A_5) && has_news(&node, SUSPECT_B_1));
    WANT(swimtab_next_change(&node, NULL) == SWIMTAB_DONE);
    WANT(tells(&node, 'b', SWIMTAB_SUSPECT, 1) && tells_nothing(&node));
    WANT(swimtab_count(&node) == 3);
    WANT(swimtab_close(&node) == SWIMTAB_DONE);
}

static void a_forgotten_name_is_gone(void) {
    swimtab_node node = opened("a", 7946, 0);
    WANT(swimtab_forget(&node, "b", 1) == SWIMTAB_NO_MEMBER && has_news(&node, SUSPECT_B_1));
    WANT(swimtab_forget(&node, "", 0) == SWIMTAB_NO_MEMBER && swimtab_forget(&node, NULL, 1) == SWIMTAB_NO_MEMBER);
    WANT(swimtab_forget(&node, "bb", 2) == SWIMTAB_NO_MEMBER && lists(&node, LIST_A_0 LIST_B_1));
    WANT(swimtab_forget(&node, "b", 1) == SWIMTAB_DONE);
    WANT(swimtab_count(&node) == 1 && swimtab_find(&node, "b", 1, NULL) == SWIMTAB_NO_MEMBER);
    swimtab_buffer buffer = SWIMTAB_BUFFER_INIT;
    WANT(lists(&node, LIST_A_0) && swimtab_offer_new(&node, false, SWIMTAB_CANONICAL, NULL, 0, &buffer) == SWIMTAB_DONE);
    WANT(is_hex(buffer.at, buffer.len, DUMP_A_0));
    swimtab_free(&buffer);
    WANT(swimtab_forget(&node, "b", 1) == SWIMTAB_NO_MEMBER);
    WANT(swimtab_close(&node) == SWIMTAB_DONE);
}

static void a_forgotten_name_is_heard_again(void) {
    swimtab_node node = opened("b", 7946, 0);
    WANT(has_news(&node, ALIVE_A_6) && has_news(&node, CONFIRM_A_0) && !has_news(&node, ALIVE_A_4));
    WANT(swimtab_forget(&node, "a", 1) == SWIMTAB_DONE);
    /* as a new one, also at a smaller incarnation */
    WANT(has_news(&node, ALIVE_A_4));
    WANT(lists(&node, "a alive 4 4/7f000001/7947//\nb alive 0 0/7f000001/7946//\n"));
    /* and a death that somebody still reports is taken in again */
    WANT(has_news(&node, CONFIRM_A_0));
    WANT(lists(&node, "a confirm 0 4/7f000001/7947//\nb alive 0 0/7f000001/7946//\n"));
    WANT(swimtab_close(&node) == SWIMTAB_DONE);
}

static void the_own_name_is_forgotten_too(void) {
    swimtab_node node = opened("a", 7946, 0);
    uint8_t packet[SWIMTAB_MAX_PACKET_LEN];
    WANT(has_news(&node, SUSPECT_B_1) && swimtab_forget(&node, "a", 1) == SWIMTAB_DONE);
    WANT(lists(&node, LIST_B_1) && !swimtab_refute(&node).due && swimtab_refute(&node).status == SWIMTAB_DONE);
    /* the handle still has its name, address, port, metadata and versions */
    swimtab_written written = swimtab_alive(&node, 0, packet, sizeof packet);
    WANT(written.status == SWIMTAB_DONE && swimtab_take(&node, packet, written.len).news);
    WANT(lists(&node, LIST_A_0 LIST_B_1));
    WANT(swimtab_forget(&node, "a", 1) == SWIMTAB_DONE && has_news(&node, SUSPECT_A_5));
    swimtab_refuted refuted = swimtab_refute(&node);
    WANT(refuted.status == SWIMTAB_DONE && refuted.due && refuted.inc == 6);
    WANT(lists(&node, "a alive 6 6/7f000001/7946//\n" LIST_B_1));
    WANT(swimtab_forget(&node, "a", 1) == SWIMTAB_DONE && swimtab_forget(&node, "b", 1) == SWIMTAB_DONE);
    WANT(swimtab_count(&node) == 0 && lists(&node, "") && swimtab_member(&node, 0, NULL) == SWIMTAB_NO_MEMBER);
    WANT(swimtab_close(&node) == SWIMTAB_DONE);
}

static void forgetting_is_no_change_that_is_told(void) {
    swimtab_node node = watched();
    WANT(has_news(&node, SUSPECT_A_5) && has_news(&node, SUSPECT_B_1) && tells(&node, 'a', SWIMTAB_SUSPECT, 5));
    WANT(swimtab_forget(&node, "a", 1) == SWIMTAB_DONE);
    WANT(tells(&node, 'b', SWIMTAB_SUSPECT, 1) && tells_nothing(&node));
    /* a name that was noted and then forgotten is not returned, but the others are */
    WANT(has_news(&node, SUSPECT_A_5) && has_news(&node, CONFIRM_B_2));
    WANT(swimtab_forget(&node, "a", 1) == SWIMTAB_DONE);
    WANT(tells(&node, 'b', SWIMTAB_CONFIRM, 2) && tells_nothing(&node));
    /* when it is heard of again, it is new */
    WANT(has_news(&node, ALIVE_A_4) && tells(&node, 'a', SWIMTAB_ALIVE, 4) && tells_nothing(&node));
    WANT(swimtab_close(&node) == SWIMTAB_DONE);
}

int main(void) {
    static const struct test tests[] = {
        {"nothing is noted without a watch", nothing_is_noted_without_a_watch},
        {"changes come in the order of names", changes_come_in_the_order_of_names},
        {"a name that changed twice is told once", a_name_that_changed_twice_is_told_once},
        {"what changes nothing is not noted", what_changes_nothing_is_not_noted},
        {"refused calls note nothing", refused_calls_note_nothing},
        {"streams and refutations are noted", streams_and_refutations_are_noted},
        {"several names come in byte order", several_names_come_in_byte_order},
        {"a change may be let go", a_change_may_be_let_go},
        {"a forgotten name is gone", a_forgotten_name_is_gone},
        {"a forgotten name is heard again", a_forgotten_name_is_heard_again},
        {"the own name is forgotten too", the_own_name_is_forgotten_too},
        {"forgetting is no change that is told", forgetting_is_no_change_that_is_told},
    };
    return run_tests(tests, sizeof tests / sizeof *tests);
}
