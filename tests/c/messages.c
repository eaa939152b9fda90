/* Pings and other messages that make no claims, parts, details that change, members that came back, walks over
 * the table, and the keys of a keyring by index. PING is from a running cluster. */
#include "check.h"

#define PING \
    "0085a44e6f6465a26433a55365714e6f01aa536f7572636541646472a47f000502aa536f757263654e6f6465a264" \
    "32aa536f75726365506f7274cd1f0a"
#define PLAIN_PING "0082a44e6f6465a26433a55365714e6f01"
#define INDIRECT \
    "0188a44e61636bc3a44e6f6465a26434a4506f7274cd1f0ba55365714e6f07aa536f7572636541646472a47f000502aa536f7572" \
    "63654e6f6465a26432aa536f75726365506f7274cd1f0aa6546172676574a47f000504"
#define ACK "0282a75061796c6f6164a26869a55365714e6f01"
#define NACK "0b81a55365714e6f07"
#define LEAVE_A_1 "0583a446726f6da161ab496e6361726e6174696f6e01a44e6f6465a161"

static const uint8_t addr_2[4] = {127, 0, 5, 2}, addr_4[4] = {127, 0, 5, 4};

static swimtab_details d2(void) { return details_of("d2", 2, addr_2, 4, 7946, NULL, 0, NULL, 0, 1); }

static swimtab_written write_ping(swimtab_node *node, uint8_t *out, size_t out_len) {
    swimtab_details source = d2();
    (void)node;
    return swimtab_ping_of(1, "d3", 2, &source, out, out_len);
}
static swimtab_written write_plain_ping(swimtab_node *node, uint8_t *out, size_t out_len) {
    (void)node;
    return swimtab_ping_of(1, "d3", 2, NULL, out, out_len);
}
static swimtab_written write_indirect(swimtab_node *node, uint8_t *out, size_t out_len) {
    swimtab_details source = d2(), target = details_of("d4", 2, addr_4, 4, 7947, NULL, 0, NULL, 0, 1);
    (void)node;
    return swimtab_indirect_of(7, &target, true, &source, out, out_len);
}
static swimtab_written write_ack(swimtab_node *node, uint8_t *out, size_t out_len) {
    (void)node;
    return swimtab_ack_of(1, "hi", 2, out, out_len);
}
static swimtab_written write_nack(swimtab_node *node, uint8_t *out, size_t out_len) {
    (void)node;
    return swimtab_nack_of(7, out, out_len);
}
static swimtab_written write_user(swimtab_node *node, uint8_t *out, size_t out_len) {
    (void)node;
    return swimtab_user_of("abc", 3, out, out_len);
}
static swimtab_written write_suspect_of(swimtab_node *node, uint8_t *out, size_t out_len) {
    (void)node;
    return swimtab_suspect_of("x", 1, "a", 1, 5, out, out_len);
}
static swimtab_written write_dead_of(swimtab_node *node, uint8_t *out, size_t out_len) {
    (void)node;
    return swimtab_dead_of("x", 1, "a", 1, 5, out, out_len);
}
static swimtab_written write_leave_of(swimtab_node *node, uint8_t *out, size_t out_len) {
    (void)node;
    return swimtab_dead_of("a", 1, "a", 1, 1, out, out_len);
}

static void messages_are_written(void) {
    swimtab_node node = opened("a", 7946, 0);
    writes(&node, write_ping, PING);
    writes(&node, write_plain_ping, PLAIN_PING);
    writes(&node, write_indirect, INDIRECT);
    writes(&node, write_ack, ACK);
    writes(&node, write_nack, NACK);
    writes(&node, write_user, "08616263");
    writes(&node, write_suspect_of, SUSPECT_A_5);
    writes(&node, write_dead_of, CONFIRM_A_5);
    writes(&node, write_leave_of, LEAVE_A_1);
    WANT(swimtab_close(&node) == 0);
}

static void messages_that_do_not_fit_are_refused(void) {
    struct bytes name = bytes_of_size(1025, 'n'), payload = bytes_of_size(65536, 1), out = bytes_of_size(70000, 7);
    swimtab_details source = d2(), target = details_of(name.at, 1024, addr_4, 3, 1, NULL, 0, NULL, 0, 1);
    WANT(swimtab_ping_of(1, name.at, 1025, &source, out.at, out.len).status == SWIMTAB_NAME_TOO_LONG);
    source.name = name.at, source.name_len = 1025;
    WANT(swimtab_ping_of(1, "d3", 2, &source, out.at, out.len).status == SWIMTAB_NAME_TOO_LONG);
    source.name_len = 1024;
    WANT(swimtab_indirect_of(1, &target, false, &source, out.at, out.len).status == SWIMTAB_BAD_ADDRESS);
    WANT(swimtab_indirect_of(1, NULL, false, &source, out.at, out.len).status == SWIMTAB_BAD_SIZE);
    source.size--;
    WANT(swimtab_ping_of(1, "d3", 2, &source, out.at, out.len).status == SWIMTAB_BAD_SIZE);
    WANT(swimtab_ack_of(1, payload.at, 65536, out.at, out.len).status == SWIMTAB_TOO_LONG);
    WANT(swimtab_suspect_of(name.at, 1025, "a", 1, 1, out.at, out.len).status == SWIMTAB_NAME_TOO_LONG);
    WANT(swimtab_dead_of("a", 1, "", 0, 1, out.at, out.len).status == SWIMTAB_NAME_EMPTY);
    WANT(out.at[0] == 7 && out.at[out.len - 1] == 7);
    WANT(swimtab_ack_of(1, payload.at, 65535, out.at, out.len).status == SWIMTAB_DONE);
    /* the longest of all: each name has 1,024 bytes, each address 16, each number its most bytes */
    uint8_t addr[16] = {1};
    source = details_of(name.at, 1024, addr, 16, 65535, NULL, 0, NULL, 0, 1);
    WANT(swimtab_indirect_of(UINT32_MAX, &source, true, &source, out.at, out.len).len == SWIMTAB_MAX_PACKET_LEN);
    free(name.at), free(payload.at), free(out.at);
}

static swimtab_status reads(const char *text, swimtab_probe *probe) {
    struct bytes bytes = hex(text);
    swimtab_status status = swimtab_read(bytes.at, bytes.len, probe);
    free(bytes.at);
    return status;
}

static void pings_and_answers_are_read(void) {
    swimtab_probe probe;
    WANT(reads(PING, &probe) == SWIMTAB_DONE && probe.kind == SWIMTAB_KIND_PING && probe.seq == 1);
    WANT(probe.node_len == 2 && memcmp(probe.node, "d3", 2) == 0 && probe.node[2] == 0);
    WANT(probe.source_len == 2 && memcmp(probe.source, "d2", 2) == 0 && probe.source_port == 7946);
    WANT(probe.source_addr_len == 4 && memcmp(probe.source_addr, addr_2, 4) == 0 && probe.addr_len == 0);
    WANT(reads(PLAIN_PING, &probe) == SWIMTAB_DONE && probe.source_len == 0 && probe.source_port == 0);
    WANT(reads(INDIRECT, &probe) == SWIMTAB_DONE && probe.kind == SWIMTAB_KIND_INDIRECT && probe.seq == 7);
    WANT(probe.nack && probe.port == 7947 && probe.addr_len == 4 && memcmp(probe.addr, addr_4, 4) == 0);
    WANT(memcmp(probe.node, "d4", 2) == 0 && memcmp(probe.source, "d2", 2) == 0);
    WANT(reads(ACK, &probe) == SWIMTAB_DONE && probe.kind == SWIMTAB_KIND_ACK && probe.seq == 1);
    WANT(probe.payload_len == 2 && memcmp(probe.payload, "hi", 2) == 0 && probe.node_len == 0);
    WANT(reads(NACK, &probe) == SWIMTAB_DONE && probe.kind == SWIMTAB_KIND_NACK && probe.seq == 7 && !probe.nack);
    /* a key that this library does not know is passed over, as memberlist does */
    WANT(reads("0b82a55365714e6f09a144c3", &probe) == SWIMTAB_DONE && probe.seq == 9);
    WANT(reads("08616263", &probe) == SWIMTAB_WRONG_TYPE && reads(SUSPECT_A_5, &probe) == SWIMTAB_WRONG_TYPE);
    WANT(reads("06", &probe) == SWIMTAB_WRONG_TYPE && reads("", &probe) == SWIMTAB_ENDED);
    WANT(reads("0082a44e6f6465a2", &probe) == SWIMTAB_ENDED && probe.seq == 9);
    WANT(reads("0081aa536f7572636541646472a3010203", &probe) == SWIMTAB_BAD_ADDRESS && probe.seq == 9);
    WANT(swimtab_read(NULL, 9, NULL) == SWIMTAB_ENDED && reads(PING, NULL) == SWIMTAB_DONE);
}

/* Each part of the message, as hexadecimal with a space behind it. */
static bool has_parts(const char *text, const char *wanted) {
    struct bytes bytes = hex(text);
    char told[300] = "", *at = told;
    for (size_t i = 0;; i++) {
        swimtab_part_place part = swimtab_part(bytes.at, bytes.len, i);
        if (part.status != SWIMTAB_DONE) {
            WANT(part.status == SWIMTAB_NO_ITEM && part.kind == 0 && part.at == 0 && part.len == 0);
            break;
        }
        WANT(part.at <= bytes.len && part.len <= bytes.len - part.at);
        WANT(part.kind == (part.len ? bytes.at[part.at] : 0));
        for (size_t k = 0; k < part.len; k++) at += sprintf(at, "%02x", bytes.at[part.at + k]);
        at += sprintf(at, " ");
    }
    WANT(swimtab_part(bytes.at, bytes.len, SIZE_MAX).status == SWIMTAB_NO_ITEM);
    free(bytes.at);
    return strcmp(told, wanted) == 0;
}

static void the_parts_of_a_message_are_found(void) {
    WANT(has_parts("07030002000000010b8108", "0b81  08 "));
    WANT(has_parts("0702000100050801020304", "08 "));
    WANT(has_parts("0700", "") && has_parts("0701", "") && has_parts("07", "") && has_parts("", ""));
    WANT(has_parts("08616263", "08616263 ") && has_parts("0701000407010001", "07010001 "));
    WANT(swimtab_part(NULL, 9, 0).status == SWIMTAB_NO_ITEM);
}

/* A bad part refuses only itself if the parts are taken in one by one. */
static void a_bad_part_refuses_only_itself(void) {
    swimtab_node node = opened("a", 7946, 0);
    struct bytes bytes = hex("0703001d0001001d" SUSPECT_A_5 "09" SUSPECT_B_1);
    WANT(swimtab_take(&node, bytes.at, bytes.len).status == SWIMTAB_DONE || lists(&node, LIST_A_0));
    for (size_t i = 0; i < 3; i++) {
        swimtab_part_place part = swimtab_part(bytes.at, bytes.len, i);
        WANT(swimtab_take(&node, bytes.at + part.at, part.len).status == (i == 1 ? SWIMTAB_WRONG_TYPE : SWIMTAB_DONE));
    }
    WANT(swimtab_find(&node, "b", 1, NULL) == SWIMTAB_DONE);
    free(bytes.at);
    WANT(swimtab_close(&node) == 0);
}

static void details_are_replaced(void) {
    swimtab_node node = opened("a", 7946, 0);
    swimtab_details other = details_of(NULL, 0, addr_2, 4, 80, "m", 1, NULL, 0, 99);
    WANT(swimtab_watch(&node, true) == SWIMTAB_DONE);
    swimtab_refuted made = swimtab_update(&node, &other);
    WANT(made.status == SWIMTAB_DONE && made.due && made.inc == 1 && lists(&node, "a alive 1 1/7f000502/80/6d/\n"));
    swimtab_member_data member;
    WANT(swimtab_next_change(&node, &member) == SWIMTAB_DONE && member.inc == 1 && member.port == 80);
    made = swimtab_update(&node, &other);
    WANT(made.status == SWIMTAB_DONE && !made.due && made.inc == 0);
    /* what others still say of the old details is refuted with the new ones */
    WANT(has_news(&node, ALIVE_A_6) && swimtab_refute(&node).inc == 7 && lists(&node, "a alive 7 7/7f000502/80/6d/\n"));
    other.addr_len = 3;
    WANT(swimtab_update(&node, &other).status == SWIMTAB_BAD_ADDRESS);
    other.size = 1;
    WANT(swimtab_update(&node, &other).status == SWIMTAB_BAD_SIZE);
    WANT(swimtab_update(&node, NULL).status == SWIMTAB_BAD_SIZE);
    WANT(swimtab_update(NULL, NULL).status == SWIMTAB_NO_NODE && lists(&node, "a alive 7 7/7f000502/80/6d/\n"));
    WANT(has_news(&node, LEAVE_A_0));
    other = details_of(NULL, 0, addr_4, 4, 81, NULL, 0, NULL, 0, 0);
    WANT(swimtab_update(&node, &other).status == SWIMTAB_GONE);
    uint8_t out[100];
    swimtab_written said = swimtab_alive(&node, 9, out, sizeof out);
    WANT(said.status == SWIMTAB_DONE && memcmp(out + 7, "\xa4\x7f\x00\x05\x02", 5) == 0);
    WANT(swimtab_close(&node) == 0);
}

static void a_member_that_came_back_is_believed(void) {
    swimtab_node node = opened("b", 7946, 0);
    WANT(swimtab_readmit(NULL, "a", 1) == SWIMTAB_NO_NODE && swimtab_readmit(&node, "a", 1) == SWIMTAB_NO_MEMBER);
    WANT(has_news(&node, CONFIRM_A_5) && swimtab_readmit(&node, "a", 1) == SWIMTAB_NOT_BACK);
    WANT(has_news(&node, ALIVE_A_4) && swimtab_readmit(&node, "a", 1) == SWIMTAB_NOT_BACK);
    WANT(has_news(&node, ALIVE_A_6) && swimtab_readmit(&node, "a", 1) == SWIMTAB_DONE);
    WANT(lists(&node, "a alive 6 6/7f000001/7947//\nb alive 0 0/7f000001/7946//\n"));
    /* a late death at a smaller incarnation: the table's rule, and then memberlist's */
    WANT(has_news(&node, CONFIRM_A_0) && lists(&node, "a confirm 0 6/7f000001/7947//\nb alive 0 0/7f000001/7946//\n"));
    WANT(swimtab_readmit(&node, "a", 1) == SWIMTAB_DONE && swimtab_readmit(&node, "a", 1) == SWIMTAB_NOT_BACK);
    WANT(lists(&node, "a alive 6 6/7f000001/7947//\nb alive 0 0/7f000001/7946//\n"));
    WANT(swimtab_close(&node) == 0);
}

/* The same of a node's own member, whom others declared dead and heard of again. */
static void the_own_member_comes_back(void) {
    swimtab_node node = opened("b", 7946, 0);
    swimtab_member_data member;
    WANT(has_news(&node, "0583a446726f6da161ab496e6361726e6174696f6e00a44e6f6465a162"));
    WANT(swimtab_find(&node, "b", 1, &member) == SWIMTAB_DONE && member.state == SWIMTAB_CONFIRM && !member.came_back);
    WANT(has_news(&node, "0486a441646472a47f000001ab496e6361726e6174696f6e01a44d657461a0a44e6f6465a162a4506f7274cd1f0a"
                         "a356736ea0"));
    WANT(swimtab_find(&node, "b", 1, &member) == SWIMTAB_DONE && member.state == SWIMTAB_CONFIRM);
    WANT(member.came_back && member.address_inc == 1 && swimtab_refute(&node).status == SWIMTAB_GONE);
    WANT(swimtab_readmit(&node, "b", 1) == SWIMTAB_DONE && lists(&node, "b alive 1 1/7f000001/7946//\n"));
    WANT(swimtab_readmit(&node, "b", 1) == SWIMTAB_NOT_BACK);
    WANT(swimtab_close(&node) == 0);
}

static void a_walk_goes_on_where_it_was(void) {
    swimtab_node node = opened("m", 7946, 0);
    char told[40] = "", *at = told;
    WANT(has_news(&node, ALIVE_A_4) && has_news(&node, SUSPECT_B_1));
    swimtab_member_data member;
    member.name_len = 0;
    while (swimtab_after(&node, member.name, member.name_len, &member) == SWIMTAB_DONE) {
        at += sprintf(at, "%.*s ", (int)member.name_len, (const char *)member.name);
        /* b is forgotten while the walk is there, and c is new */
        if (member.name[0] == 'b') {
            WANT(swimtab_forget(&node, "b", 1) == SWIMTAB_DONE);
            WANT(has_news(&node, "0383a446726f6da178ab496e6361726e6174696f6e01a44e6f6465a163"));
        }
    }
    WANT(strcmp(told, "a b c m ") == 0);
    WANT(swimtab_after(&node, "bz", 2, &member) == SWIMTAB_DONE && member.name[0] == 'c');
    WANT(swimtab_after(&node, "m", 1, NULL) == SWIMTAB_NO_MEMBER && swimtab_after(&node, NULL, 3, NULL) == SWIMTAB_DONE);
    WANT(swimtab_after(NULL, "", 0, &member) == SWIMTAB_NO_NODE);
    WANT(swimtab_close(&node) == 0);
}

static void keys_are_rotated(void) {
    swimtab_keyring keys = SWIMTAB_KEYRING_INIT;
    uint8_t out[40];
    WANT(swimtab_keyring_count(NULL) == 0 && swimtab_keyring_count(&keys) == 0);
    WANT(swimtab_keyring_use(&keys, 0) == SWIMTAB_NO_ITEM && swimtab_keyring_remove(&keys, 0) == SWIMTAB_NO_ITEM);
    WANT(swimtab_keyring_key(&keys, 0, out, 40).status == SWIMTAB_NO_ITEM);
    WANT(swimtab_keyring_add(&keys, "the first of 16.", 16) == SWIMTAB_DONE);
    WANT(swimtab_keyring_add(&keys, "the second has 24 bytes.", 24) == SWIMTAB_DONE);
    WANT(swimtab_keyring_add(&keys, "the third one has 32 bytes, yes.", 32) == SWIMTAB_DONE);
    WANT(swimtab_keyring_count(&keys) == 3 && swimtab_keyring_remove(&keys, 0) == SWIMTAB_KEY_IN_USE);
    swimtab_written key = swimtab_keyring_key(&keys, 1, out, 40);
    WANT(key.status == SWIMTAB_DONE && key.len == 24 && memcmp(out, "the second has 24 bytes.", 24) == 0);
    WANT(swimtab_keyring_key(&keys, 2, out, 31).status == SWIMTAB_TOO_SMALL);
    WANT(swimtab_keyring_key(&keys, 2, NULL, 0).len == 32);
    const uint8_t nonce[SWIMTAB_NONCE_LEN] = {3};
    uint8_t by_first[60], by_second[60], read[20];
    swimtab_written one = swimtab_seal(&keys, nonce, NULL, 0, "\x08hi", 3, by_first, 60);
    WANT(swimtab_keyring_use(&keys, 1) == SWIMTAB_DONE && swimtab_keyring_use(&keys, 3) == SWIMTAB_NO_ITEM);
    WANT(swimtab_keyring_key(&keys, 0, out, 40).len == 24 && swimtab_keyring_key(&keys, 1, out, 40).len == 16);
    swimtab_written two = swimtab_seal(&keys, nonce, NULL, 0, "\x08hi", 3, by_second, 60);
    WANT(one.len == two.len && memcmp(by_first, by_second, one.len) != 0);
    WANT(swimtab_unwrap(&keys, by_first, one.len, read, 20).status == SWIMTAB_DONE);
    WANT(swimtab_keyring_remove(&keys, 1) == SWIMTAB_DONE && swimtab_keyring_count(&keys) == 2);
    WANT(swimtab_keyring_remove(&keys, 0) == SWIMTAB_KEY_IN_USE && swimtab_keyring_use(&keys, 2) == SWIMTAB_NO_ITEM);
    key = swimtab_keyring_key(&keys, 0, out, 40);
    WANT(key.status == SWIMTAB_DONE && key.len == 24 && memcmp(out, "the second has 24 bytes.", 24) == 0);
    key = swimtab_keyring_key(&keys, 1, out, 40);
    WANT(key.status == SWIMTAB_DONE && key.len == 32 && memcmp(out, "the third one has 32 bytes, yes.", 32) == 0);
    WANT(swimtab_unwrap(&keys, by_first, one.len, read, 20).status == SWIMTAB_WRONG_TAG);
    WANT(swimtab_unwrap(&keys, by_second, two.len, read, 20).status == SWIMTAB_DONE);
    WANT(swimtab_keyring_close(&keys) == SWIMTAB_DONE);
}

int main(void) {
    static const struct test tests[] = {
        {"messages are written", messages_are_written},
        {"messages that do not fit are refused", messages_that_do_not_fit_are_refused},
        {"pings and answers are read", pings_and_answers_are_read},
        {"the parts of a message are found", the_parts_of_a_message_are_found},
        {"a bad part refuses only itself", a_bad_part_refuses_only_itself},
        {"details are replaced", details_are_replaced},
        {"a member that came back is believed", a_member_that_came_back_is_believed},
        {"the own member comes back", the_own_member_comes_back},
        {"a walk goes on where it was", a_walk_goes_on_where_it_was},
        {"keys are rotated", keys_are_rotated},
    };
    return run_tests(tests, sizeof tests / sizeof *tests);
}
